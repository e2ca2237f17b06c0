//! What is wanted: the objects of a save, for the interfaces of today.

use super::arguments::{Arguments, Way};
use super::compare::{Key, Objects, key_of, objects_of};
use super::file::{Save, read_save};
use super::hardware;
use super::messages::{TCA_OPTIONS, actions_of, kind_of, options_of, type_of};
use super::named::named;
use super::notes::Tables;
use super::plan::Fault;
use super::queues::Queues;
use super::requests::{Asked, requests};
use super::status::{Ended, Status};
use super::targets::{STRANGE, Targets, targets_of};
use super::world::World;
use crate::forms_kinds::{ACTION_MESSAGE, TC_MESSAGE, TcTables};
use crate::make::messages::Forms;
use crate::make::requests::lines::{Dumped, Reading, RemarkKind, Source, read_lines};
use crate::netlink::attributes::put;
use crate::netlink::message::{RTM_NEWQDISC, RTM_NEWTCLASS, Tcmsg, is_action, request, tcmsg_of};
use crate::netlink::{Devices, Transport};
use crate::tc_texts::handle_text;
use std::collections::{BTreeMap, BTreeSet};

/// What a script begins with.
const SCRIPT: &[u8] = b"#!";

/// What is wanted.
#[derive(Debug)]
pub(crate) struct Wanted {
    pub(crate) targets: Targets,
    /// The dumps of the save, with the indices of today.
    pub(crate) messages: Vec<Vec<u8>>,
    // The numbers of their lines.
    numbers: Vec<u64>,
    /// The requests that make them.
    pub(crate) requests: Vec<Vec<u8>>,
    // What the file is called.
    file: String,
    /// What they make.
    pub(crate) objects: Objects,
    /// How many filters were in hardware.
    pub(crate) in_hardware: usize,
    /// Something can't be made, was named and is left out.
    pub(crate) is_partial: bool,
}

impl Wanted {
    /// What is said of actions, with the numbers of their lines.
    pub(crate) fn said_of_actions(&self, actions: Vec<(Key, String)>) -> Vec<String> {
        let has = |message: &&Vec<u8>, key: &Key| is_action(type_of(message)) && key_in(message, key);
        let fault = |(key, text): (Key, String)| Fault {
            is_of_now: false,
            place: self.messages.iter().position(|message| has(&message, &key)),
            text,
        };
        actions.into_iter().map(|it| self.said_of_one(&fault(it))).collect()
    }

    /// Leaves out dumps, which aren't these interfaces' to change.
    pub(crate) fn leave_out(&mut self, is_left: impl Fn(&[u8]) -> bool) {
        let dumps = std::mem::take(&mut self.messages).into_iter().zip(std::mem::take(&mut self.numbers));
        (self.messages, self.numbers) = dumps.filter(|(message, _)| !is_left(message)).unzip();
    }

    /// Why there is no plan to what is wanted, with the numbers of lines.
    pub(crate) fn said_of(&self, faults: &[Fault]) -> Vec<String> {
        faults.iter().map(|fault| self.said_of_one(fault)).collect()
    }

    fn said_of_one(&self, fault: &Fault) -> String {
        let line = fault.place.and_then(|place| self.numbers.get(place));
        let text = named(&self.targets.devices, &fault.text);
        match (fault.is_of_now, line) {
            (true, _) => format!("what is there now: {text}"),
            (false, Some(number)) => format!("{}: line {number}: {text}", self.file),
            (false, None) => format!("{}: {text}", self.file),
        }
    }
}

/// Reads a save, and finds its interfaces. Warnings are added to `said`.
pub(crate) fn wanted_of<T: Transport, L: Transport>(
    arguments: &Arguments,
    file: Vec<u8>,
    world: &mut World<'_, T, L>,
    said: &mut Vec<String>,
) -> Result<Wanted, Ended> {
    let save = save_in(arguments, file)?;
    let devices = Devices::of(&mut world.kernel)?;
    let nothing = |said: Vec<String>| Ended::because(Status::NothingSent, said);
    let targets = targets_of(&save, arguments, &devices).map_err(nothing)?;
    said.extend(targets.warnings.iter().cloned());
    let names = names_of(&save, &targets);
    let asked = Asked { text: &save.text, names: save.head.as_ref().map(|_| names.as_slice()), index: targets.only };
    let in_file = |text: &String| format!("{}: {text}", arguments.file_name());
    let in_lines = |faults: Vec<String>| nothing(faults.iter().map(in_file).collect());
    let mut made = requests(&asked);
    made.requests.iter_mut().for_each(complete);
    said.extend(made.notices.iter().map(in_file));
    // Whether there is a plan to what can't be made, the plan says; but where nothing is, all is to be made.
    let is_partial = arguments.way != Way::Change && !made.complaints.is_empty();
    if is_partial && (made.is_void || !arguments.partial) {
        return Err(in_lines(made.complaints));
    }
    let mut dumps = messages_in(&asked, arguments.partial).map_err(in_lines)?;
    let objects = objects_of(&made.requests);
    if is_partial {
        said.extend(made.complaints.iter().map(in_file));
        let is_made = |number: &u64| !made.unmade.contains(number);
        dumps = dumps
            .into_iter()
            .flat_map(|dump| if is_made(&dump.0) { vec![dump] } else { left_of(dump, &objects) })
            .collect();
    }
    let faults = faults_in(&dumps, &targets);
    if !faults.is_empty() {
        return Err(in_lines(faults));
    }
    let (numbers, messages) = dumps.into_iter().unzip();
    Ok(Wanted {
        messages,
        numbers,
        file: arguments.file_name(),
        objects,
        requests: made.requests,
        in_hardware: hardware::count(save.lines()),
        targets,
        is_partial,
    })
}

// What is left of the dump of a line with something that can't be made: the actions in it that are made.
fn left_of((number, message): (u64, Vec<u8>), objects: &Objects) -> Vec<(u64, Vec<u8>)> {
    let listed = if is_action(type_of(&message)) { actions_of(&message) } else { Vec::new() };
    let made = listed.into_iter().filter(|action| objects.contains_key(&action.key()));
    made.map(|action| (number, action.change())).collect()
}

// The save of a file.
fn save_in(arguments: &Arguments, file: Vec<u8>) -> Result<Save, Ended> {
    let refused = |why: String| Ended::because(Status::NothingSent, vec![format!("{}: {why}", arguments.file_name())]);
    if file.starts_with(SCRIPT) && arguments.way == Way::Change {
        let words = if !arguments.devs.is_empty() { "--" } else { "--dev DEV --" };
        let said = format!("{} is a script: write {words} before it", arguments.file_name());
        return Err(Ended::because(Status::NothingSent, vec![said]));
    }
    let save = read_save(file).map_err(|error| refused(error.to_string()))?;
    // Indices may be other interfaces' today.
    match arguments.way {
        _ if save.head.is_some() => Ok(save),
        Way::Anew => Err(refused("--clear requires a save with a head and an end".to_string())),
        Way::Change if arguments.devs.is_empty() => {
            Err(refused("it has no head with names of interfaces: --dev DEV says which one it is of".to_string()))
        }
        Way::Change | Way::Beside => Ok(save),
    }
}

// The names of the save, and the interfaces that have them today.
fn names_of<'a>(save: &'a Save, targets: &Targets) -> Vec<(u32, &'a str)> {
    let names = save.head.iter().flat_map(|head| &head.names);
    names.filter_map(|(index, name)| Some((*targets.indices.get(index)?, name.as_str()))).collect()
}

// True for a message about this action.
fn key_in(message: &[u8], key: &Key) -> bool {
    actions_of(message).iter().any(|action| action.key() == *key)
}

// The dumps of lines, with the numbers of these. The error is what is wrong with lines, unless those are left out.
pub(crate) fn messages_in(asked: &Asked<'_>, leaves_out: bool) -> Result<Vec<(u64, Vec<u8>)>, Vec<String>> {
    let forms = Forms { table: TcTables, tc: TC_MESSAGE, action: ACTION_MESSAGE };
    let index = asked.index.and_then(|index| i32::try_from(index).ok());
    let reading = Reading { source: Source::Wanted, index, names: asked.names };
    let lines =
        read_lines(forms, reading, &mut asked.text.as_bytes()).map_err(|_| vec!["out of memory".to_string()])?;
    let complaints = lines.remarks.iter().filter(|remark| remark.kind == RemarkKind::Complaint);
    let faults: Vec<String> = complaints.map(|remark| format!("line {}: {}", remark.number, remark.text)).collect();
    if lines.is_void || !faults.is_empty() && !leaves_out {
        return Err(faults);
    }
    let message = |it: &Dumped| {
        let given = &it.made.given;
        let mut message = request(given.kind.unwrap_or_default(), 0, &it.made.bytes);
        message[6..8].copy_from_slice(&given.flags.to_ne_bytes());
        complete(&mut message);
        (it.number, message)
    };
    Ok(lines.dumps.iter().map(message).collect())
}

// Who writes a qdisc of filters by hand may leave out the options, which are empty: Linux shows them.
fn complete(message: &mut Vec<u8>) {
    let is_of_filters = matches!(kind_of(message), Some(b"clsact" | b"ingress"));
    if type_of(message) == RTM_NEWQDISC && is_of_filters && options_of(message).is_none() {
        put(message, TCA_OPTIONS, &[]);
        let len = message.len() as u32;
        message[..4].copy_from_slice(&len.to_ne_bytes());
    }
}

// What the save has twice, what is of another interface than those that it is of, and what has a class as its parent that it doesn't have.
fn faults_in(dumps: &[(u64, Vec<u8>)], targets: &Targets) -> Vec<String> {
    let mut faults = Vec::new();
    let mut seen = BTreeMap::new();
    let classes = Classes::of(dumps.iter().map(|(_, message)| message));
    let queues = Queues::of(dumps.iter().map(|(_, message)| message), &targets.devices);
    let tables = Tables::of(dumps.iter().map(|(_, message)| message));
    for (number, message) in dumps {
        let Some(key) = key_of(message) else { continue };
        let name = named(&targets.devices, &key);
        if let Some(fault) = queues.fault(message) {
            faults.push(format!("line {number}: {name}: {fault}"));
        }
        if let Some(table) = tables.unshown(message) {
            faults.push(format!("line {number}: {name}: it links to table {table:x}:, which the save doesn't have"));
        }
        if targets.is_strange(message) {
            faults.push(format!("line {number}: {name}: {STRANGE}"));
        }
        if let Some(parent) = tcmsg_of(message).and_then(|header| classes.missing(header)) {
            faults.push(format!("line {number}: {name}: the class that is its parent, {parent}, is missing"));
        }
        if let Some(first) = seen.insert(key, *number) {
            faults.push(format!("line {number}: {name}: line {first} has it too"));
        }
    }
    faults
}

/// The kinds of qdiscs whose classes are made by requests.
const WITH_CLASSES: [&[u8]; 6] = [b"htb", b"hfsc", b"drr", b"qfq", b"cbq", b"atm"];

// The classes of dumps, and of the qdiscs that have such the upper halves of their handles, by interface.
#[derive(Default)]
struct Classes {
    handles: BTreeSet<(i32, u32)>,
    majors: BTreeSet<(i32, u32)>,
}

impl Classes {
    fn of<'a>(dumps: impl Iterator<Item = &'a Vec<u8>>) -> Classes {
        let mut classes = Classes::default();
        for message in dumps {
            let Some(header) = tcmsg_of(message) else { continue };
            if type_of(message) == RTM_NEWTCLASS {
                classes.handles.insert((header.index, header.handle));
            } else if type_of(message) == RTM_NEWQDISC
                && kind_of(message).is_some_and(|kind| WITH_CLASSES.contains(&kind))
            {
                classes.majors.insert((header.index, header.handle >> 16));
            }
        }
        classes
    }

    // The parent of an object, if that is a class of such a qdisc that isn't there.
    fn missing(&self, header: Tcmsg) -> Option<String> {
        let parent = header.parent;
        let is_class = parent & 0xFFFF != 0 && self.majors.contains(&(header.index, parent >> 16));
        let is_there = self.handles.contains(&(header.index, parent));
        (is_class && !is_there).then(|| handle_text(parent).as_str().to_string())
    }
}

#[cfg(test)]
mod tests {
    use super::*;
    use crate::netlink::Device;
    use crate::netlink::message::{RTM_NEWTFILTER, tc_request};

    fn of(kind: u16, handle: u32, parent: u32, name: &str) -> Vec<u8> {
        let mut message = tc_request(kind, 0, Tcmsg { index: 7, handle, parent, info: 0 });
        put(&mut message, 1, &[name.as_bytes(), &[0]].concat());
        let len = message.len() as u32;
        message[..4].copy_from_slice(&len.to_ne_bytes());
        message
    }

    #[test]
    fn a_link_to_a_table_that_is_nowhere() {
        let key = |link: u32| {
            let mut message =
                tc_request(RTM_NEWTFILTER, 0, Tcmsg { index: 7, handle: 0x8000_0800, parent: 0x1_0000, info: 8 });
            let mut options = Vec::new();
            put(&mut options, 3, &link.to_ne_bytes());
            put(&mut message, 1, b"u32\0");
            put(&mut message, 2, &options);
            message
        };
        let wan = Device { index: 7, name: "wan".to_string(), ..Device::default() };
        let targets = Targets { devices: vec![wan], ..Targets::default() };
        assert_eq!(
            faults_in(&[(2, key(0x50_0000))], &targets),
            ["line 2: filter 0x80000800 dev wan parent 1: pref 0: it links to table 5:, which the save doesn't have"]
        );
        assert_eq!(faults_in(&[(2, key(0))], &targets), Vec::<String>::new());
    }

    #[test]
    fn clsact_has_empty_options() {
        let mut message = of(RTM_NEWQDISC, 0xFFFF_0000, 0xFFFF_FFF1, "clsact");
        let len = message.len();
        complete(&mut message);
        assert_eq!((message.len(), options_of(&message).is_some()), (len + 4, true));
        assert_eq!(message[..4], (len as u32 + 4).to_ne_bytes());
        complete(&mut message);
        assert_eq!(message.len(), len + 4, "once");
        let mut other = of(RTM_NEWQDISC, 0x1_0000, u32::MAX, "prio");
        complete(&mut other);
        assert!(options_of(&other).is_none());
    }

    #[test]
    fn a_parent_that_is_nowhere() {
        let tree = [
            of(RTM_NEWQDISC, 0x1_0000, u32::MAX, "htb"),
            of(RTM_NEWTCLASS, 0x1_0010, 0x1_0000, "htb"),
            of(RTM_NEWQDISC, 0x2_0000, 0x1_0010, "prio"),
        ];
        let classes = Classes::of(tree.iter());
        let missing = |parent| classes.missing(Tcmsg { index: 7, parent, ..Tcmsg::default() });
        assert_eq!(missing(0x1_0020).as_deref(), Some("1:20"));
        // the qdisc itself, a class that is there, a class that the kernel makes
        assert_eq!([0x1_0000, 0x1_0010, 0x2_0001].map(missing), [None, None, None]);
    }
}
