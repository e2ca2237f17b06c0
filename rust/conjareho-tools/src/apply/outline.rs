//! A plan as lines for people: `-` deletes, `+` makes, `~` changes; then the object as `tcshow` prints it.

use super::compare::{Held, Key, Objects, key_of, objects_of};
use super::messages::{as_new, chain_of, deletes, has_own_actions, kind_of, payload_of, replaces, type_of};
use super::requests::requests_of_dump;
use super::tree::Trees;
use super::words::differing_words;
use crate::netlink::Devices;
use crate::netlink::message::{RTM_NEWACTION, RTM_NEWCHAIN, RTM_NEWQDISC, RTM_NEWTCLASS, RTM_NEWTFILTER, tcmsg_of};
use crate::show::brief::{self, Said, lines_of};
use crate::show::columns::{KindColumns, Root};
use ::serde_json::Value;
use std::collections::BTreeMap;

/// What is said of a plan without requests.
const SAME: &str = "what is there is what is wanted";

/// The most values that a line has.
const MOST_VALUES: usize = 6;

/// The lines of a plan: one that counts, one for each request, and one for each object that goes with another one. What goes, and what comes, is in the order
/// of the tree.
pub(crate) fn lines(steps: &[Vec<u8>], now: &[Vec<u8>], wanted: &[Vec<u8>], devices: &Devices) -> Vec<String> {
    let outline = Outline::of(steps, now, wanted, devices);
    let along = outline.gone_along();
    let mut lines = vec![if steps.is_empty() { SAME.to_string() } else { outline.counted(along.len()) }];
    let (deletions, others): (Vec<&Vec<u8>>, Vec<&Vec<u8>>) = steps.iter().partition(|step| deletes(step));
    let sorted = |steps: Vec<&'_ Vec<u8>>, dumps: &[Vec<u8>]| {
        let trees = Trees::of(dumps.iter().chain(steps.iter().copied()));
        let mut steps: Vec<Vec<u8>> = steps.into_iter().cloned().collect();
        steps.sort_by_cached_key(|step| trees.way(step));
        steps
    };
    lines.extend(sorted(deletions, now).iter().flat_map(|step| outline.deleted(step)));
    lines.extend(along.iter().map(|it| format!("{}; with what it belongs to", outline.gone_line(it))));
    lines.extend(sorted(others, wanted).iter().map(|step| outline.made(step)));
    lines
}

/// How many requests a plan has, of each verb, and what stays.
pub(crate) fn counted(steps: &[Vec<u8>], now: &[Vec<u8>], wanted: &[Vec<u8>]) -> String {
    let devices = Devices::default();
    let outline = Outline::of(steps, now, wanted, &devices);
    outline.counted(outline.gone_along().len())
}

/// The changes among these requests that weren't made, each with the values that differ, those of now and those that are wanted.
pub(crate) fn unmade(steps: &[Vec<u8>], now: &[Vec<u8>], wanted: &[Vec<u8>], devices: &Devices) -> Vec<String> {
    let outline = Outline::of(steps, now, wanted, devices);
    let values = |step: &Vec<u8>| {
        let (key, _) = object_of(step)?;
        let values = outline.differing(old_of(&key, &outline.old)?, old_of(&key, &outline.wanted)?);
        Some(values).filter(|values| !values.is_empty())
    };
    let line = |step: &Vec<u8>| Some(format!("{};{}", line_of("", step, devices).trim_start(), values(step)?));
    steps.iter().filter(|step| replaces(step)).filter_map(line).collect()
}

// A plan, and what it leads from and to.
struct Outline<'a> {
    steps: &'a [Vec<u8>],
    now: &'a [Vec<u8>],
    devices: &'a Devices,
    // What there is, and what is wanted, as requests make it.
    old: Objects,
    wanted: Objects,
    // What requests delete.
    gone: Vec<Key>,
}

impl<'a> Outline<'a> {
    fn of(steps: &'a [Vec<u8>], now: &'a [Vec<u8>], wanted: &[Vec<u8>], devices: &'a Devices) -> Self {
        let gone = steps.iter().filter(|step| deletes(step)).filter_map(|step| key_of(&as_new(step))).collect();
        let of = |dumps: &[Vec<u8>]| objects_of(&requests_of_dump(dumps).requests);
        Outline { steps, now, devices, old: of(now), wanted: of(wanted), gone }
    }

    // The line of what goes, as it is dumped. Keys in a root table of u32 have no number of it in their requests.
    fn gone_line(&self, (key, held): &(&Key, &Held)) -> String {
        let is_it = |dump: &&Vec<u8>| key_of(dump).is_some_and(|own| own.within_root_table() == **key);
        let is_in_root = type_of_held(held) == RTM_NEWTFILTER && key.within_root_table() == **key;
        let dump = Some(self.now).filter(|_| is_in_root).and_then(|now| now.iter().find(is_it));
        dump.map_or_else(|| self.line("  -", held), |dump| line_of("  -", dump, self.devices))
    }

    fn line(&self, sign: &str, held: &Held) -> String {
        match held {
            Held::Request(request) => line_of(sign, request, self.devices),
            Held::Handles(_) => sign.to_string(),
        }
    }

    fn counted(&self, along: usize) -> String {
        let steps = self.steps;
        let deleted = steps.iter().filter(|step| deletes(step)).count();
        let changed = steps.iter().filter(|step| replaces(step)).count();
        let stay = self.wanted.keys().filter(|key| !key.is_order()).count().saturating_sub(steps.len() - deleted);
        let requests = if steps.len() == 1 { "1 request".to_string() } else { format!("{} requests", steps.len()) };
        let made = steps.len() - deleted - changed;
        let others = if along == 0 { String::new() } else { format!(", and {along} with them") };
        let stay = if stay == 1 { "1 object stays".to_string() } else { format!("{stay} objects stay") };
        format!("{requests}: {deleted} deleted{others}, {changed} changed, {made} made; {stay}")
    }

    // ---- What goes

    // The line of a request that deletes something. All filters of a priority go by one request.
    fn deleted(&self, step: &[u8]) -> Vec<String> {
        match self.of_priority(step).as_slice() {
            [] => {
                let dump = self.now.iter().find(|dump| is_deleted(dump, step));
                vec![line_of("  -", dump.map_or(step, Vec::as_slice), self.devices)]
            }
            [one] => vec![self.gone_line(one)],
            all => {
                let head = format!("{}; all {} filters of it", line_of("  -", step, self.devices), all.len());
                let with_it = all.iter().map(|it| format!("{}; with its priority", self.gone_line(it)));
                [head].into_iter().chain(with_it).collect()
            }
        }
    }

    // The filters that go with a priority, if a request deletes that, and not with requests of their own.
    fn of_priority(&self, step: &[u8]) -> Vec<(&Key, &Held)> {
        let is_priority = type_of(&as_new(step)) == RTM_NEWTFILTER && tcmsg_of(step).is_some_and(|it| it.handle == 0);
        let Some(key) = key_of(&as_new(step)).filter(|_| is_priority) else { return Vec::new() };
        let has_own = |filter: &Key| self.gone.iter().any(|it| *it != key && it.is_object_of(filter));
        let of_it = |it: &(&Key, &Held)| !it.0.is_order() && key.is_object_of(it.0) && !has_own(it.0);
        self.old.iter().filter(of_it).collect()
    }

    // What isn't wanted, and goes without a request of its own. Actions stay, and what has a handle that the kernel chose isn't looked for.
    fn gone_along(&self) -> Vec<(&Key, &Held)> {
        let is_wanted =
            |key: &Key| self.wanted.contains_key(key) || self.wanted.keys().any(|other| other.is_in_place_of(key));
        let goes = |key: &Key| {
            let is_object = !key.is_order() && !key.is_action() && !key.is_below_chosen();
            is_object && !is_wanted(key) && !self.gone.iter().any(|it| it.is_object_of(key))
        };
        self.old.iter().filter(|(key, _)| goes(key)).collect()
    }

    // ---- What comes

    fn made(&self, step: &[u8]) -> String {
        let sign = if replaces(step) { "  ~" } else { "  +" };
        line_of(sign, step, self.devices) + &self.more_of(step)
    }

    // What a request changes, why it makes again what is there, and what begins anew with that.
    fn more_of(&self, step: &[u8]) -> String {
        let Some((key, new)) = object_of(step) else { return String::new() };
        let Some(old) = old_of(&key, &self.old) else { return String::new() };
        // The request of a change lacks what only making it takes, which stays.
        let new = old_of(&key, &self.wanted).filter(|_| replaces(step)).unwrap_or(&new);
        let (kind, values) = (kind_in(&old.normal()).to_string(), self.differing(old, new));
        if kind != kind_in(&new.normal()) {
            return format!("; instead of {kind}");
        }
        if replaces(step) {
            let anew = if has_own_actions(step) { "; its actions count from 0" } else { "" };
            let values = if values.is_empty() { " since the tbf above gives it its own limit" } else { &values };
            return format!(";{values}{anew}");
        }
        let is_alone = self.gone.iter().any(|it| it.has_handle() && it.is_object_of(&key));
        let why = match values.as_str() {
            "" if key.is_action() => "since it goes with the last filter that holds it".to_string(),
            "" if is_alone && is_ordered(step) => "so that the order is as wanted".to_string(),
            "" => "because what it is under is".to_string(),
            _ if self.gone.iter().any(|it| it.is_object_of(&key)) => {
                format!("since this isn't changed in place:{values}")
            }
            _ => format!("because what it is under is:{values}"),
        };
        format!("; made again, {why}{}", anew_of(step))
    }

    // The values that differ, old and new, in the words of lines; those that lines don't show by where they are.
    fn differing(&self, old: &Held, new: &Held) -> String {
        let (was, is) = (old.normal(), new.normal());
        let unused: &[&str] = if is_inner(&is) { &["leaf", "quantum", "prio"] } else { &["leaf"] };
        let mut all = differing_words(&self.line("", old), &self.line("", new), unused);
        if all.is_empty() {
            all = differing_values(&was, &is);
        }
        let mut shown = all.iter().take(MOST_VALUES).map(|it| format!(" {it}")).collect::<Vec<_>>();
        if all.len() > MOST_VALUES {
            shown.push(format!(" and {} more", all.len() - MOST_VALUES));
        }
        shown.join(",")
    }
}

fn type_of_held(held: &Held) -> u16 {
    match held {
        Held::Request(request) => type_of(request),
        Held::Handles(_) => 0,
    }
}

// The object of a request.
fn object_of(step: &[u8]) -> Option<(Key, Held)> {
    objects_of(&[step.to_vec()]).into_iter().find(|(key, _)| !key.is_order())
}

// True for the dump of what a request deletes: a qdisc by its place, a filter by its handle, or its priority, which has handle 0.
fn is_deleted(dump: &[u8], step: &[u8]) -> bool {
    let (Some(own), Some(deleted)) = (tcmsg_of(dump), tcmsg_of(step)) else { return false };
    let are_same = match type_of(dump) {
        RTM_NEWQDISC => own.parent == deleted.parent,
        RTM_NEWTCLASS => own.handle == deleted.handle,
        RTM_NEWTFILTER => {
            (own.parent, own.info >> 16, own.handle) == (deleted.parent, deleted.info >> 16, deleted.handle)
        }
        _ => false,
    };
    are_same
        && type_of(dump) == type_of(&as_new(step))
        && own.index == deleted.index
        && chain_of(dump) == chain_of(step)
}

// The kind of what there is; "" for a chain without a template and for an action.
fn kind_in(value: &Value) -> &str {
    let attributes = value["attributes"].as_array().into_iter().flatten();
    attributes.filter_map(|it| it["Kind"].as_str()).next().unwrap_or_default()
}

// True for a class of htb with children, which uses neither its quantum nor its priority.
fn is_inner(value: &Value) -> bool {
    let attributes = value["attributes"].as_array().into_iter().flatten();
    let options = attributes.filter_map(|it| it["Options"].as_array()).flatten();
    options.filter_map(|it| it.pointer("/Htb/Parms/level")).any(|level| *level != 0)
}

// True for a filter of a kind where the order within a priority counts.
fn is_ordered(step: &[u8]) -> bool {
    type_of(step) == RTM_NEWTFILTER && matches!(kind_of(step), Some(b"basic" | b"bpf" | b"flow"))
}

// What begins anew with an object that is made again.
fn anew_of(step: &[u8]) -> &'static str {
    match type_of(step) {
        RTM_NEWTFILTER => "; it counts from 0, and matches nothing meanwhile",
        RTM_NEWCHAIN => "",
        _ => "; it counts from 0",
    }
}

// What there is of a key; of a qdisc what there is in its place, of a filter in a root table of u32 what has no number of that table.
fn old_of<'a>(key: &Key, now: &'a Objects) -> Option<&'a Held> {
    let in_place = || now.iter().find(|(other, _)| other.is_in_place_of(key)).map(|(_, held)| held);
    now.get(key).or_else(in_place).or_else(|| now.get(&key.within_root_table()))
}

// ---- Objects

// The line of a message about an object, after a sign.
fn line_of(sign: &str, message: &[u8], devices: &Devices) -> String {
    let Some((root, object)) = root_of(message) else {
        return format!("{sign} a request of type {}", type_of(message));
    };
    let names: Vec<(u32, &str)> = devices.iter().map(|device| (device.index, device.name.as_str())).collect();
    let columns = KindColumns { root, interfaces: &names, links: None, all: false };
    let said = Said { begin: sign.as_bytes(), object, statistics: false, port: 0, end: b"" };
    // It fails if memory runs out.
    let line = lines_of(columns, &said, payload_of(message)).unwrap_or_default();
    String::from_utf8_lossy(&line).trim_end().to_string()
}

// What a message is about.
fn root_of(message: &[u8]) -> Option<(Root, brief::Object)> {
    match type_of(&as_new(message)) {
        RTM_NEWQDISC => Some((Root::Qdisc, brief::Object::Qdisc)),
        RTM_NEWTCLASS => Some((Root::Class, brief::Object::Class)),
        RTM_NEWTFILTER if kind_of(message) == Some(b"u32") => Some((Root::U32Filter, brief::Object::Filter)),
        RTM_NEWTFILTER => Some((Root::Filter, brief::Object::Filter)),
        RTM_NEWCHAIN => Some((Root::Chain, brief::Object::Chain)),
        RTM_NEWACTION => Some((Root::Action, brief::Object::Action)),
        _ => None,
    }
}

// ---- Values that lines don't show

// The values that differ, old and new, by where they are.
fn differing_values(old: &Value, new: &Value) -> Vec<String> {
    let (mut before, mut after) = (BTreeMap::new(), BTreeMap::new());
    flatten(old, "", &mut before);
    flatten(new, "", &mut after);
    let places = before.keys().chain(after.keys().filter(|place| !before.contains_key(*place)));
    let differing = places.filter(|place| before.get(*place) != after.get(*place));
    let shown =
        |values: &BTreeMap<String, String>, place: &String| values.get(place).map_or("none", |it| it).to_string();
    differing.map(|place| format!("{place} {} -> {}", shown(&before, place), shown(&after, place))).collect()
}

// The values that aren't made of others, by where they are; what holds each attribute isn't said.
fn flatten(value: &Value, place: &str, into: &mut BTreeMap<String, String>) {
    match value {
        Value::Object(members) => {
            for (name, value) in members {
                flatten(value, &within(place, name), into);
            }
        }
        Value::Array(items) if items.iter().all(|item| item.as_object().is_some_and(|it| it.len() == 1)) => {
            items.iter().for_each(|item| flatten(item, place, into));
        }
        Value::Array(items) => {
            for (number, item) in items.iter().enumerate() {
                flatten(item, &within(place, &number.to_string()), into);
            }
        }
        Value::String(text) => drop(into.insert(place.to_string(), text.clone())),
        value => drop(into.insert(place.to_string(), value.to_string())),
    }
}

fn within(place: &str, name: &str) -> String {
    match (place, name) {
        (place, "attributes" | "header" | "Options") => place.to_string(),
        ("", name) => name.to_string(),
        (place, name) => format!("{place}/{name}"),
    }
}

#[cfg(test)]
mod tests {
    use super::*;
    use ::serde_json::json;

    #[test]
    fn names_the_values_that_differ() {
        let class = |rate: u64, prio: u32| json!({"header": {}, "attributes": [{"Kind": "htb"}, {"Options": [{"Htb": {"Parms": {"rate": {"rate": rate}, "prio": prio}}}]}]});
        assert_eq!(differing_values(&class(5, 1), &class(5, 1)), Vec::<String>::new());
        assert_eq!(differing_values(&class(5, 1), &class(7, 1)), ["Htb/Parms/rate/rate 5 -> 7"]);
        assert_eq!(differing_values(&json!({"a": 1}), &json!({"b": "x"})), ["a 1 -> none", "b none -> x"]);
    }

    // The request of a change lacks the number of flows, which only making it takes.
    #[test]
    fn a_change_says_nothing_of_what_it_leaves_out() {
        use crate::apply::plan::plan;
        use crate::netlink::attributes::put;
        use crate::netlink::message::{Tcmsg, tc_request};
        let fq_codel = |limit: u32| {
            let header = Tcmsg { index: 7, handle: 0x1_0000, parent: 0xffff_ffff, info: 2 };
            let mut message = tc_request(RTM_NEWQDISC, 2, header);
            put(&mut message, 1, b"fq_codel\0");
            let mut options = Vec::new();
            put(&mut options, 2, &limit.to_ne_bytes());
            put(&mut options, 5, &1024u32.to_ne_bytes());
            put(&mut message, 2, &options);
            let len = message.len() as u32;
            message[..4].copy_from_slice(&len.to_ne_bytes());
            message
        };
        let (now, wanted) = ([fq_codel(10)], [fq_codel(20)]);
        let steps = plan(&now, &wanted, |_| false).expect("a plan");
        let said = lines(&steps, &now, &wanted, &Devices::default());
        assert_eq!(said[0], "1 request: 0 deleted, 1 changed, 0 made; 0 objects stay");
        assert_eq!(said[1], "  ~ qdisc fq_codel 1: dev 7 root limit 20p; limit 10p -> 20p");
    }

    #[test]
    fn shows_requests_as_tcshow_does() {
        use crate::netlink::attributes::put;
        use crate::netlink::message::{Tcmsg, tc_request};
        let shown = |kind: u16, handle: u32, parent: u32, info: u32, name: &str| {
            let mut message = tc_request(kind, 0, Tcmsg { index: 7, handle, parent, info });
            put(&mut message, 1, &[name.as_bytes(), &[0]].concat());
            line_of("-", &message, &Devices::default())
        };
        let root = 0xffff_ffff;
        assert_eq!(shown(RTM_NEWQDISC, 0x1_0000, root, 0, "htb"), "- qdisc htb 1: dev 7 root");
        assert_eq!(shown(RTM_NEWTCLASS + 1, 0x1_0010, 0x1_0001, 0, "htb"), "- class htb 1:10 dev 7 parent 1:1");
        assert_eq!(
            shown(RTM_NEWTFILTER, 0x8000_0800, 0x1_0000, 0x2_0008, "u32"),
            "- filter u32 800::800 dev 7 parent 1: pref 2 protocol ip"
        );
        assert_eq!(
            shown(RTM_NEWTFILTER + 1, 1, 0xffff_fff3, 0x2_0008, "flower"),
            "- filter flower 0x1 dev 7 egress pref 2 protocol ip"
        );
    }
}
