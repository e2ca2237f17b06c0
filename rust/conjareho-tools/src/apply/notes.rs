//! What is said of a plan before it is sent, since no request says it.

use super::compare::{Key, key_of};
use super::messages::{blocks_of, deletes, kind_of, options_of, replaces, type_of};
use super::named::named;
use crate::netlink::Devices;
use crate::netlink::attributes::attribute;
use crate::netlink::message::{MAGIC_BLOCK, RTM_NEWQDISC, RTM_NEWTCLASS, RTM_NEWTFILTER, Tcmsg, tcmsg_of};
use std::collections::{BTreeMap, BTreeSet};

/// `TCA_U32_LINK`, and `TCA_HTB_PARMS`, where `struct tc_htb_opt` has the level and the priority at the end.
const TCA_U32_LINK: u16 = 3;
const TCA_HTB_PARMS: u16 = 1;
const HTB_LEVEL: usize = 36;
const HTB_PRIO: usize = 40;

/// What is said of a plan from what is there now to what is wanted.
pub(crate) fn notes(now: &[Vec<u8>], wanted: &[Vec<u8>], steps: &[Vec<u8>], devices: &Devices) -> Vec<String> {
    let all: Vec<_> = devices.iter().cloned().collect();
    let tables = Tables::of(now.iter());
    let unshown = now.iter().filter_map(|dump| Some((dump, tables.unshown(dump)?)));
    let line = |(dump, table): (&Vec<u8>, u32)| {
        format!("{} links to table {table:x}:, which no dump shows, so that it couldn't be made again", described(dump))
    };
    let mut said: Vec<String> = unshown.map(line).collect();
    said.extend(unset_priorities(now, wanted, steps));
    said.extend(made_again(now, steps));
    said.iter().map(|it| named(&all, it)).collect()
}

fn described(dump: &[u8]) -> String {
    key_of(dump).map(|key| key.to_string()).unwrap_or_default()
}

// ---- Tables of u32

/// The hash tables of u32 that dumps show.
pub(crate) struct Tables(BTreeSet<(i32, u32, u32)>);

impl Tables {
    pub(crate) fn of<'a>(dumps: impl Iterator<Item = &'a Vec<u8>>) -> Tables {
        let own = dumps.filter(|dump| is_of_u32(dump)).filter_map(|dump| tcmsg_of(dump));
        Tables(own.map(|header| table_of(header, header.handle)).collect())
    }

    /// The number of the table that a filter links to, if none of these dumps shows it. Such a table outlives its priority.
    pub(crate) fn unshown(&self, dump: &[u8]) -> Option<u32> {
        let link =
            number_in(options_of(dump).filter(|_| is_of_u32(dump))?, TCA_U32_LINK, 0).filter(|link| *link != 0)?;
        let is_shown = self.0.contains(&table_of(tcmsg_of(dump)?, link));
        (!is_shown).then_some(link >> 20)
    }
}

fn is_of_u32(dump: &[u8]) -> bool {
    type_of(dump) == RTM_NEWTFILTER && kind_of(dump) == Some(b"u32")
}

// What has a table, a qdisc or a block, and its number.
fn table_of(header: Tcmsg, handle: u32) -> (i32, u32, u32) {
    let parent = if header.index == MAGIC_BLOCK { header.parent } else { header.parent >> 16 };
    (header.index, parent, handle >> 20)
}

// ---- Classes of htb

// The classes of htb with children whose priority is another one. They don't use it, and Linux ignores a change of it.
fn unset_priorities(now: &[Vec<u8>], wanted: &[Vec<u8>], steps: &[Vec<u8>]) -> Vec<String> {
    let class = |dump: &Vec<u8>| {
        let header = tcmsg_of(dump).filter(|_| type_of(dump) == RTM_NEWTCLASS && kind_of(dump) == Some(b"htb"))?;
        let number = |at| number_in(options_of(dump)?, TCA_HTB_PARMS, at);
        number(HTB_LEVEL).filter(|level| *level != 0)?;
        Some(((header.index, header.handle), number(HTB_PRIO)?))
    };
    let made = steps.iter().filter(|step| !deletes(step) && !replaces(step));
    let made: BTreeSet<Key> = made.filter_map(|step| key_of(step)).collect();
    let there: BTreeMap<_, u32> = now.iter().filter_map(class).collect();
    let differs = |dump: &&Vec<u8>| {
        let (key, prio) = class(dump)?;
        let was = *there.get(&key)?;
        let is_made = key_of(dump).is_some_and(|key| made.contains(&key));
        (was != prio && !is_made).then(|| {
            format!("{}: prio stays {was} instead of {prio}, which no class with children uses", described(dump))
        })
    };
    wanted.iter().filter_map(|dump| differs(&dump)).collect()
}

fn number_in(options: &[u8], kind: u16, at: usize) -> Option<u32> {
    let value = attribute(options, kind).ok().flatten()?.get(at..)?.get(..4)?;
    Some(u32::from_ne_bytes(value.try_into().ok()?))
}

// ---- Filters

// The filters that are deleted and made again, by where they are; of a block with the interfaces that have it.
fn made_again(now: &[Vec<u8>], steps: &[Vec<u8>]) -> Vec<String> {
    let filters = |messages: &mut dyn Iterator<Item = &Vec<u8>>| -> Vec<Key> {
        messages
            .filter(|it| type_of(it) == RTM_NEWTFILTER)
            .filter_map(|it| key_of(it))
            .map(|key| key.within_root_table())
            .collect()
    };
    let there: BTreeSet<Key> = filters(&mut now.iter()).into_iter().collect();
    let made = filters(&mut steps.iter().filter(|step| !replaces(step)));
    let mut counts: BTreeMap<String, usize> = BTreeMap::new();
    for key in made.iter().filter(|key| there.contains(key)) {
        let ports = key.block().map(|block| ports_of(now, block)).unwrap_or_default();
        *counts.entry(format!("{}{ports}", key.place())).or_default() += 1;
    }
    let line = |(place, count): (String, usize)| {
        let (filters, them) =
            if count == 1 { ("1 filter".to_string(), "it") } else { (format!("{count} filters"), "them") };
        let are = if count == 1 { "is" } else { "are" };
        format!("{filters} of {place} {are} made again: packets pass without {them} meanwhile")
    };
    counts.into_iter().map(line).collect()
}

fn ports_of(now: &[Vec<u8>], block: u32) -> String {
    let qdiscs = now.iter().filter(|it| type_of(it) == RTM_NEWQDISC && blocks_of(it).contains(&block));
    let names: Vec<String> = qdiscs.filter_map(|it| tcmsg_of(it)).map(|it| format!("dev {}", it.index)).collect();
    if names.is_empty() { String::new() } else { format!(" in {}", names.join(", ")) }
}

#[cfg(test)]
mod tests {
    use super::*;
    use crate::netlink::attributes::put;
    use crate::netlink::message::{RTM_NEWTFILTER, tc_request};

    fn of(kind: u16, flags: u16, header: Tcmsg, name: &str, options: &[(u16, &[u8])]) -> Vec<u8> {
        let (mut message, mut list) = (tc_request(kind, flags, header), Vec::new());
        options.iter().for_each(|(kind, value)| put(&mut list, *kind, value));
        put(&mut message, 1, &[name.as_bytes(), &[0]].concat());
        put(&mut message, 2, &list);
        let len = message.len() as u32;
        message[..4].copy_from_slice(&len.to_ne_bytes());
        message
    }

    fn u32_key(handle: u32, link: u32) -> Vec<u8> {
        let header = Tcmsg { index: 7, handle, parent: 0x1_0000, info: 0x1_0008 };
        of(RTM_NEWTFILTER, 0, header, "u32", &[(TCA_U32_LINK, &link.to_ne_bytes())])
    }

    fn said(now: &[Vec<u8>], wanted: &[Vec<u8>], steps: &[Vec<u8>]) -> Vec<String> {
        notes(now, wanted, steps, &Devices::default())
    }

    #[test]
    fn a_table_that_no_dump_shows_is_named() {
        let table = u32_key(0x20_0000, 0);
        assert_eq!(said(&[table, u32_key(0x8000_0800, 0x20_0000)], &[], &[]), Vec::<String>::new());
        assert_eq!(
            said(&[u32_key(0x8000_0800, 0x20_0000)], &[], &[]),
            [
                "filter 0x80000800 dev 7 parent 1: pref 1 links to table 2:, which no dump shows, so that it couldn't be made again"
            ]
        );
    }

    #[test]
    fn a_priority_that_no_change_sets_is_named() {
        let class = |level: u32, prio: u32| {
            let parameters = [vec![0; HTB_LEVEL], [level, prio].map(u32::to_ne_bytes).concat()].concat();
            let header = Tcmsg { index: 7, handle: 0x1_0001, parent: u32::MAX, info: 0 };
            of(RTM_NEWTCLASS, 0, header, "htb", &[(TCA_HTB_PARMS, &parameters)])
        };
        let line = "class 1:1 dev 7 root: prio stays 0 instead of 7, which no class with children uses";
        assert_eq!(said(&[class(7, 0)], &[class(7, 7)], &[]), [line]);
        assert_eq!(said(&[class(7, 0)], &[class(7, 7)], &[class(7, 7)]), Vec::<String>::new(), "it is made");
        assert_eq!(said(&[class(0, 0)], &[class(7, 7)], &[]), Vec::<String>::new(), "it is changed");
    }

    #[test]
    fn filters_that_are_made_again_are_counted() {
        let filter = |index, parent, handle, flags| {
            of(RTM_NEWTFILTER, flags, Tcmsg { index, handle, parent, info: 0x1_0008 }, "bpf", &[])
        };
        let now = [filter(7, 0xFFFF_FFF3, 1, 0), filter(7, 0xFFFF_FFF3, 2, 0), filter(MAGIC_BLOCK, 11, 1, 0)];
        let mut port =
            of(RTM_NEWQDISC, 0, Tcmsg { index: 8, handle: 0xFFFF_0000, parent: 0xFFFF_FFF1, info: 0 }, "clsact", &[]);
        put(&mut port, 13, &11_u32.to_ne_bytes());
        let steps =
            [filter(7, 0xFFFF_FFF3, 2, 0x600), filter(7, 0xFFFF_FFF3, 1, 0x600), filter(MAGIC_BLOCK, 11, 1, 0x600)];
        assert_eq!(
            said(&[&now[..], &[port]].concat(), &[], &steps),
            [
                "1 filter of block 11 in dev 8 is made again: packets pass without it meanwhile",
                "2 filters of dev 7 egress are made again: packets pass without them meanwhile"
            ]
        );
        let others = [filter(7, 0xFFFF_FFF3, 1, 0x100), filter(7, 0xFFFF_FFF3, 3, 0x600)];
        assert_eq!(said(&now, &[], &others), Vec::<String>::new(), "changed, and new");
    }
}
