//! Tables of u32 filters. The kernel keeps them by qdisc, so the dump of a priority shows the tables of every priority of this number below the qdisc:
//! of other classes, of other chains, of the other side of clsact. Each table that is the root of another priority is left out here. A table that a
//! user made belongs to none of them, and stays in the first.

use super::attributes::{attribute, put, text};
use super::fault::Fault;
use super::kernel::Kernel;
use super::message::*;
use super::transport::Transport;
use std::collections::BTreeMap;

const TCA_KIND: u16 = 1;
const TCA_OPTIONS: u16 = 2;
const TCA_CHAIN: u16 = 11;
const TCA_U32_DIVISOR: u16 = 4;
/// The root table of a priority, in a handle (`TC_U32_ROOT`).
const TC_U32_ROOT: u32 = 0xfff0_0000;
/// The least number of a root table that the kernel numbers.
const LEAST_ROOT: u32 = 0x800;

/// Where a priority of u32 filters is.
#[derive(Clone, Copy, PartialEq, Eq, PartialOrd, Ord, Debug)]
struct Place {
    index: i32,
    parent: u32,
    /// Priority and protocol, `tcm_info`.
    info: u32,
    chain: u32,
}

/// The interface, the qdisc and the number of a priority; the kernel shows its tables together.
type Group = (i32, u32, u32);

impl Place {
    fn group(&self) -> Group {
        let qdisc = if self.index == MAGIC_BLOCK { self.parent } else { self.parent & 0xffff_0000 };
        (self.index, qdisc, self.info >> 16)
    }
}

/// Where tables belong.
struct Tables {
    /// The number of the root table of each place.
    roots: BTreeMap<Place, u32>,
    /// The place of each root table.
    rooted: BTreeMap<(Group, u32), Place>,
    /// The first place where each table is shown.
    first: BTreeMap<(Group, u32), Place>,
}

impl Tables {
    // True if the table with this number, and what is in it, belongs to a place. Where the root isn't known, all do.
    fn belongs(&self, place: Place, number: u32) -> bool {
        let table = (place.group(), number);
        match (self.roots.get(&place), self.rooted.get(&table)) {
            (None, None) => true,
            (_, Some(root)) => *root == place,
            (Some(_), None) => self.first.get(&table) == Some(&place),
        }
    }
}

/// Filters without the tables and keys of u32 that belong elsewhere.
pub fn own_tables<T: Transport>(kernel: &mut Kernel<T>, filters: Vec<Vec<u8>>) -> Result<Vec<Vec<u8>>, Fault> {
    let mut rootlike: BTreeMap<Place, Vec<u32>> = BTreeMap::new();
    let mut first = BTreeMap::new();
    for filter in &filters {
        let Some((place, number)) = table_of(filter)? else { continue };
        let least = first.entry((place.group(), number)).or_insert(place);
        *least = place.min(*least);
        if is_rootlike(filter)? {
            rootlike.entry(place).or_default().push(number);
        }
    }
    let mut roots = BTreeMap::new();
    for (place, numbers) in &rootlike {
        let root = if let [only] = numbers[..] { Some(only) } else { root_of(kernel, place)? };
        roots.extend(root.filter(|root| numbers.contains(root)).map(|root| (*place, root)));
    }
    let rooted = roots.iter().map(|(place, root)| ((place.group(), *root), *place)).collect();
    let tables = Tables { roots, rooted, first };
    let is_own = |filter: &Vec<u8>| Ok(table_of(filter)?.is_none_or(|(place, number)| tables.belongs(place, number)));
    filters.into_iter().filter_map(|filter| is_own(&filter).map(|own| own.then_some(filter)).transpose()).collect()
}

// The place of a table of u32, or of a filter in it, and the table's number. A classifier, which has no handle, is none.
fn table_of(filter: &[u8]) -> Result<Option<(Place, u32)>, Fault> {
    let number = tcmsg_of(filter).map_or(0, |tcmsg| tcmsg.handle >> 20);
    Ok(place_of(filter)?.filter(|_| number != 0).map(|place| (place, number)))
}

// The place of a filter of kind u32.
fn place_of(filter: &[u8]) -> Result<Option<Place>, Fault> {
    let Some(tcmsg) =
        tcmsg_of(filter).filter(|_| header_of(filter).is_some_and(|header| header.kind == RTM_NEWTFILTER))
    else {
        return Ok(None);
    };
    let attributes = filter.get(HEADER + TCMSG..).unwrap_or(&[]);
    if attribute(attributes, TCA_KIND)?.map(text).as_deref() != Some("u32") {
        return Ok(None);
    }
    let chain = attribute(attributes, TCA_CHAIN)?.and_then(|value| u32_at(value, 0)).unwrap_or(0);
    Ok(Some(Place { index: tcmsg.index, parent: tcmsg.parent, info: tcmsg.info, chain }))
}

// True for a table that may be a root: of divisor 1, with a number that the kernel chooses.
fn is_rootlike(filter: &[u8]) -> Result<bool, Fault> {
    let Some(handle) = tcmsg_of(filter).map(|tcmsg| tcmsg.handle) else { return Ok(false) };
    if handle & 0xf_ffff != 0 || handle >> 20 < LEAST_ROOT || handle == TC_U32_ROOT {
        return Ok(false);
    }
    let options = attribute(filter.get(HEADER + TCMSG..).unwrap_or(&[]), TCA_OPTIONS)?.unwrap_or(&[]);
    Ok(attribute(options, TCA_U32_DIVISOR)?.and_then(|value| u32_at(value, 0)) == Some(1))
}

// The number of the root table of a priority, as the kernel says; `None` if it refuses to.
fn root_of<T: Transport>(kernel: &mut Kernel<T>, place: &Place) -> Result<Option<u32>, Fault> {
    let tcmsg = Tcmsg { index: place.index, handle: TC_U32_ROOT, parent: place.parent, info: place.info };
    let mut message = tc_request(RTM_GETTFILTER, 0, tcmsg);
    put(&mut message, TCA_KIND, b"u32\0");
    put(&mut message, TCA_CHAIN, &place.chain.to_ne_bytes());
    let len = message.len() as u32;
    message[..4].copy_from_slice(&len.to_ne_bytes());
    match kernel.request(&message) {
        Err(Fault::Refused(_)) => Ok(None),
        answers => Ok(answers?.iter().find_map(|answer| tcmsg_of(answer)).map(|tcmsg| tcmsg.handle >> 20)),
    }
}
