//! Blocks that interfaces share, and that others hold too.

use super::compare::{differences_in_blocks, objects_of};
use super::messages::{blocks_of, type_of};
use super::named::named;
use super::requests::{Asked, requests};
use super::status::{Ended, Status};
use super::targets::Targets;
use super::world::World;
use crate::netlink::Transport;
use crate::netlink::message::{MAGIC_BLOCK, RTM_NEWQDISC, tcmsg_of};
use ::serde_json::Value;
use std::collections::BTreeMap;

/// The blocks of other interfaces too, each with one of these.
pub(crate) type Others = BTreeMap<u32, u32>;

/// The blocks that interfaces hold which aren't restored, each with one of these.
pub(crate) fn blocks_of_others<T: Transport, L: Transport>(
    world: &mut World<'_, T, L>,
    targets: &Targets,
) -> Result<Others, Ended> {
    let own = targets.own();
    let mut others = Others::new();
    for qdisc in world.qdiscs()? {
        let holder = tcmsg_of(&qdisc).map(|header| header.index as u32).filter(|index| !own.contains(index));
        if let Some(holder) = holder.filter(|_| type_of(&qdisc) == RTM_NEWQDISC) {
            others.extend(blocks_of(&qdisc).into_iter().map(|block| (block, holder)));
        }
    }
    Ok(others)
}

/// True for what is in one of these blocks.
pub(crate) fn is_in_block(request: &[u8], blocks: &Others) -> bool {
    tcmsg_of(request).is_some_and(|header| header.index == MAGIC_BLOCK && blocks.contains_key(&header.parent))
}

/// Dumps without what is in these blocks.
pub(crate) fn without(dumps: &[Vec<u8>], others: &Others) -> Vec<Vec<u8>> {
    dumps.iter().filter(|dump| !is_in_block(dump, others)).cloned().collect()
}

/// An error if what is in a block of others isn't there as it is wanted.
pub(crate) fn check_blocks<T: Transport, L: Transport>(
    world: &mut World<'_, T, L>,
    others: &Others,
    wanted: &[Vec<u8>],
    targets: &Targets,
) -> Result<(), Ended> {
    let used: Others = others
        .iter()
        .filter(|(block, _)| wanted.iter().any(|it| blocks_of(it).contains(block)))
        .map(|(b, i)| (*b, *i))
        .collect();
    if used.is_empty() {
        return Ok(());
    }
    let mut holders: Vec<u32> = used.values().copied().collect();
    holders.sort_unstable();
    holders.dedup();
    let theirs = requests(&Asked { text: &as_shared(&world.lines(&holders)?), ..Asked::default() }).requests;
    let in_blocks =
        |all: &[Vec<u8>]| objects_of(&all.iter().filter(|it| is_in_block(it, &used)).cloned().collect::<Vec<_>>());
    let found = differences_in_blocks(&in_blocks(wanted), &in_blocks(&theirs));
    if found.is_empty() {
        return Ok(());
    }
    let mut said: Vec<String> = found.iter().map(|it| named(&targets.devices, it)).collect();
    said.push("a block that other interfaces hold too has something else than the save".to_string());
    Err(Ended::because(Status::NothingSent, said))
}

// A count of those who hold an action that isn't one filter's own.
const SHARED: u32 = 2;

// Lines in which each action of a filter is one that others share, so that its request has its number.
fn as_shared(lines: &str) -> String {
    let mut text = String::new();
    for line in lines.lines() {
        match filter_in(line) {
            Some(mut value) => {
                share(&mut value);
                text.push_str(&value.to_string());
            }
            None => text.push_str(line),
        }
        text.push('\n');
    }
    text
}

fn share(value: &mut Value) {
    match value {
        Value::Array(items) => items.iter_mut().for_each(share),
        Value::Object(members) => {
            let has_counts = members.contains_key("bindcnt") && members.contains_key("refcnt");
            for (name, value) in members {
                match name.as_str() {
                    "bindcnt" | "refcnt" if has_counts => *value = SHARED.into(),
                    _ => share(value),
                }
            }
        }
        _ => {}
    }
}

// The value of a line about a filter.
fn filter_in(line: &str) -> Option<Value> {
    let value: Value = line.contains("\"RTM_NEWTFILTER\"").then(|| ::serde_json::from_str(line).ok()).flatten()?;
    (value["type"] == "RTM_NEWTFILTER").then_some(value)
}
