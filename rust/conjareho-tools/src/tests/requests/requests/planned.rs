//! Dumps that need one another, by the places of their requests. The attributes that need nothing are left out.

use crate::user::prelude::*;

use crate::plan::restored::{
    Dependencies, Fate, Item, Key, Order, Reason, Step, circle, dependencies_of, dependencies_of_actions,
    made_by_filters, offloaded_by, plan, shared_action,
};
use crate::restore::{Object, RestoreError};
use crate::tc_action_messages::TcActionMessageAttribute;
use crate::tests::requests::requests::in_hex::{action_message, tc_message};
use crate::user::Fail;

// What is dumped.
#[derive(Clone, Copy)]
enum Dump {
    Qdisc,
    Class,
    Chain,
    Filter,
    Actions,
    // Actions of which a request can't be made.
    RefusedActions,
}

// A tree of classes, a chain, and a table of u32, each before what it needs.
const TREE: &[(Dump, &str)] = &[
    // 1:0, chain 5: flower, 0x1
    (Dump::Filter, "00000000030000000100000000000100080001c008000b0005000000"),
    // 1:20 under 1:2
    (Dump::Class, "0000000003000000200001000200010000000000"),
    // 1:0, chain 5
    (Dump::Chain, "000000000300000000000000000001000000000008000b0005000000"),
    // 1:0, chain 0: u32, 800::800
    (Dump::Filter, "00000000030000000008008000000100080002c00800010075333200"),
    // 1:2 under 1:0
    (Dump::Class, "0000000003000000020001000000010000000000"),
    // 1:0, chain 0: the table 800: of u32
    (Dump::Filter, "00000000030000000000008000000100080002c00800010075333200"),
    // 2: under 1:20
    (Dump::Qdisc, "0000000003000000000002002000010000000000"),
    // 1: at the root
    (Dump::Qdisc, "000000000300000000000100ffffffff00000000"),
    // 1: at the root of another interface
    (Dump::Qdisc, "000000000400000000000100ffffffff00000000"),
];

// Filters of blocks, and of one side of clsact.
const BLOCKS: &[(Dump, &str)] = &[
    // in block 7
    (Dump::Filter, "00000000ffffffff0100000007000000080001c0"),
    // in block 9
    (Dump::Filter, "00000000ffffffff0100000009000000080001c0"),
    // ffff:fff3
    (Dump::Filter, "000000000300000001000000f3ffffff080001c0"),
    // clsact, whose blocks are 7 and 9
    (Dump::Qdisc, "00000000030000000000fffff1ffffff0000000008000d000700000008000e0009000000"),
];

// Filters of u32 and what they wait for: their own tables, and those that they link to.
const LINKED: &[(Dump, &str)] = &[
    // a classifier of flower
    (Dump::Filter, "00000000030000000000000000000100080001c00b000100666c6f7765720000"),
    // 801::800, which links to 9:
    (Dump::Filter, "00000000030000000008108000000100080002c008000100753332000c0002000800030000009000"),
    // 9:1:800
    (Dump::Filter, "00000000030000000018900000000100080002c00800010075333200"),
    // 801::800 of 1:1, another parent of the qdisc, which links to 9:
    (Dump::Filter, "00000000030000000008108001000100080002c008000100753332000c0002000800030000009000"),
    // 800::800, whose table isn't there
    (Dump::Filter, "00000000030000000008008000000100080001c00800010075333200"),
    // the table 9:
    (Dump::Filter, "00000000030000000000900000000100080002c00800010075333200"),
    // the table 801:
    (Dump::Filter, "00000000030000000000108000000100080002c00800010075333200"),
];

// Two classes that are each other's parent, and a qdisc under one of them.
const CIRCLE: &[(Dump, &str)] = &[
    // 1:1 under 1:2
    (Dump::Class, "0000000003000000010001000200010000000000"),
    // 1: at the root
    (Dump::Qdisc, "000000000300000000000100ffffffff00000000"),
    // 1:2 under 1:1
    (Dump::Class, "0000000003000000020001000100010000000000"),
    // 2: under 1:2
    (Dump::Qdisc, "0000000003000000000002000200010000000000"),
];

// What can't be made: a class whose parent, a class, isn't there, and a qdisc under it; a second dump; a filter that doesn't say
// its side of clsact.
const REFUSED: &[(Dump, &str)] = &[
    // 1: at the root
    (Dump::Qdisc, "000000000300000000000100ffffffff00000000"),
    // 1:20 under 1:2
    (Dump::Class, "0000000003000000200001000200010000000000"),
    // 2: under 1:20
    (Dump::Qdisc, "0000000003000000000002002000010000000000"),
    // 1: at the root
    (Dump::Qdisc, "000000000300000000000100ffffffff00000000"),
    // clsact
    (Dump::Qdisc, "00000000040000000000fffff1ffffff000000000b000100636c7361637400"),
    // ffff:0
    (Dump::Filter, "0000000004000000010000000000ffff080001c0"),
];

// A chain without a template, and the filter in it; a filter of a shared block that two interfaces dump.
const MADE: &[(Dump, &str)] = &[
    (Dump::Chain, "000000000300000000000000000001000000000008000b0005000000"),
    (Dump::Filter, "00000000030000000100000000000100080001c008000b0005000000"),
    (Dump::Filter, "00000000ffffffff0100000007000000080001c0"),
    (Dump::Filter, "00000000ffffffff0100000007000000080001c0"),
];

// A class of hfsc, its root class, which has the handle of the qdisc, and the qdisc.
const ROOT_CLASS: &[(Dump, &str)] = &[
    // 1:1 under 1:
    (Dump::Class, "0000000003000000010001000000010000000000"),
    // 1: at the root, a class
    (Dump::Class, "000000000300000000000100ffffffff00000000"),
    // 1: at the root
    (Dump::Qdisc, "000000000300000000000100ffffffff00000000"),
];

// A class and its qdisc: one step is left where the other is made.
const ONE_LEFT: &[(Dump, &str)] = &[
    // 1:1 under 1:
    (Dump::Class, "0000000003000000010001000000010000000000"),
    // 1: at the root
    (Dump::Qdisc, "000000000300000000000100ffffffff00000000"),
];

// Dumps of actions, and a filter that may share any of them; last, actions that can't be made, which the filter has in full.
const ACTIONS: &[(Dump, &str)] = &[
    // ffff:fff2
    (Dump::Filter, "000000000300000001000000f2ffffff080001c0"),
    // gact 4
    (
        Dump::Actions,
        "00000000300001002c0000000900010067616374000000001c0002001800020004000000000000000000000001000000\
00000000",
    ),
    // gact 5, and gact 4 again
    (
        Dump::Actions,
        "000000005c0001002c0000000900010067616374000000001c0002001800020005000000000000000000000001000000\
000000002c0001000900010067616374000000001c000200180002000400000000000000000000000100000000000000",
    ),
    // nat 4
    (
        Dump::Actions,
        "000000003c00010038000000080001006e6174002c0002002800010004000000000000000000000001000000\
000000000a07000105060708ffffffff01000000",
    ),
    // gact with a free index, twice
    (
        Dump::Actions,
        "00000000300001002c0000000900010067616374000000001c0002001800020000000000000000000000000001000000\
00000000",
    ),
    (
        Dump::Actions,
        "00000000300001002c0000000900010067616374000000001c0002001800020000000000000000000000000001000000\
00000000",
    ),
    (Dump::RefusedActions, "00000000"),
];

// A qdisc that the kernel made, below a class of mqprio in no traffic class, the class, and mqprio.
const DEFAULTS: &[(Dump, &str)] = &[
    // 0: under 8001:5
    (Dump::Qdisc, "0000000003000000000000000500018000000000"),
    // 8001:5 under 0:
    (Dump::Class, "0000000003000000050001800000000000000000"),
    // 8001: at the root
    (Dump::Qdisc, "000000000300000000000180ffffffff00000000"),
];

// Filters that share gact 5, of which one has `skip_hw`; a filter with an own gact.
const SHARED: &[(Dump, &str)] = &[
    // flower, with its own gact
    (
        Dump::Filter,
        "000000000300000001000000f2ffffff080001c00b000100666c6f77657200003c000200080016000800000030000300\
2c0001000900010067616374000000001c000200180002000900000000000000000000000100000001000000",
    ),
    // flower with skip_hw, and gact 5
    (
        Dump::Filter,
        "000000000300000002000000f2ffffff080001c00b000100666c6f77657200003c000200080016000100000030000300\
2c0001000900010067616374000000001c000200180002000500000000000000000000000200000002000000",
    ),
    // matchall, and gact 5
    (
        Dump::Filter,
        "000000000300000001000000f2ffffff080002c00d0001006d61746368616c6c000000003c0002000800030008000000\
300002002c0001000900010067616374000000001c000200180002000500000000000000000000000200000002000000",
    ),
    // gact 5, which two filters hold
    (
        Dump::Actions,
        "00000000300001002c0000000900010067616374000000001c0002001800020005000000000000000000000002000000\
02000000",
    ),
];

fn object_dependencies(place: usize, object: Object, digits: &str) -> Result<Dependencies, Fail> {
    let dump = tc_message(digits)?;
    Ok(dependencies_of(place, Fate::Request, object, &[], &dump)?)
}

fn action_dependencies(place: usize, fate: Fate, digits: &str) -> Result<Dependencies, Fail> {
    let dump = action_message(digits)?;
    Ok(dependencies_of_actions(place, fate, &dump)?)
}

// A dump, as a plan has to know it.
fn dumped(place: usize, dump: Dump, digits: &str) -> Result<Dependencies, Fail> {
    match dump {
        Dump::Qdisc => object_dependencies(place, Object::Qdisc, digits),
        Dump::Class => object_dependencies(place, Object::Class, digits),
        Dump::Chain => object_dependencies(place, Object::Chain, digits),
        Dump::Filter => object_dependencies(place, Object::Filter, digits),
        Dump::Actions => action_dependencies(place, Fate::Request, digits),
        Dump::RefusedActions => {
            let fate = Fate::Refused(Reason::Restore(RestoreError::GotoChain));
            action_dependencies(place, fate, digits)
        }
    }
}

// The actions of dumps that filters share.
fn shared_in(rows: &[(Dump, &str)]) -> Result<Vec<Key>, Fail> {
    let mut keys = Vec::new();
    for (dump, digits) in rows {
        if let Dump::Actions = dump {
            for attribute in &action_message(digits)?.attributes {
                if let TcActionMessageAttribute::Actions(actions) = attribute {
                    for action in actions {
                        keys.extend(shared_action(action));
                    }
                }
            }
        }
    }
    Ok(keys)
}

// The actions of filters with an offload flag.
fn offloaded_in(rows: &[(Dump, &str)]) -> Result<Vec<Key>, Fail> {
    let mut keys = Vec::new();
    for (dump, digits) in rows {
        if let Dump::Filter = dump {
            keys.try_extend(&offloaded_by(tc_message(digits)?)?)?;
        }
    }
    Ok(keys)
}

#[test]
fn shared_actions_of_offloaded_filters() -> Result<(), Fail> {
    let offloaded = offloaded_in(SHARED)?;
    let keys = made_by_filters(shared_in(SHARED)?, &offloaded);
    let action = Key::Action { kind: *b"gact\0\0\0\0\0\0\0\0\0\0\0\0", index: 5 };
    assert!(keys.len() == 1 && keys.contains(&action));
    assert!(made_by_filters(shared_in(ACTIONS)?, &offloaded).is_empty());
    Ok(())
}

fn planned(rows: &[(Dump, &str)]) -> Result<Order<Item, Key>, Fail> {
    let mut dumps = Vec::new();
    for (place, (dump, digits)) in rows.iter().enumerate() {
        dumps.try_push(dumped(place, *dump, digits)?)?;
    }
    Ok(plan(dumps)?)
}

// True if steps have these places.
fn are_at(steps: &[Step<Item, Key>], places: &[usize]) -> bool {
    let mut rest = steps;
    for place in places {
        match rest.split_first() {
            Some((step, others)) if step.item.place == *place => rest = others,
            _ => return false,
        }
    }
    rest.is_empty()
}

// True if dumps come into an order at these places, and those at others are left.
fn come_in(rows: &[(Dump, &str)], order: &[usize], left: &[usize]) -> Result<bool, Fail> {
    let made = planned(rows)?;
    Ok(are_at(&made.sorted, order) && are_at(&made.unordered, left))
}

// Dumps, the places of those that come into an order, and of those that are left.
static ORDERS: [(&[(Dump, &str)], &[usize], &[usize]); 7] = [
    (TREE, &[7, 8, 2, 0, 4, 1, 5, 3, 6], &[]),
    // one that is left comes last
    (ONE_LEFT, &[1, 0], &[]),
    // root classes after their qdisc
    (ROOT_CLASS, &[2, 0, 1], &[]),
    // blocks before their filters
    (BLOCKS, &[3, 0, 1, 2], &[]),
    // circles are left
    (CIRCLE, &[1], &[2, 0, 3]),
    // keys after their own tables and those that they link to, and after no others
    (LINKED, &[0, 4, 5, 6, 1, 2, 3], &[]),
    // a handle of 0 is no qdisc
    (DEFAULTS, &[2, 1, 0], &[]),
];

#[test]
fn each_after_what_it_needs() -> Result<(), Fail> {
    for (dumps, order, left) in &ORDERS {
        assert!(come_in(dumps, order, left)?, "{order:?}");
    }
    Ok(())
}

// Dumps with their fates: of those that come into an order, and of those that are left.
static FATES: [(&[(Dump, &str)], &[(usize, &str)], &[(usize, &str)]); 3] = [
    // what can't be made has a reason
    (
        REFUSED,
        &[(0, "request"), (4, "request")],
        &[
            (1, "the parent class is missing"),
            (2, "request"),
            (3, "a second dump of this"),
            (5, "the parent ffff: doesn't say which side of clsact"),
        ],
    ),
    // what others make is no request
    (MADE, &[(0, "made"), (1, "request"), (2, "request"), (3, "made")], &[]),
    // actions before filters, and once
    (
        ACTIONS,
        &[(1, "request"), (3, "request"), (4, "request"), (5, "request"), (0, "request")],
        &[(2, "a second dump of this"), (6, "can't be restored: goto chain of an action that no filter has")],
    ),
];

// How many of the steps that are left are in an order, and how many in a circle.
fn around(left: &[Step<Item, Key>]) -> Result<(usize, usize), AllocError> {
    let around = circle(left)?;
    Ok((around.sorted.len(), around.unordered.len()))
}

fn around_in(rows: &[(Dump, &str)]) -> Result<(usize, usize), Fail> {
    Ok(around(&planned(rows)?.unordered)?)
}

#[test]
fn circles_of_what_is_left() -> Result<(), Fail> {
    assert!(around_in(ORDERS[4].0)? == (0, 3));
    // 2: needs 1:20, and is in no circle
    assert!(around_in(FATES[0].0)? == (4, 0));
    Ok(())
}

fn has_fate(item: &Item, text: &str) -> bool {
    match &item.fate {
        Fate::Request => text == "request",
        Fate::Made => text == "made",
        Fate::There => text == "there",
        Fate::Change => text == "change",
        Fate::Refused(reason) => match crate::user::formatted(format_args!("{reason}")) {
            Ok(reason) => reason.as_str() == text,
            Err(_) => false,
        },
    }
}

// True if steps have these places and fates.
fn have_fates(steps: &[Step<Item, Key>], fates: &[(usize, &str)]) -> bool {
    let mut rest = steps;
    for (place, fate) in fates {
        match rest.split_first() {
            Some((step, others)) if step.item.place == *place && has_fate(&step.item, fate) => {
                rest = others;
            }
            _ => return false,
        }
    }
    rest.is_empty()
}

// True if dumps come into an order with these fates, and those with others are left.
fn come_to(rows: &[(Dump, &str)], order: &[(usize, &str)], left: &[(usize, &str)]) -> Result<bool, Fail> {
    let made = planned(rows)?;
    Ok(have_fates(&made.sorted, order) && have_fates(&made.unordered, left))
}

#[test]
fn each_with_its_fate() -> Result<(), Fail> {
    for (dumps, order, left) in &FATES {
        assert!(come_to(dumps, order, left)?, "{order:?}");
    }
    Ok(())
}

// A chain of ingress, dumped under ffff:0, and a filter in it, dumped under ffff:fff3.
static INGRESS: [&str; 2] = [
    "0000000003000000000000000000ffff0000000008000b0005000000",
    "000000000300000001000000f3ffffff080001c008000b0005000000",
];

// True if the chain is made by its filter, where these interfaces have ingress.
fn is_one_chain(ingress: &[i32]) -> Result<bool, Fail> {
    let mut dumps = Vec::new();
    let objects = [Object::Chain, Object::Filter];
    for (place, (object, digits)) in objects.iter().zip(INGRESS.iter()).enumerate() {
        let dump = tc_message(digits)?;
        let dependencies = dependencies_of(place, Fate::Request, *object, ingress, &dump)?;
        dumps.try_push(dependencies)?;
    }
    let made = plan(dumps)?;
    Ok(made.sorted.iter().any(|step| step.item.fate == Fate::Made))
}

#[test]
fn one_parent_below_ingress() -> Result<(), Fail> {
    assert!(is_one_chain(&[2, 3])?);
    assert!(!is_one_chain(&[2])?);
    Ok(())
}
