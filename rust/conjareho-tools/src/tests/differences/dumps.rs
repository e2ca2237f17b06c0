//! Differences between small dumps. Their numbers are those of `tc`'s words: 10mbit is 1,250,000 bytes a second.

use crate::user::prelude::*;

use crate::forms_kinds::{ACTION_MESSAGE, TC_MESSAGE, TcTables};
use crate::make::messages::Forms;
use crate::make::program::plans::state_of_lines;
use crate::plan::objects::State;
use crate::show::differences::{DifferenceLines, difference_lines};
use crate::user::Fail;
use core::str;

const CAKE_10: &str = r#"{"type":"RTM_NEWQDISC","flags":0,"message":{"header":{"family":"Unspec","index":1,"handle":"1:","parent":"root","info":2},"attributes":[{"Kind":"cake"},{"Options":[{"Cake":{"BaseRate64":1250000}},{"Cake":{"Autorate":0}}]}]}}
"#;

const CAKE_20: &str = r#"{"type":"RTM_NEWQDISC","flags":0,"message":{"header":{"family":"Unspec","index":1,"handle":"1:","parent":"root","info":3},"attributes":[{"Kind":"cake"},{"Options":[{"Cake":{"BaseRate64":2500000}},{"Cake":{"Memory":4096}}]}]}}
"#;

// The same htb, after 7 and 9 packets past all classes.
const HTB: &str = r#"{"type":"RTM_NEWQDISC","flags":0,"message":{"header":{"family":"Unspec","index":1,"handle":"1:","parent":"root","info":2},"attributes":[{"Kind":"htb"},{"Options":[{"Htb":{"Init":{"version":196625,"rate2quantum":10,"defcls":48,"debug":0,"direct_pkts":7}}}]}]}}
"#;

const HTB_LATER: &str = r#"{"type":"RTM_NEWQDISC","flags":2,"message":{"header":{"family":"Unspec","index":1,"handle":"1:","parent":"root","info":2},"attributes":[{"Kind":"htb"},{"Options":[{"Htb":{"Init":{"version":196625,"rate2quantum":10,"defcls":48,"debug":0,"direct_pkts":9}}}]}]}}
"#;

const CLASS: &str = r#"{"type":"RTM_NEWTCLASS","flags":0,"message":{"header":{"family":"Unspec","index":1,"handle":"1:10","parent":"1:","info":0},"attributes":[{"Kind":"htb"},{"Options":[{"Htb":{"DirectQlen":1000}}]}]}}
"#;

// Priority 6 of u32 without filters, and one in chain 7.
const PRIORITY: &str = r#"{"type":"RTM_NEWTFILTER","flags":2,"message":{"header":{"family":"Unspec","index":1,"handle":"0:0","parent":"1:","info":393984},"attributes":[{"Kind":"u32"}]}}
"#;

const PRIORITY_IN_CHAIN: &str = r#"{"type":"RTM_NEWTFILTER","flags":2,"message":{"header":{"family":"Unspec","index":1,"handle":"0:0","parent":"1:","info":393984},"attributes":[{"Kind":"u32"},{"Chain":7}]}}
"#;

// A dump that was interrupted (`NLM_F_DUMP_INTR`).
const INTERRUPTED: &str = r#"{"type":"RTM_NEWQDISC","flags":18,"message":{"header":{"family":"Unspec","index":1,"handle":"1:","parent":"root","info":2},"attributes":[{"Kind":"htb"},{"Options":[{"Htb":{"Init":{"version":196625,"rate2quantum":10,"defcls":48,"debug":0,"direct_pkts":7}}}]}]}}
"#;

const CUT: &str = r#"{"save":1,"names":{"1":"lo"}}
"#;

const FORMS: Forms<TcTables> = Forms { table: TcTables, tc: TC_MESSAGE, action: ACTION_MESSAGE };

fn state(text: &str, there: Option<&State>) -> Result<Option<State>, Fail> {
    let mut reader = text.as_bytes();
    match state_of_lines(FORMS, there, &mut reader) {
        Ok(found) => Ok(found.state),
        Err(_) => Err(Fail::from(AllocError)),
    }
}

// The differences between what two texts show.
fn between(before: &str, after: &str) -> Result<Option<DifferenceLines>, Fail> {
    let Some(before) = state(before, None)? else {
        return Ok(None);
    };
    let Some(after) = state(after, Some(&before))? else {
        return Ok(None);
    };
    match difference_lines(&[(1, "lo")], &before, &after) {
        Ok(lines) => Ok(Some(lines)),
        Err(_) => Err(Fail::from(AllocError)),
    }
}

// True if there are differences, and these lines.
fn differ(before: &str, after: &str, wanted: &str) -> Result<bool, Fail> {
    match between(before, after)? {
        Some(lines) => Ok(lines.differ && core::str::from_utf8(&lines.text) == Ok(wanted)),
        None => Ok(false),
    }
}

#[test]
fn differences_of_dumps() -> Result<(), Fail> {
    let class = "class htb 1:10 dev lo parent 1: direct_qlen 1000p\n";
    let with_class = crate::user::formatted(format_args!("{HTB}{CLASS}"))?;
    let gone = crate::user::formatted(format_args!("- {class}"))?;
    let new = crate::user::formatted(format_args!("+ {class}"))?;
    assert!(differ(with_class.as_str(), HTB_LATER, gone.as_str())?);
    assert!(differ(HTB, with_class.as_str(), new.as_str())?);
    let changed = "\
~ qdisc cake 1: dev lo root bandwidth 20Mbit memlimit 4KiB
    options/base_rate64 1250000 B/s (10Mbit) -> 2500000 B/s (20Mbit)
    options/autorate 0 -> none
    options/memory none -> 4096B
";
    assert!(differ(CAKE_10, CAKE_20, changed)?);
    Ok(())
}

#[test]
fn priorities_without_filters() -> Result<(), Fail> {
    let with_priority = crate::user::formatted(format_args!("{HTB}{PRIORITY}"))?;
    let in_chain = crate::user::formatted(format_args!("{HTB}{PRIORITY_IN_CHAIN}"))?;
    let gone = "- filter u32 - dev lo parent 1: pref 6 protocol all\n";
    let new = "+ filter u32 - dev lo parent 1: pref 6 protocol all chain 7\n";
    assert!(differ(with_priority.as_str(), HTB, gone)?);
    assert!(differ(HTB, in_chain.as_str(), new)?);
    Ok(())
}

#[test]
fn no_differences() -> Result<(), Fail> {
    match between(HTB, HTB_LATER)? {
        Some(lines) => assert!(!lines.differ && lines.text.is_empty()),
        None => return Err(Fail::from(AllocError)),
    }
    // a dump that was interrupted, a save that is cut, and an object twice
    let twice = crate::user::formatted(format_args!("{HTB}{HTB}"))?;
    assert!(between(HTB, INTERRUPTED)?.is_none());
    assert!(between(CUT, HTB)?.is_none());
    assert!(between(HTB, twice.as_str())?.is_none());
    Ok(())
}
