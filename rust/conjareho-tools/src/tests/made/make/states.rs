//! States of dumps: what each object goes with, what it refers to, and the changes that a kernel makes in place.

use crate::user::prelude::*;

use crate::make::program::plans::state_of_lines;
use crate::plan::objects::{KindRules, State};
use crate::tc_changes::{Key, Object, Rules};
use crate::tests::made::make::runs::FORMS;
use crate::user::Fail;

// tc qdisc add dev lo root handle 1: htb; tc class add dev lo parent root classid 1:1 htb ..; tc class add dev lo parent 1:1 classid 1:10
// htb ..; tc qdisc add dev lo parent 1:10 handle 10: tbf ..; two basic filters of priority 1, to 1:10 and to 1:20, which isn't there.
const DUMPS: &str = r#"{"type":"RTM_NEWQDISC","flags":2,"message":{"header":{"family":"Unspec","index":1,"handle":"1:","parent":"root","info":2},"attributes":[{"Kind":"htb"}]}}
{"type":"RTM_NEWQDISC","flags":2,"message":{"header":{"family":"Unspec","index":1,"handle":"10:","parent":"1:10","info":2},"attributes":[{"Kind":"tbf"}]}}
{"type":"RTM_NEWTCLASS","flags":2,"message":{"header":{"family":"Unspec","index":1,"handle":"1:1","parent":"root","info":0},"attributes":[{"Kind":"htb"}]}}
{"type":"RTM_NEWTCLASS","flags":2,"message":{"header":{"family":"Unspec","index":1,"handle":"1:10","parent":"1:1","info":1048576},"attributes":[{"Kind":"htb"}]}}
{"type":"RTM_NEWTFILTER","flags":2,"message":{"header":{"family":"Unspec","index":1,"handle":"0:0","parent":"1:","info":66304},"attributes":[{"Kind":"basic"}]}}
{"type":"RTM_NEWTFILTER","flags":2,"message":{"header":{"family":"Unspec","index":1,"handle":":1","parent":"1:","info":66304},"attributes":[{"Kind":"basic"},{"Options":[{"Basic":{"ClassId":"1:10"}}]}]}}
{"type":"RTM_NEWTFILTER","flags":2,"message":{"header":{"family":"Unspec","index":1,"handle":":2","parent":"1:","info":66304},"attributes":[{"Kind":"basic"},{"Options":[{"Basic":{"ClassId":"1:20"}}]}]}}
"#;

// The class without its qdisc.
const CLASS: &str = r#"{"type":"RTM_NEWTCLASS","flags":2,"message":{"header":{"family":"Unspec","index":1,"handle":"1:1","parent":"root","info":0},"attributes":[{"Kind":"htb"}]}}
"#;

const ROOT: Key = Key::Place { index: 1, parent: 0xffff_ffff };

const LEAF: Key = Key::Place { index: 1, parent: 0x1_0010 };

const INNER: Key = Key::Class { index: 1, handle: 0x1_0001 };

const OUTER: Key = Key::Class { index: 1, handle: 0x1_0010 };

const PRIORITY: Key = Key::Priority { index: 1, parent: 0x1_0000, number: 0, priority: 1 };

const fn filter(handle: u32) -> Key {
    Key::Filter { index: 1, parent: 0x1_0000, number: 0, priority: 1, handle }
}

// An object, what it goes with, and what it refers to.
struct Needing<'a> {
    key: Key,
    under: &'a [Key],
    refers: &'a [Key],
}

fn state(text: &str) -> Result<Option<State>, Fail> {
    let mut reader = text.as_bytes();
    match state_of_lines(FORMS, None, &mut reader) {
        Ok(found) => Ok(found.state),
        Err(_) => Err(Fail::from(AllocError)),
    }
}

fn has(state: &State, wanted: &Needing<'_>) -> bool {
    let is = |object: &Object| {
        object.key == wanted.key && object.under.as_slice() == wanted.under && object.refers.as_slice() == wanted.refers
    };
    state.objects.iter().any(is)
}

#[test]
fn needs() -> Result<(), Fail> {
    let wanted = [
        Needing { key: ROOT, under: &[], refers: &[] },
        Needing { key: INNER, under: &[ROOT], refers: &[] },
        Needing { key: OUTER, under: &[ROOT], refers: &[INNER] },
        Needing { key: LEAF, under: &[OUTER], refers: &[] },
        Needing { key: PRIORITY, under: &[ROOT], refers: &[] },
        Needing { key: filter(1), under: &[PRIORITY], refers: &[OUTER] },
        Needing { key: filter(2), under: &[PRIORITY], refers: &[] },
    ];
    match state(DUMPS)? {
        Some(found) => {
            assert!(found.objects.len() == wanted.len());
            for one in &wanted {
                assert!(has(&found, one));
            }
        }
        None => return Err(Fail::from(AllocError)),
    }
    assert!(state(CLASS)?.is_none());
    Ok(())
}

// tc actions add action vlan pop index 7, and the same with cookie aabbccdd
const VLAN: &str = r#"{"type":"RTM_NEWACTION","flags":2,"message":{"header":{"family":"Unspec"},"attributes":[{"Actions":[{"tab":1,"attributes":[{"Kind":"vlan"},{"Options":[{"Vlan":{"Parms":{"generic":{"index":7,"capab":0,"action":"Pipe","refcnt":1,"bindcnt":0},"v_action":"Pop"}}}]}]}]}]}}
"#;

const VLAN_WITH_COOKIE: &str = r#"{"type":"RTM_NEWACTION","flags":2,"message":{"header":{"family":"Unspec"},"attributes":[{"Actions":[{"tab":1,"attributes":[{"Kind":"vlan"},{"Options":[{"Vlan":{"Parms":{"generic":{"index":7,"capab":0,"action":"Pipe","refcnt":1,"bindcnt":0},"v_action":"Pop"}}}]},{"Cookie":"aabbccdd"}]}]}]}}
"#;

// A kernel leaves the cookie of an action if a change has none.
#[test]
fn cookies() -> Result<(), Fail> {
    let (Some(without), Some(with)) = (state(VLAN)?, state(VLAN_WITH_COOKIE)?) else {
        return Err(Fail::from(AllocError));
    };
    match (without.objects.first(), with.objects.first()) {
        (Some(without), Some(with)) => {
            assert!(KindRules.takes(without, with));
            assert!(KindRules.takes(with, with));
            assert!(!KindRules.takes(with, without));
            Ok(())
        }
        _ => Err(Fail::from(AllocError)),
    }
}
