//! Requests that are accepted, and planted ones that aren't.

use super::super::messages::replaces;
use super::super::plan::plan;
use super::super::sending::Sending;
use super::super::tests::fake::{Fake, object};
use super::super::world::World;
use super::*;
use crate::netlink::Device;
use crate::netlink::attributes::put;
use crate::netlink::message::{
    HEADER, MAGIC_BLOCK, RTM_DELACTION, RTM_DELQDISC, RTM_GETACTION, RTM_GETQDISC, RTM_NEWACTION, RTM_NEWCHAIN,
    RTM_NEWLINK, RTM_NEWQDISC, RTM_NEWTCLASS, RTM_NEWTFILTER, Tcmsg, request, tc_request, tcmsg_of,
};

const RTM_DELTCLASS: u16 = RTM_NEWTCLASS + 1;
const WAN: i32 = 7;
const BLOCK: u32 = 22;

// wan, block 22, and what a dump of action gact 5 names.
fn place() -> Place {
    let wan = Device { index: WAN as u32, name: "wan".to_string(), ..Device::default() };
    Place { devices: vec![wan], blocks: vec![BLOCK] }
}

fn is_accepted(message: &[u8]) -> bool {
    let mut scope = Scope::of(&place());
    scope.add_actions_of(&[made("gact", 2, 5)]);
    scope.check(&place(), &[message.to_vec()]).is_ok()
}

fn at(kind: u16, index: i32, parent: u32) -> Vec<u8> {
    tc_request(kind, 0x604, Tcmsg { index, parent, ..Tcmsg::default() })
}

fn nest(attributes: &[(u16, &[u8])]) -> Vec<u8> {
    let mut list = Vec::new();
    attributes.iter().for_each(|(kind, value)| put(&mut list, *kind, value));
    list
}

fn of_actions(kind: u16, actions: &[Vec<u8>]) -> Vec<u8> {
    let numbered: Vec<(u16, &[u8])> = (1..).zip(actions.iter().map(Vec::as_slice)).collect();
    let flags = if kind == RTM_DELACTION { 4 } else { 0x604 };
    request(kind, flags, &[&[0; 4], &nest(&[(1, &nest(&numbered))])[..]].concat())
}

// Parameters with an index and no holder.
fn parameters(index: u32) -> Vec<u8> {
    [index, 0, 2, 1, 0, 0, 0, 0, 0, 0, 0, 0, 1, 0].map(u32::to_ne_bytes).concat()
}

fn action(kind: &str, parameters_type: u16, index: u32) -> Vec<u8> {
    nest(&[(1, kind.as_bytes()), (2, &nest(&[(parameters_type, &parameters(index))]))])
}

fn made(kind: &str, parameters_type: u16, index: u32) -> Vec<u8> {
    of_actions(RTM_NEWACTION, &[action(kind, parameters_type, index)])
}

fn deleted(kind: &str, index: u32) -> Vec<u8> {
    of_actions(RTM_DELACTION, &[nest(&[(1, kind.as_bytes()), (3, &index.to_ne_bytes())])])
}

#[test]
fn what_is_asked_for_is_accepted() {
    let placed = [RTM_NEWQDISC, RTM_DELQDISC, RTM_NEWTCLASS, RTM_NEWTFILTER, RTM_NEWCHAIN];
    assert!(placed.into_iter().all(|kind| is_accepted(&at(kind, WAN, 0x1_0000))));
    assert!(is_accepted(&at(RTM_NEWTFILTER, MAGIC_BLOCK, BLOCK)));
    assert!(is_accepted(&made("gact", 2, 5)) && is_accepted(&deleted("gact", 5)) && is_accepted(&deleted("gact\0", 5)));
}

#[test]
fn no_other_interface_or_block() {
    for index in [0, 1, 8, 0x107, -2, i32::MAX, i32::MIN] {
        assert!(!is_accepted(&at(RTM_NEWQDISC, index, 0xFFFF_FFFF)), "{index}");
    }
    for number in [0, 7, 21, 0x16_0000] {
        assert!(!is_accepted(&at(RTM_NEWTFILTER, MAGIC_BLOCK, number)), "{number}");
    }
}

#[test]
fn a_qdisc_joins_no_other_block() {
    let joins = |blocks: &[(u16, u32)]| {
        let mut body = at(RTM_NEWQDISC, WAN, 0xFFFF_FFF1)[HEADER..].to_vec();
        blocks.iter().for_each(|(kind, number)| put(&mut body, *kind, &number.to_ne_bytes()));
        request(RTM_NEWQDISC, 0x604, &body)
    };
    assert!(is_accepted(&joins(&[(13, BLOCK)])) && is_accepted(&joins(&[(13, BLOCK), (14, BLOCK)])));
    assert!(!is_accepted(&joins(&[(13, 23)])) && !is_accepted(&joins(&[(13, BLOCK), (14, 23)])));
    assert!(!is_accepted(&joins(&[(13, BLOCK), (13, 23)])), "the kernel takes the last");
}

#[test]
fn no_other_action() {
    let other = [made("gact", 2, 6), made("mirred", 2, 5), made("gact", 2, 0), deleted("gact", 6), deleted("pass", 5)];
    assert!(!other.iter().any(|message| is_accepted(message)));
    let two = |kind, second| of_actions(kind, &[action("gact", 2, 5), second]);
    assert!(is_accepted(&two(RTM_NEWACTION, action("gact", 2, 5))));
    assert!(!is_accepted(&two(RTM_NEWACTION, action("gact", 2, 6))));
    // no kind, no index, no parameters
    for own in [nest(&[(3, &[5, 0, 0, 0])]), nest(&[(1, b"gact")]), nest(&[(1, b"gact"), (2, &[])])] {
        let own = [own];
        assert!(![RTM_NEWACTION, RTM_DELACTION].into_iter().any(|kind| is_accepted(&of_actions(kind, &own))));
    }
    // all of a kind
    assert!(!is_accepted(&of_actions(RTM_DELACTION, &[nest(&[(1, b"gact")])])));
}

// `linux/tc_act/*.h`: TCA_.._PARMS, TCA_POLICE_TBF, TCA_CTINFO_ACT, TCA_PEDIT_PARMS_EX.
#[test]
fn each_kind_has_its_parameters() {
    let kinds: [(u16, &[&str]); 4] = [
        (1, &["connmark", "csum", "ct", "ife", "nat", "police"]),
        (
            2,
            &[
                "bpf",
                "gact",
                "gate",
                "mirred",
                "mpls",
                "pedit",
                "sample",
                "simple",
                "skbedit",
                "skbmod",
                "tunnel_key",
                "vlan",
            ],
        ),
        (3, &["ctinfo"]),
        (4, &["pedit"]),
    ];
    for (number, kind) in kinds.into_iter().flat_map(|(number, kinds)| kinds.iter().map(move |kind| (number, *kind))) {
        let mut scope = Scope::of(&place());
        scope.actions.insert((kind.to_string(), 5));
        let is_accepted = |own: &[u8]| scope.check(&place(), &[own.to_vec()]).is_ok();
        assert!(is_accepted(&made(kind, number, 5)), "{kind}");
        assert!(!is_accepted(&made(kind, number, 6)) && !is_accepted(&made(kind, 9, 5)), "{kind}");
    }
}

#[test]
fn no_other_messages() {
    assert!(
        ![0, 1, RTM_NEWLINK, RTM_GETQDISC, 39, 101 + 1, 1000].into_iter().any(|kind| is_accepted(&at(kind, WAN, 0)))
    );
    let one = at(RTM_NEWQDISC, WAN, 0xFFFF_FFFF);
    assert!((0..one.len()).all(|len| !is_accepted(&one[..len])), "cut");
    assert!(!is_accepted(&[&one[..], &at(RTM_NEWQDISC, 8, 0xFFFF_FFFF)].concat()), "two at once");
    let mut broken = one;
    broken.extend([9, 0, 1, 0, b'd', b'r', b'r', 0]);
    broken[..4].copy_from_slice(&44_u32.to_ne_bytes());
    assert!(!is_accepted(&broken), "an attribute longer than what is there");
}

#[test]
fn nothing_is_sent_if_one_of_them_is_wrong() {
    let fake = Fake::new(Box::new(|_, _, _| None));
    let mut world = World::new(fake.kernel(), fake.listener(1), fake.listener(2), &|| None);
    let place = place();
    let mut sending = Sending::new(&mut world, &place, false);
    let made = |index| {
        let header = Tcmsg { index, handle: 0x1_0000, parent: 0xFFFF_FFFF, info: 0 };
        request(RTM_NEWQDISC, 0x604, &object(RTM_NEWQDISC, header, "drr", &[])[HEADER..])
    };
    fn steps(requests: &[Vec<u8>]) -> Requests<'_> {
        Requests { now: &[], wanted: &[], requests }
    }
    let stop = sending.carry_out(steps(&[made(WAN), made(8)])).expect_err("refused").to_string();
    assert!(stop.starts_with("the request to make qdisc drr 1: dev 8 root isn't one for what is asked for"), "{stop}");
    assert!(stop.contains("please report this"));
    let gone = tc_request(RTM_DELQDISC, 4, Tcmsg { index: WAN, handle: 0x1_0000, parent: 0xFFFF_FFFF, info: 0 });
    sending.carry_out(steps(&[made(WAN), gone])).expect_err("there is none");
    assert!(!sending.has_sent() && fake.state.borrow().sent.is_empty());
    sending.carry_out(steps(&[made(WAN)])).expect("sent");
    assert_eq!(fake.state.borrow().sent.len(), 1);
}

// The bytes of a request or a dump with another number at an offset.
fn with(message: &[u8], at: usize, number: u32) -> Vec<u8> {
    let mut message = message.to_vec();
    message[at..at + 4].copy_from_slice(&number.to_ne_bytes());
    message
}

fn of(kind: u16, handle: u32, parent: u32, info: u32, name: &str, options: &[(u16, u32)]) -> Vec<u8> {
    object(kind, Tcmsg { index: WAN, handle, parent, info }, name, options)
}

// drr with two classes, two filters of one priority, and a chain.
fn state(quantum: u32) -> Vec<Vec<u8>> {
    let filter = |handle, class| of(RTM_NEWTFILTER, handle, 0x1_0000, 0x0003_0008, "fw", &[(1, class)]);
    vec![
        of(RTM_NEWQDISC, 0x1_0000, 0xFFFF_FFFF, 0, "drr", &[]),
        of(RTM_NEWTCLASS, 0x1_0010, 0x1_0000, 0, "drr", &[(1, quantum)]),
        of(RTM_NEWTCLASS, 0x1_0020, 0x1_0000, 0, "drr", &[(1, quantum + 1)]),
        of(RTM_NEWTFILTER, 0, 0x1_0000, 0x0003_0008, "fw", &[]),
        filter(1, 0x1_0010),
        filter(2, 0x1_0020),
    ]
}

fn is_named(now: &[Vec<u8>], wanted: &[Vec<u8>], requests: &[Vec<u8>]) -> bool {
    check_named(&place(), Requests { now, wanted, requests }).is_ok()
}

fn but(state: &[Vec<u8>], left_out: usize) -> Vec<Vec<u8>> {
    state.iter().enumerate().filter(|(place, _)| *place != left_out).map(|(_, dump)| dump.clone()).collect()
}

#[test]
fn what_is_planned_is_named() {
    let (now, other) = (state(1000), state(2000));
    let lists = [now.clone(), other.clone(), but(&now, 5), but(&now, 4), but(&other, 5), Vec::new(), now[..1].to_vec()];
    let mut count = 0;
    for now in &lists {
        for wanted in &lists {
            let steps = plan(now, wanted, |_| false).expect("a plan");
            assert!(is_named(now, wanted, &steps), "{steps:x?}");
            count += steps.len();
        }
    }
    assert!(count > 40, "{count}");
    // what leads back isn't what leads there
    for (more, less) in [(&now, but(&now, 5)), (&now, now[..1].to_vec()), (&now, Vec::new())] {
        assert!(!is_named(&less, more, &plan(more, &less, |_| false).expect("a plan")));
    }
}

#[test]
fn a_delete_is_of_one_object() {
    let now = state(1000);
    let gone = |place: usize| plan(&now, &but(&now, place), |_| false).expect("a plan");
    let filter = gone(5);
    assert_eq!((filter.len(), tcmsg_of(&filter[0]).map(|it| it.handle)), (1, Some(2)));
    assert!(is_named(&now, &but(&now, 5), &filter));
    for handle in [0, 1, 3, 0x1_0020] {
        assert!(!is_named(&now, &but(&now, 5), &[with(&filter[0], 24, handle)]), "{handle}");
    }
    assert!(!is_named(&now, &but(&now, 5), &[with(&filter[0], 32, 0)]), "all priorities");
    assert!(!is_named(&now, &but(&now, 5), &[with(&filter[0], 28, 0x2_0000)]), "another parent");
    // a priority goes if nothing of it is wanted
    assert!(is_named(&now, &now[..3], &[with(&filter[0], 24, 0)]));
    let class = tc_request(RTM_DELTCLASS, 4, Tcmsg { index: WAN, handle: 0x1_0020, parent: 0, info: 0 });
    assert!(is_named(&now, &but(&now, 2), std::slice::from_ref(&class)));
    for handle in [0, 0x1_0010, 0x1_0030] {
        assert!(!is_named(&now, &but(&now, 2), &[with(&class, 24, handle)]), "{handle:x}");
    }
    let qdisc = tc_request(RTM_DELQDISC, 4, Tcmsg { index: WAN, handle: 0x1_0000, parent: 0xFFFF_FFFF, info: 0 });
    assert!(is_named(&now, &[], std::slice::from_ref(&qdisc)) && !is_named(&now, &now, std::slice::from_ref(&qdisc)));
    assert!(!is_named(&now, &[], &[with(&qdisc, 24, 0)]) && !is_named(&now, &[], &[with(&qdisc, 28, 0x1_0010)]));
    let again = [qdisc, request(RTM_NEWQDISC, 0x604, &now[0][HEADER..])];
    assert!(is_named(&now, &now[..1], &again));
    assert!(!is_named(&now, &now[..1], &[again[1].clone(), again[0].clone()]), "made before");
}

// A table of u32 is dumped as a filter, and the kernel makes that of a priority.
#[test]
fn a_priority_of_u32_goes_with_its_table() {
    let dump = |handle| of(RTM_NEWTFILTER, handle, 0x1_0000, 0x0001_0008, "u32", &[]);
    let [now, wanted] = [[0, 0x8000_0000, 0x8000_0800], [0, 0x8010_0000, 0x8010_0801]].map(|all| all.map(dump));
    let gone = |handle, info| tc_request(RTM_NEWTFILTER + 1, 4, Tcmsg { index: WAN, handle, parent: 0x1_0000, info });
    let made = |handle| request(RTM_NEWTFILTER, 0x604, &dump(handle)[HEADER..]);
    assert!(is_named(&now, &wanted, &[gone(0, 0x0001_0000), made(0x801)]));
    assert!(
        !is_named(&now, &wanted, &[gone(0, 0x0001_0000)])
            && !is_named(&now, &wanted, &[gone(0, 0x0001_0000), made(0x802)])
    );
    assert!(is_named(&now, &wanted, &[gone(0x8000_0800, 0x0001_0000)]));
}

#[test]
fn a_flush_is_no_delete() {
    let now = [made("gact", 2, 5)];
    assert!(is_named(&now, &[], &[deleted("gact", 5)]));
    let mut all = deleted("gact", 5);
    all[6..8].copy_from_slice(&0x105_u16.to_ne_bytes());
    assert!(!is_named(&now, &[], &[all]), "NLM_F_ROOT");
}

#[test]
fn a_change_is_of_one_object_of_its_kind() {
    let now = state(1000);
    let steps = plan(&now, &state(2000), |_| false).expect("a plan");
    assert_eq!(steps.iter().filter(|step| replaces(step)).count(), 2);
    for (place, step) in steps.iter().enumerate() {
        for (at, number) in [(24, 0), (24, 0x1_0030), (20, 8)] {
            let mut wrong = steps.clone();
            wrong[place] = with(step, at, number);
            assert!(!is_named(&now, &state(2000), &wrong), "{at}");
        }
        // the header alone, and another kind
        let header = request(RTM_NEWTCLASS, 0x104, &step[HEADER..HEADER + 20]);
        assert!(!is_named(&now, &state(2000), &[header]));
        let mut other = step.clone();
        other[40..43].copy_from_slice(b"htb");
        assert!(!is_named(&now, &state(2000), &[other]));
    }
}

#[test]
fn actions_that_are_deleted_or_changed_are_there() {
    let listed = of_actions(RTM_NEWACTION, &[action("gact", 2, 4), action("police", 1, 5), action("gact", 2, 5)]);
    // RTM_GETACTION is the type of dumps of actions.
    let mut dumped = made("mirred", 2, 6);
    dumped[4..6].copy_from_slice(&RTM_GETACTION.to_ne_bytes());
    let now = [dumped, listed];
    let change = |message: &[u8]| {
        let mut message = message.to_vec();
        message[6..8].copy_from_slice(&0x105_u16.to_ne_bytes());
        message
    };
    for (kind, number, index, is) in [
        ("gact", 2, 4, true),
        ("gact", 2, 5, true),
        ("police", 1, 5, true),
        ("police", 1, 4, false),
        ("gact", 2, 6, false),
        ("mirred", 2, 6, true),
        ("mirred", 2, 5, false),
    ] {
        assert_eq!(is_named(&now, &[], &[deleted(kind, index)]), is, "{kind} {index}");
        assert_eq!(is_named(&now, &[], &[change(&made(kind, number, index))]), is, "{kind} {index}");
        assert!(is_named(&now, &[], &[made(kind, number, index)]), "what is made isn't there");
    }
}
