//! Plans: the requests that bring what there is to what is wanted, by the proved plan.

use super::anew::marked;
use super::compare::{Key, key_of};
use super::messages::{actions_of, chain_of, deletes, kind_of, payload_of, replaces, shared_by, type_of};
use super::requests::{LINES_BEFORE, dumps_of, requests_of_dump};
use crate::make::program::plans::{model_of_dumps, plan_of_dumps};
use crate::make::requests::lines::{Remark, RemarkKind, Source};
use crate::netlink::message::{HEADER, RTM_NEWCHAIN, RTM_NEWQDISC, RTM_NEWTCLASS, RTM_NEWTFILTER, is_action, tcmsg_of};
use crate::nla_frames::ParseableBytes as _;
use crate::plan::objects::{KindRules, Model};
use crate::restore::{Object, request_of, request_of_actions};
use crate::streams::Stop;
use crate::tc_action_messages::TcActionMessage;
use crate::tc_changes::{self, Rules};
use crate::tc_messages::TcMessage;
use std::collections::BTreeSet;

const RTM_DELTFILTER: u16 = RTM_NEWTFILTER + 1;

/// The requests of a plan in their order, or why there is none.
pub(crate) type Plan = Result<Vec<Vec<u8>>, Vec<Fault>>;

/// Why there is no plan.
#[derive(Clone, PartialEq, Eq, Debug)]
pub(crate) struct Fault {
    /// True if it is about what there is now.
    pub(crate) is_of_now: bool,
    /// The number of the dump, from 0.
    pub(crate) place: Option<usize>,
    /// What is wrong with it.
    pub(crate) text: String,
}

// What a remark says of what no request makes.
const UNMADE: &str = "can't be made from a dump";

impl Fault {
    fn of(remark: &Remark, now: &[Vec<u8>], wanted: &[Vec<u8>]) -> Fault {
        let is_of_now = remark.source == Source::Now;
        let place = usize::try_from(remark.number).ok().and_then(|number| number.checked_sub(1));
        let own = if is_of_now { now } else { wanted };
        let why = place.filter(|_| remark.text.contains(UNMADE)).and_then(|place| unmade(own, place));
        let why = why.map(|why| format!(": {why}")).unwrap_or_default();
        Fault { is_of_now, place, text: format!("{}{why}", remark.text) }
    }
}

// Why no request makes one of these dumps, by its place, if that is so: by itself, or beside the others.
fn unmade(dumps: &[Vec<u8>], place: usize) -> Option<String> {
    let by_itself = dumps.get(place).and_then(|dump| unmade_by_itself(dump));
    by_itself.or_else(|| requests_of_dump(dumps).complaints.into_iter().find_map(|it| after_line(&it, place)))
}

// What is said of a dump after the number of its line.
fn after_line(complaint: &str, place: usize) -> Option<String> {
    let number = u64::try_from(place).ok()? + 1 + LINES_BEFORE;
    Some(complaint.strip_prefix(&format!("line {number}: "))?.to_string())
}

fn unmade_by_itself(dump: &[u8]) -> Option<String> {
    let object = match type_of(dump) {
        RTM_NEWQDISC => Object::Qdisc,
        RTM_NEWTCLASS => Object::Class,
        RTM_NEWTFILTER => Object::Filter,
        RTM_NEWCHAIN => Object::Chain,
        _ => {
            let message = TcActionMessage::parse(payload_of(dump)).ok()?;
            return request_of_actions(message).err().map(|error| error.to_string());
        }
    };
    request_of(&[], object, TcMessage::parse(payload_of(dump)).ok()?).err().map(|error| error.to_string())
}

/// The plan from what is there to what is wanted, both as dumps. Of actions, which belong to no interface, those that are wanted are made or
/// changed; of others only those for which `may_go` is true are deleted.
pub(crate) fn plan(now: &[Vec<u8>], wanted: &[Vec<u8>], may_go: impl Fn(&Key) -> bool) -> Plan {
    plan_by(&KindRules, now, wanted, may_go)
}

/// The same without changes in place: what differs is deleted and made. No other action is deleted.
pub(crate) fn plan_anew(now: &[Vec<u8>], wanted: &[Vec<u8>]) -> Plan {
    plan_by(&NoChanges, now, wanted, |_| false)
}

/// The plan that makes all that is wanted where nothing is but these actions, so that the kernel refuses what is there already. What isn't whole by
/// itself is planned beside what else there is, of which nothing goes.
pub(crate) fn plan_beside(now: &[Vec<u8>], actions: &[Vec<u8>], wanted: &[Vec<u8>]) -> Plan {
    plan(actions, wanted, |_| false).or_else(|faults| {
        let keys: Vec<Key> = wanted.iter().filter_map(|dump| key_of(dump)).collect();
        let is_wanted = |own: &Key| keys.iter().any(|key| key.is_object_of(own));
        let is_other = |dump: &&Vec<u8>| !is_action(type_of(dump)) && !key_of(dump).is_some_and(|own| is_wanted(&own));
        let others: Vec<Vec<u8>> = now.iter().filter(is_other).cloned().collect();
        let stays = |step: &Vec<u8>| !deletes(step) && (!replaces(step) || is_action(type_of(step)));
        let steps = plan(&[&others[..], actions].concat(), &[&others[..], wanted].concat(), |_| false).ok();
        steps.filter(|steps| steps.iter().all(stays)).ok_or(faults)
    })
}

// Nothing is changed in place.
struct NoChanges;

impl Rules for NoChanges {
    fn takes(&self, _old: &tc_changes::Object, _new: &tc_changes::Object) -> bool {
        false
    }

    fn can_make(&self, object: &tc_changes::Object) -> bool {
        KindRules.can_make(object)
    }

    fn is_weak(&self, key: &tc_changes::Key) -> bool {
        KindRules.is_weak(key)
    }
}

fn plan_by(rules: &impl Rules, now: &[Vec<u8>], wanted: &[Vec<u8>], may_go: impl Fn(&Key) -> bool) -> Plan {
    let keys = named(now, &may_go);
    let mut all = wanted.to_vec();
    all.extend(others(now, wanted, may_go));
    requests(rules, &keys, &marked(now, wanted), &all)
        .unwrap_or_else(|_| Err(vec![Fault { is_of_now: true, place: None, text: "out of memory".to_string() }]))
}

fn requests(rules: &impl Rules, keys: &[tc_changes::Key], now: &[Vec<u8>], wanted: &[Vec<u8>]) -> Result<Plan, Stop> {
    let planned = plan_of_dumps(rules, keys, dumps_of(now), dumps_of(wanted))?;
    let complaints = planned.remarks.iter().filter(|remark| remark.kind == RemarkKind::Complaint);
    let faults: Vec<Fault> = complaints.map(|remark| Fault::of(remark, now, wanted)).collect();
    if planned.is_void || !faults.is_empty() {
        return Ok(Err(faults));
    }
    let cgroups = filters_of_cgroup(now);
    let made = planned.requests.iter().map(|request| Ok(with_priority(request.netlink()?, &cgroups)));
    made.collect::<Result<Vec<_>, _>>().map(Ok)
}

// What a filter is found by: interface, parent, priority, handle and chain.
type OfFilter = (i32, u32, u32, u32, u32);

fn of_filter(message: &[u8]) -> Option<OfFilter> {
    tcmsg_of(message).map(|it| (it.index, it.parent, it.info >> 16, it.handle, chain_of(message)))
}

fn filters_of_cgroup(now: &[Vec<u8>]) -> BTreeSet<OfFilter> {
    let is_it = |dump: &&Vec<u8>| type_of(dump) == RTM_NEWTFILTER && kind_of(dump) == Some(b"cgroup");
    now.iter().filter(is_it).filter_map(|dump| of_filter(dump)).collect()
}

// The request that deletes a filter. Linux deletes one of cgroup only with its priority, which has no other filter.
fn with_priority(request: Vec<u8>, cgroups: &BTreeSet<OfFilter>) -> Vec<u8> {
    let is_of_cgroup =
        type_of(&request) == RTM_DELTFILTER && of_filter(&request).is_some_and(|filter| cgroups.contains(&filter));
    let mut request = request;
    if let Some(handle) = request.get_mut(HEADER + 8..HEADER + 12).filter(|_| is_of_cgroup) {
        handle.fill(0);
    }
    request
}

/// The model of a kernel that goes through the requests of the same plan as [`plan`]'s, if there is one.
pub(crate) fn model(now: &[Vec<u8>], wanted: &[Vec<u8>]) -> Option<Model> {
    let stays = |_: &Key| false;
    let mut all = wanted.to_vec();
    all.extend(others(now, wanted, stays));
    model_of_dumps(&KindRules, &named(now, stays), dumps_of(&marked(now, wanted)), dumps_of(&all)).ok().flatten()
}

// What may change although no wanted dump names it: the interfaces and blocks of now, and the actions that may go.
fn named(now: &[Vec<u8>], may_go: impl Fn(&Key) -> bool) -> Vec<tc_changes::Key> {
    let (actions, objects): (Vec<_>, Vec<_>) = now.iter().partition(|dump| is_action(type_of(dump)));
    let places = objects.into_iter().filter_map(|dump| tcmsg_of(dump));
    let places = places.map(|it| tc_changes::Key::Place { index: it.index, parent: it.parent });
    let own = actions.into_iter().flat_map(|dump| actions_of(dump)).map(|action| action.key());
    places.chain(own.filter(|key| may_go(key)).filter_map(|key| action_named(&key))).collect()
}

fn action_named(key: &Key) -> Option<tc_changes::Key> {
    let Key::Action(name, index) = key else { return None };
    let mut kind = [0; 16];
    kind.get_mut(..name.len())?.copy_from_slice(name.as_bytes());
    Some(tc_changes::Key::Action { kind, index: *index })
}

// The actions of now that wanted filters share, and that stay although nobody wants them by themselves. All others are elsewhere.
fn others(now: &[Vec<u8>], wanted: &[Vec<u8>], may_go: impl Fn(&Key) -> bool) -> Vec<Vec<u8>> {
    let own = |messages: &[Vec<u8>]| {
        messages.iter().filter(|it| is_action(type_of(it))).flat_map(|it| actions_of(it)).collect::<Vec<_>>()
    };
    let named: BTreeSet<Key> = own(wanted).iter().map(|action| action.key()).collect();
    let shared: BTreeSet<Key> = wanted.iter().flat_map(|it| shared_by(it)).map(|action| action.key()).collect();
    let stays = |key: &Key| shared.contains(key) && !named.contains(key) && !may_go(key);
    own(now).into_iter().filter(|action| stays(&action.key())).map(|action| action.change()).collect()
}

#[cfg(test)]
mod tests {
    use super::*;
    use crate::netlink::attributes::put;
    use crate::netlink::message::{Tcmsg, tc_request};

    #[test]
    fn a_filter_of_cgroup_goes_with_its_priority() {
        let of = |kind, handle, name: &str| {
            let mut message = tc_request(kind, 0, Tcmsg { index: 7, handle, parent: 0xFFFF_FFF3, info: 0x001B_0000 });
            put(&mut message, 1, &[name.as_bytes(), &[0]].concat());
            let len = message.len() as u32;
            message[..4].copy_from_slice(&len.to_ne_bytes());
            message
        };
        let now = [of(RTM_NEWTFILTER, 1, "cgroup"), of(RTM_NEWTFILTER, 2, "basic")];
        let handle = |number| {
            tcmsg_of(&with_priority(of(RTM_DELTFILTER, number, ""), &filters_of_cgroup(&now))).map(|it| it.handle)
        };
        assert_eq!([1, 2, 3].map(handle), [Some(0), Some(2), Some(3)]);
    }
}
