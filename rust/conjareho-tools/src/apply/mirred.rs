//! Where actions of mirred send packets, which is to be an interface that is there and up: Linux drops what is redirected to one that is down.

use super::messages::{all_actions, deletes};
use super::shell::word;
use super::world::Place;
use crate::netlink::Devices;
use crate::nla_frames::Nla as _;
use crate::tc_actions::{TcAction, TcActionAttribute, TcActionMirrorOption, TcActionOption};
use crate::tc_records::TcMirrorActionType;
use std::collections::BTreeMap;

/// `TCA_MIRRED_BLOCKID`: packets go to the interfaces of a block.
const TCA_MIRRED_BLOCKID: u16 = 5;

/// What is said of requests that send packets to interfaces that are down, or nowhere.
#[derive(PartialEq, Eq, Default, Debug)]
pub(crate) struct Astray {
    /// Why they aren't sent.
    pub(crate) faults: Vec<String>,
    /// What may be meant so.
    pub(crate) warnings: Vec<String>,
}

/// Looks at where these requests send packets. A redirect to an interface that is down is a fault, a copy sent there a warning, unless it may be down.
pub(crate) fn astray(steps: &[Vec<u8>], devices: &Devices, allows_down: bool) -> Astray {
    let place = Place { devices: devices.iter().cloned().collect(), blocks: Vec::new() };
    let mut said = Astray::default();
    for (target, (first, count)) in targets_of(steps) {
        let device = devices.at(target.index);
        if device.is_some_and(|device| device.is_up || allows_down) {
            continue;
        }
        let others = if count > 1 { format!(" (and {} more)", count - 1) } else { String::new() };
        let does = if target.redirects { "redirects" } else { "mirrors" };
        let what = format!("{}{others} {does} to", place.what_of(first));
        match device.map(|device| device.name.as_str()) {
            None if target.index == 0 => said.faults.push(format!("{what} an interface that isn't there any more")),
            None => said.faults.push(format!("{what} interface {}, which isn't there", target.index)),
            Some(name) if target.redirects => said.faults.push(format!(
                "{what} {name}, which is down, so that packets are dropped; set it up first (ip link set {} up), or say --allow-down",
                word(name)
            )),
            Some(name) => said.warnings.push(format!("{what} {name}, which is down")),
        }
    }
    said
}

// Where an action sends packets.
#[derive(Clone, Copy, PartialEq, Eq, PartialOrd, Ord, Debug)]
struct Target {
    index: u32,
    // Or copies of them.
    redirects: bool,
}

// The targets of what requests make or change, each with the first request and the number of all.
fn targets_of(steps: &[Vec<u8>]) -> BTreeMap<Target, (&[u8], usize)> {
    let mut found = BTreeMap::new();
    for step in steps.iter().filter(|step| !deletes(step)) {
        for target in all_actions(step).iter().filter_map(target_of) {
            found.entry(target).or_insert((step.as_slice(), 0)).1 += 1;
        }
    }
    found
}

fn target_of(action: &TcAction) -> Option<Target> {
    let options = action.attributes.iter().find_map(|attribute| match attribute {
        TcActionAttribute::Options(options) => Some(options),
        _ => None,
    })?;
    let goes_to_block = |option: &TcActionOption| match option {
        TcActionOption::Mirror(TcActionMirrorOption::Other(other)) => other.kind() == TCA_MIRRED_BLOCKID,
        _ => false,
    };
    if options.iter().any(goes_to_block) {
        return None;
    }
    options.iter().find_map(|option| match option {
        TcActionOption::Mirror(TcActionMirrorOption::Parms(parameters)) => {
            let redirects = matches!(
                parameters.eaction,
                TcMirrorActionType::EgressRedir | TcMirrorActionType::IngressRedir | TcMirrorActionType::Other(_)
            );
            Some(Target { index: parameters.ifindex, redirects })
        }
        _ => None,
    })
}

#[cfg(test)]
mod tests {
    use super::*;
    use crate::netlink::attributes::put;
    use crate::netlink::message::{HEADER, RTM_NEWACTION, RTM_NEWLINK, RTM_NEWTFILTER, Tcmsg, request, tc_request};

    // An interface, up or down.
    fn link(index: u32, name: &str, flags: u32) -> Vec<u8> {
        let mut body = [[0; 4], index.to_ne_bytes(), flags.to_ne_bytes(), [0; 4]].concat();
        put(&mut body, 3, &[name.as_bytes(), &[0]].concat());
        request(RTM_NEWLINK, 0, &body)
    }

    fn devices() -> Devices {
        Devices::in_links(&[link(7, "wan", 1), link(8, "ifb0", 0x1002), link(9, "$(id)", 0)]).expect("interfaces")
    }

    // An action of mirred, as a list of one.
    fn list(action: u32, index: u32, block: Option<u32>) -> Vec<u8> {
        let (mut options, mut list, mut one) = (Vec::new(), Vec::new(), Vec::new());
        put(&mut options, 2, &[0, 0, 4, 0, 0, action, index].map(u32::to_ne_bytes).concat());
        block.iter().for_each(|block| put(&mut options, TCA_MIRRED_BLOCKID, &block.to_ne_bytes()));
        put(&mut one, 1, b"mirred\0");
        put(&mut one, 2, &options);
        put(&mut list, 1, &one);
        list
    }

    fn filter(kind: u16, action: u32, index: u32, block: Option<u32>) -> Vec<u8> {
        let header = Tcmsg { index: 7, handle: 1, parent: 0xFFFF_FFF2, info: 0x0003_0008 };
        let mut body = tc_request(0, 0, header)[HEADER..].to_vec();
        let mut options = Vec::new();
        put(&mut options, 2, &list(action, index, block));
        put(&mut body, 1, b"matchall\0");
        put(&mut body, 2, &options);
        request(kind, 0, &body)
    }

    fn said(step: Vec<u8>, allows_down: bool) -> Astray {
        astray(&[step], &devices(), allows_down)
    }

    #[test]
    fn a_redirect_wants_one_that_is_up() {
        let of = |action, index| said(filter(RTM_NEWTFILTER, action, index, None), false);
        assert_eq!(of(1, 7), Astray::default());
        let down = "filter matchall 0x1 dev wan ingress pref 3 redirects to ifb0, which is down, so that packets are dropped; \
                    set it up first (ip link set ifb0 up), or say --allow-down";
        for action in [1, 3] {
            assert_eq!(of(action, 8).faults, [down]);
        }
        assert!(of(1, 9).faults[0].contains("(ip link set '$(id)' up)"));
        for action in [2, 4] {
            let said = of(action, 8);
            assert_eq!(said.warnings, ["filter matchall 0x1 dev wan ingress pref 3 mirrors to ifb0, which is down"]);
            assert!(said.faults.is_empty());
        }
        assert_eq!(
            [1, 2].map(|action| said(filter(RTM_NEWTFILTER, action, 8, None), true)),
            [Astray::default(), Astray::default()]
        );
    }

    #[test]
    fn none_may_be_missing() {
        for action in [1, 2] {
            let said = said(filter(RTM_NEWTFILTER, action, 77, None), true);
            assert!(said.faults[0].ends_with(" to interface 77, which isn't there"), "{said:?}");
        }
        let gone = said(filter(RTM_NEWTFILTER, 1, 0, None), true);
        assert!(gone.faults[0].ends_with("redirects to an interface that isn't there any more"), "{gone:?}");
        assert_eq!(said(filter(RTM_NEWTFILTER, 1, 0, Some(5)), false), Astray::default(), "a block");
    }

    #[test]
    fn what_is_deleted_is_no_reason_and_many_are_one() {
        assert_eq!(said(filter(RTM_NEWTFILTER + 1, 1, 8, None), false), Astray::default());
        let mut body = vec![0; 4];
        put(&mut body, 1, &list(1, 8, None));
        let of_actions = request(RTM_NEWACTION, 0x505, &body);
        let steps = [of_actions, filter(RTM_NEWTFILTER, 1, 8, None), filter(RTM_NEWTFILTER, 1, 8, None)];
        let said = astray(&steps, &devices(), false);
        assert_eq!(said.faults.len(), 1);
        assert!(said.faults[0].contains(" (and 2 more) redirects to ifb0, which is down"), "{said:?}");
    }
}
