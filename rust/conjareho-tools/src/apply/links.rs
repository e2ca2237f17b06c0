//! What a command did to interfaces besides traffic control. That isn't applied, so what it makes of one interface may drop packets without it.

use super::shell::word;
use crate::netlink::{Device, Devices};
use std::collections::BTreeSet;

/// The interfaces where a command ran.
#[derive(Debug)]
pub(crate) struct Ran {
    /// Those that it found; all of them down.
    pub(crate) found: Devices,
    /// Those that it left.
    pub(crate) left: Devices,
    /// The indices of those on which it made qdiscs.
    pub(crate) used: BTreeSet<u32>,
}

/// Kinds that `ip link add` makes without more words.
const PLAIN: [&str; 2] = ["ifb", "dummy"];

impl Ran {
    /// Why what it made of its `own` interfaces isn't applied by itself: interfaces that it made, renamed or set up although they aren't so `here`, and others
    /// that it used. Each has the command to run first.
    pub(crate) fn faults(&self, program: &str, here: &Devices, own: &[Device]) -> Vec<String> {
        let mut said: Vec<String> = self
            .left
            .iter()
            .filter_map(|device| self.fault_of(device, here))
            .map(|it| format!("{program} {it}"))
            .collect();
        let is_other = |it: &&Device| self.used.contains(&it.index) && own.iter().all(|own| own.name != it.name);
        let others: Vec<&Device> = self.left.iter().filter(is_other).collect();
        if !others.is_empty() {
            let names: Vec<&str> = others.iter().map(|it| it.name.as_str()).collect();
            let words: String = others.iter().map(|it| format!(" --dev {}", word(&it.name))).collect();
            said.push(format!(
                "{program} makes traffic control on {} too, and all that it makes is to be applied: add{words}",
                names.join(", ")
            ));
        }
        said
    }

    // What it did to this interface, if that is another one here.
    fn fault_of(&self, device: &Device, here: &Devices) -> Option<String> {
        let (name, quoted) = (&device.name, word(&device.name));
        let up = if device.is_up { format!("ip link set {quoted} up") } else { String::new() };
        let there = here.iter().find(|it| it.name == *name);
        let found = self.found.at(device.index);
        match (there, found) {
            (Some(there), _) if !there.is_up && device.is_up => {
                Some(format!("sets {name} up, which is down here: run {up} first"))
            }
            (Some(_), _) => None,
            // The other end of an interface that was made for it.
            (None, Some(found)) if found.name == *name => None,
            (None, Some(found)) => {
                let (old, quoted_old) = (&found.name, word(&found.name));
                Some(format!("renames {old} to {name}: run ip link set {quoted_old} name {quoted} first"))
            }
            (None, None) => {
                let more = if PLAIN.contains(&device.kind.as_str()) { "" } else { " .." };
                let made = format!("ip link add {quoted} type {}{more}", word(&device.kind));
                let all = if device.is_up { format!("{made}; {up}") } else { made };
                Some(format!("makes the interface {name}, which isn't here: run {all} first"))
            }
        }
    }
}

#[cfg(test)]
mod tests {
    use super::*;
    use crate::netlink::attributes::put;
    use crate::netlink::message::{RTM_NEWLINK, request};

    fn devices(all: &[(u32, &str, &str, bool)]) -> Devices {
        let link = |(index, name, kind, is_up): &(u32, &str, &str, bool)| {
            let mut body = [[0; 4], index.to_ne_bytes(), u32::from(*is_up).to_ne_bytes(), [0; 4]].concat();
            let mut info = Vec::new();
            put(&mut info, 1, &[kind.as_bytes(), &[0]].concat());
            put(&mut body, 3, &[name.as_bytes(), &[0]].concat());
            put(&mut body, 18, &info);
            request(RTM_NEWLINK, 0, &body)
        };
        Devices::in_links(&all.iter().map(link).collect::<Vec<_>>()).expect("interfaces")
    }

    // What is said of a command that leaves these.
    fn said(left: &[(u32, &str, &str, bool)], used: &[u32]) -> Vec<String> {
        let here =
            devices(&[(1, "lo", "", true), (7, "wan", "", true), (8, "ifb0", "ifb", false), (9, "ifb1", "ifb", true)]);
        let found = devices(&[
            (1, "lo", "", false),
            (7, "wan", "dummy", false),
            (8, "ifb0", "dummy", false),
            (9, "ifb1", "veth", false),
            (18, "peer.18", "veth", false),
        ]);
        let own = [here.find("wan").expect("wan").clone()];
        let ran = Ran { found, left: devices(left), used: used.iter().copied().collect() };
        ran.faults("./sqm.sh", &here, &own)
    }

    #[test]
    fn what_is_there_and_up_is_no_reason() {
        let left =
            [(1, "lo", "", true), (7, "wan", "dummy", true), (9, "ifb1", "veth", true), (18, "peer.18", "veth", true)];
        assert!(said(&left, &[7]).is_empty());
        assert!(said(&[(30, "ifb1", "ifb", true)], &[]).is_empty(), "made anew, and there");
    }

    #[test]
    fn what_is_not_applied_is_named() {
        assert_eq!(
            said(&[(8, "ifb0", "dummy", true)], &[]),
            ["./sqm.sh sets ifb0 up, which is down here: run ip link set ifb0 up first"]
        );
        assert_eq!(
            said(&[(30, "ifb4", "ifb", false)], &[]),
            ["./sqm.sh makes the interface ifb4, which isn't here: run ip link add ifb4 type ifb first"]
        );
        assert_eq!(
            said(&[(30, "v.5", "vlan", true)], &[]),
            [
                "./sqm.sh makes the interface v.5, which isn't here: run ip link add v.5 type vlan ..; ip link set v.5 up first"
            ]
        );
        assert_eq!(
            said(&[(9, "in", "veth", false)], &[]),
            ["./sqm.sh renames ifb1 to in: run ip link set ifb1 name in first"]
        );
        assert_eq!(
            said(&[(7, "wan", "dummy", false), (8, "ifb0", "", false), (9, "ifb1", "", false)], &[7, 8, 9]),
            [
                "./sqm.sh makes traffic control on ifb0, ifb1 too, and all that it makes is to be applied: add --dev ifb0 --dev ifb1"
            ]
        );
    }
}
