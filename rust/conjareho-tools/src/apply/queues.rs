//! Queues that an interface doesn't have.

use super::messages::{kind_of, type_of};
use crate::netlink::Device;
use crate::netlink::message::{RTM_NEWQDISC, tcmsg_of};
use std::collections::BTreeSet;

/// The kinds of qdiscs that have a class for each queue.
const BY_QUEUE: [&[u8]; 4] = [b"mq", b"mqprio", b"multiq", b"taprio"];

/// `TC_H_MIN_PRIORITY`: from here on minor numbers are those of traffic classes.
const NOT_QUEUES: u32 = 0xFFE0;

/// The qdiscs of a save with a class for each queue.
pub(crate) struct Queues<'d> {
    devices: &'d [Device],
    // By interface and the upper half of the handle.
    qdiscs: BTreeSet<(i32, u32)>,
}

impl<'d> Queues<'d> {
    pub(crate) fn of<'a>(dumps: impl Iterator<Item = &'a Vec<u8>>, devices: &'d [Device]) -> Queues<'d> {
        let by_queue = dumps.filter(|dump| is_by_queue(dump)).filter_map(|dump| tcmsg_of(dump));
        Queues { devices, qdiscs: by_queue.map(|it| (it.index, it.handle >> 16)).collect() }
    }

    /// Why a qdisc can't be made on its interface of today.
    pub(crate) fn fault(&self, message: &[u8]) -> Option<String> {
        let header = tcmsg_of(message).filter(|_| type_of(message) == RTM_NEWQDISC)?;
        let device = self.devices.iter().find(|device| u32::try_from(header.index) == Ok(device.index))?;
        let [count, _] = device.queues;
        let queue = header.parent & 0xFFFF;
        if is_by_queue(message) && count == 1 {
            return Some(format!("it needs several queues to send, and {} has one", device.name));
        }
        let is_in_queue = self.qdiscs.contains(&(header.index, header.parent >> 16)) && queue < NOT_QUEUES;
        (is_in_queue && count != 0 && queue > count)
            .then(|| format!("it is that of queue {queue} to send, and {} has {count}", device.name))
    }
}

fn is_by_queue(message: &[u8]) -> bool {
    type_of(message) == RTM_NEWQDISC && kind_of(message).is_some_and(|kind| BY_QUEUE.contains(&kind))
}

#[cfg(test)]
mod tests {
    use super::*;
    use crate::netlink::attributes::put;
    use crate::netlink::message::{Tcmsg, tc_request};

    fn qdisc(handle: u32, parent: u32, kind: &str) -> Vec<u8> {
        let mut message = tc_request(RTM_NEWQDISC, 0, Tcmsg { index: 7, handle, parent, info: 0 });
        put(&mut message, 1, &[kind.as_bytes(), &[0]].concat());
        message
    }

    fn faults(count: u32, dumps: &[Vec<u8>]) -> Vec<String> {
        let devices = [Device { index: 7, name: "wan".to_string(), queues: [count, 1], ..Device::default() }];
        let queues = Queues::of(dumps.iter(), &devices);
        dumps.iter().filter_map(|dump| queues.fault(dump)).collect()
    }

    #[test]
    fn one_queue_has_no_classes() {
        let alone = |count, kind| faults(count, &[qdisc(0x1_0000, u32::MAX, kind)]);
        assert_eq!(alone(1, "mq"), ["it needs several queues to send, and wan has one"]);
        assert_eq!([alone(4, "mq"), alone(1, "prio")], [Vec::<String>::new(), Vec::new()]);
        assert_eq!(["mqprio", "multiq", "taprio"].map(|kind| alone(1, kind).len()), [1, 1, 1]);
    }

    #[test]
    fn a_queue_that_isnt_there() {
        let tree = |kind| {
            [qdisc(0x1_0000, u32::MAX, kind), qdisc(0x2_0000, 0x1_0004, "sfq"), qdisc(0x3_0000, 0x1_0005, "sfq")]
        };
        assert_eq!(faults(4, &tree("mq")), ["it is that of queue 5 to send, and wan has 4"]);
        assert_eq!(faults(8, &tree("taprio")), Vec::<String>::new());
        assert_eq!(faults(4, &tree("prio")), Vec::<String>::new(), "a band");
        assert_eq!(
            faults(2, &[qdisc(0x1_0000, u32::MAX, "mqprio"), qdisc(0x2_0000, 0x1_FFE1, "sfq")]),
            Vec::<String>::new(),
            "a traffic class"
        );
    }
}
