//! Deleting what an interface has.

use super::fault::Fault;
use super::kernel::Kernel;
use super::message::{NLM_F_DUMP, RTM_DELQDISC, RTM_GETQDISC, RTM_NEWQDISC, Tcmsg, header_of, tc_request, tcmsg_of};
use super::transport::Transport;

const TC_H_ROOT: u32 = 0xffff_ffff;
/// `TC_H_CLSACT`, which is `TC_H_INGRESS` too.
const TC_H_CLSACT: u32 = 0xffff_fff1;

/// Deletes the root qdisc of an interface, and its ingress or clsact, if there are any that somebody made.
pub fn clear<T: Transport>(kernel: &mut Kernel<T>, index: u32) -> Result<(), Fault> {
    let asked = Tcmsg { index: index as i32, ..Tcmsg::default() };
    let dumped = kernel.dump(&tc_request(RTM_GETQDISC, NLM_F_DUMP, asked))?;
    for request in clearing(&dumped, index) {
        kernel.request(&request)?;
    }
    Ok(())
}

/// The requests for that, by what was dumped.
pub fn clearing(dumped: &[Vec<u8>], index: u32) -> Vec<Vec<u8>> {
    let is_qdisc = |message: &&Vec<u8>| header_of(message).is_some_and(|header| header.kind == RTM_NEWQDISC);
    let qdiscs = dumped.iter().filter(is_qdisc).filter_map(|message| tcmsg_of(message));
    let own: Vec<Tcmsg> = qdiscs.filter(|qdisc| qdisc.index == index as i32 && qdisc.handle != 0).collect();
    let at = |parent: u32| own.iter().find(|qdisc| qdisc.parent == parent);
    let deleting = |qdisc: &Tcmsg| tc_request(RTM_DELQDISC, 0, Tcmsg { info: 0, ..*qdisc });
    [TC_H_ROOT, TC_H_CLSACT].into_iter().filter_map(at).map(deleting).collect()
}
