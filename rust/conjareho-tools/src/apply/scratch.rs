//! A network namespace of one's own, with interfaces like those that there are.

use crate::netlink::attributes::put;
use crate::netlink::message::{NLM_F_ACK, RTM_NEWLINK, request};
use crate::netlink::{Device, Devices, Fault, Kernel};
use nix::mount::{MsFlags, mount};
use nix::sched::{CloneFlags, unshare};
use std::thread;

/// The network namespace of a thread.
pub(crate) const OWN_NETWORK: &str = "/proc/thread-self/ns/net";

const NLM_F_EXCL: u16 = 0x200;
const NLM_F_CREATE: u16 = 0x400;

const IFINFOMSG: usize = 16;
const IFLA_ADDRESS: u16 = 1;
const IFLA_IFNAME: u16 = 3;
const IFLA_MTU: u16 = 4;
const IFLA_TXQLEN: u16 = 13;
const IFLA_LINKINFO: u16 = 18;
const IFLA_NUM_TX_QUEUES: u16 = 31;
const IFLA_NUM_RX_QUEUES: u16 = 32;
const IFLA_INFO_KIND: u16 = 1;
const IFLA_INFO_DATA: u16 = 2;
const VETH_INFO_PEER: u16 = 1;

/// The index of `lo`, which each namespace has.
const LOOPBACK: u32 = 1;

/// Runs something in a new network namespace with interfaces of these names, indices, MTUs, addresses, lengths and numbers of queues. What it
/// starts is in that namespace too, and `/sys` shows it. The error is a sentence.
pub(crate) fn within<R: Send>(devices: &Devices, then: impl FnOnce() -> Result<R, String> + Send) -> Result<R, String> {
    thread::scope(|scope| {
        // A thread has its own namespaces, if it asks for them.
        let own = scope.spawn(|| {
            enter()?;
            make_all(devices)?;
            then()
        });
        own.join().unwrap_or_else(|_| Err("it panicked".to_string()))
    })
}

fn enter() -> Result<(), String> {
    let said = |error: nix::Error| format!("a new network namespace can't be made: {}", error.desc());
    unshare(CloneFlags::CLONE_NEWNET | CloneFlags::CLONE_NEWNS).map_err(said)?;
    let none = None::<&str>;
    mount(none, "/", none, MsFlags::MS_REC | MsFlags::MS_PRIVATE, none).map_err(said)?;
    // Without it /sys shows the interfaces that it showed before.
    mount(Some("sysfs"), "/sys", Some("sysfs"), MsFlags::empty(), none).map_err(said)
}

fn make_all(devices: &Devices) -> Result<(), String> {
    let mut kernel = Kernel::open().map_err(|fault| fault.to_string())?;
    let last = devices.indices().into_iter().max().unwrap_or_default();
    for device in devices.iter().filter(|device| device.index != LOOPBACK) {
        make(&mut kernel, device, last + device.index).map_err(|fault| {
            format!("an interface like {} can't be made in a new network namespace: {fault}", device.name)
        })?;
    }
    Ok(())
}

// A dummy; if the kernel has none, a veth, whose peer has this index.
fn make(kernel: &mut Kernel, device: &Device, peer: u32) -> Result<(), Fault> {
    match kernel.request(&link_request(device, &dummy())) {
        Err(Fault::Refused(_)) => kernel.request(&link_request(device, &veth(peer))).map(drop),
        answer => answer.map(drop),
    }
}

fn link_request(device: &Device, info: &[u8]) -> Vec<u8> {
    let mut body = vec![0; IFINFOMSG];
    body[4..8].copy_from_slice(&device.index.to_ne_bytes());
    put(&mut body, IFLA_IFNAME, &text(&device.name));
    put(&mut body, IFLA_MTU, &device.mtu.to_ne_bytes());
    put(&mut body, IFLA_TXQLEN, &device.txqueuelen.to_ne_bytes());
    for (kind, count) in [IFLA_NUM_TX_QUEUES, IFLA_NUM_RX_QUEUES].into_iter().zip(device.queues) {
        put(&mut body, kind, &count.max(1).to_ne_bytes());
    }
    if is_ethernet(&device.mac) {
        put(&mut body, IFLA_ADDRESS, &device.mac);
    }
    put(&mut body, IFLA_LINKINFO, info);
    request(RTM_NEWLINK, NLM_F_ACK | NLM_F_CREATE | NLM_F_EXCL, &body)
}

// True for an address that an interface of Ethernet can have: not of a group, and not 0.
fn is_ethernet(mac: &[u8]) -> bool {
    mac.len() == 6 && mac[0] & 1 == 0 && mac.iter().any(|byte| *byte != 0)
}

fn text(name: &str) -> Vec<u8> {
    [name.as_bytes(), &[0]].concat()
}

fn dummy() -> Vec<u8> {
    let mut info = Vec::new();
    put(&mut info, IFLA_INFO_KIND, &text("dummy"));
    info
}

// The index of its peer, and its name, is no other interface's.
fn veth(index: u32) -> Vec<u8> {
    let mut peer = vec![0; IFINFOMSG];
    peer[4..8].copy_from_slice(&index.to_ne_bytes());
    put(&mut peer, IFLA_IFNAME, &text(&format!("peer.{index}")));
    let mut data = Vec::new();
    put(&mut data, VETH_INFO_PEER, &peer);
    let mut info = Vec::new();
    put(&mut info, IFLA_INFO_KIND, &text("veth"));
    put(&mut info, IFLA_INFO_DATA, &data);
    info
}
