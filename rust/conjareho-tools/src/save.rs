//! A save: a head, a line of JSON for each object, and an end that counts them.

use crate::interfaces::indices_in;
use crate::netlink::devices::is_name;
use crate::netlink::{Device, Devices, Fault};
use crate::show::json::safe_text;
use ::serde::ser::{Serialize, SerializeMap, Serializer};
use ::serde_json::{from_str, to_string};
use std::collections::{BTreeMap, BTreeSet};
use std::time::SystemTime;

/// The version of the format, `save` of the head.
pub const VERSION: u32 = 1;

/// The text of a save of some interfaces. `lines` are those of their objects, `devices` all interfaces of the namespace. The error is that one that it has
/// to name has no name that is UTF-8.
pub fn save_of(saved: &[&Device], devices: &Devices, lines: &str) -> Result<String, Fault> {
    let names = names_of(saved, devices, lines)?;
    if let Some((index, _)) = names.iter().find(|(_, name)| !is_name(name)) {
        return Err(Fault::NoName(*index));
    }
    let head = to_string(&Head { saved, names: &names }).ok().and_then(|head| safe_text(head).ok()).ok_or(NO_LINE)?;
    let end = format!("{{\"end\":{}}}\n", lines.lines().count());
    Ok([&head, "\n", lines, &end].concat())
}

// A line isn't JSON, or memory ran out.
const NO_LINE: Fault = Fault::Broken("a message that isn't shown as JSON");

// The name of each interface that is saved or that a line has the index of, as far as it is there.
fn names_of(saved: &[&Device], devices: &Devices, lines: &str) -> Result<BTreeMap<u32, String>, Fault> {
    let mut indices: BTreeSet<u32> = saved.iter().map(|device| device.index).collect();
    for line in lines.lines() {
        indices.extend(indices_in(&from_str(line).map_err(|_| NO_LINE)?));
    }
    Ok(indices.into_iter().filter_map(|index| Some((index, devices.at(index)?.name.clone()))).collect())
}

/// The kernel's release.
pub fn release() -> String {
    nix::sys::utsname::uname().map(|name| name.release().to_string_lossy().into_owned()).unwrap_or_default()
}

// The first line, with its members in this order.
struct Head<'a> {
    saved: &'a [&'a Device],
    names: &'a BTreeMap<u32, String>,
}

impl Serialize for Head<'_> {
    fn serialize<S: Serializer>(&self, to: S) -> Result<S::Ok, S::Error> {
        let mut head = to.serialize_map(None)?;
        head.serialize_entry("save", &VERSION)?;
        head.serialize_entry("devs", &Saved(self.saved))?;
        head.serialize_entry("names", self.names)?;
        head.serialize_entry("kernel", &release())?;
        head.serialize_entry("by", concat!("tcsave ", env!("CARGO_PKG_VERSION")))?;
        head.serialize_entry("time", &humantime::format_rfc3339_seconds(SystemTime::now()).to_string())?;
        head.end()
    }
}

struct Saved<'a>(&'a [&'a Device]);

impl Serialize for Saved<'_> {
    fn serialize<S: Serializer>(&self, to: S) -> Result<S::Ok, S::Error> {
        to.collect_map(self.0.iter().map(|device| (&device.name, SavedDevice(device))))
    }
}

// What distinguishes an interface from another of the same name.
struct SavedDevice<'a>(&'a Device);

impl Serialize for SavedDevice<'_> {
    fn serialize<S: Serializer>(&self, to: S) -> Result<S::Ok, S::Error> {
        let mut device = to.serialize_map(None)?;
        device.serialize_entry("index", &self.0.index)?;
        device.serialize_entry("mac", &self.0.mac_text())?;
        device.serialize_entry("mtu", &self.0.mtu)?;
        device.serialize_entry("txqueuelen", &self.0.txqueuelen)?;
        device.serialize_entry("queues", &self.0.queues)?;
        device.end()
    }
}
