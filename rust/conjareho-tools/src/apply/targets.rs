//! The interfaces of a save, and which ones of today they are.

use super::arguments::Arguments;
use super::file::{self, Head, Save};
use crate::netlink::message::{MAGIC_BLOCK, tcmsg_of};
use crate::netlink::{Device, Devices};
use ::serde_json::Value;
use std::collections::{BTreeMap, BTreeSet};

/// What is wrong with an object of another interface.
pub(crate) const STRANGE: &str = "the save isn't of this interface";

/// The interfaces that are restored, and the indices of today of all that the save names.
#[derive(Debug, Default)]
pub(crate) struct Targets {
    pub(crate) devices: Vec<Device>,
    /// The index of today by that of the save; none in a save without a head.
    pub(crate) indices: BTreeMap<i32, u32>,
    /// The interface of all lines, for a save without a head.
    pub(crate) only: Option<u32>,
    /// What is otherwise than when it was saved.
    pub(crate) warnings: Vec<String>,
}

impl Targets {
    /// The indices of the interfaces that are restored.
    pub(crate) fn own(&self) -> Vec<u32> {
        self.devices.iter().map(|device| device.index).collect()
    }

    /// True for a message about an interface that isn't restored.
    pub(crate) fn is_strange(&self, message: &[u8]) -> bool {
        tcmsg_of(message).is_some_and(|it| it.index != MAGIC_BLOCK && !self.own().contains(&(it.index as u32)))
    }

    /// Their names.
    pub(crate) fn names(&self) -> Vec<&str> {
        self.devices.iter().map(|device| device.name.as_str()).collect()
    }
}

/// The interfaces of today for those of a save. The error is all that is wrong with them.
pub(crate) fn targets_of(save: &Save, arguments: &Arguments, devices: &Devices) -> Result<Targets, Vec<String>> {
    match &save.head {
        Some(head) => by_name(head, arguments, devices),
        None => by_index(save, arguments, devices),
    }
}

fn by_name(head: &Head, arguments: &Arguments, devices: &Devices) -> Result<Targets, Vec<String>> {
    let mut faults = Vec::new();
    let mut map: BTreeMap<&str, &str> = arguments.map.iter().map(|(old, new)| (old.as_str(), new.as_str())).collect();
    match (arguments.devs.as_slice(), head.devs.as_slice()) {
        // A command makes what it makes of the interfaces of these names.
        _ if arguments.command.is_some() => {}
        ([dev], [one]) => drop(map.insert(&one.name, dev)),
        ([], _) => {}
        (_, all) => faults.push(format!("--dev requires a save of one interface, and it has {}", all.len())),
    }
    let named: BTreeSet<&str> = head.names.values().map(String::as_str).collect();
    let unknown = map.keys().filter(|name| !named.contains(*name));
    faults.extend(unknown.map(|name| format!("--map: the save names no interface {name}")));
    let mut targets = Targets::default();
    for (index, name) in &head.names {
        match map.get(name.as_str()) {
            Some(today) => match devices.find(today) {
                Some(device) => drop(targets.indices.insert(*index, device.index)),
                None => faults.push(format!("there is no interface {today}")),
            },
            None => match named_so(devices, name) {
                Some(device) => drop(targets.indices.insert(*index, device.index)),
                None => faults.push(format!(
                    "there is no interface {name}, which the save names (--map {name}=NAME says otherwise)"
                )),
            },
        }
    }
    for dev in &head.devs {
        if let Some(device) = targets.indices.get(&dev.index).and_then(|index| devices.at(*index)) {
            targets.warnings.extend(changes(dev, device, arguments.command.is_some()));
            targets.devices.push(device.clone());
        }
    }
    faults.extend(twice(&targets.devices));
    if faults.is_empty() { Ok(targets) } else { Err(faults) }
}

// A name of a save is no index, even if it is of digits.
fn named_so<'a>(devices: &'a Devices, name: &str) -> Option<&'a Device> {
    let by_altname = || devices.iter().find(|device| device.altnames.iter().any(|other| other == name));
    devices.iter().find(|device| device.name == name).or_else(by_altname)
}

// Two interfaces of a save that are one today.
fn twice(devices: &[Device]) -> Option<String> {
    let mut seen = BTreeSet::new();
    let again = devices.iter().find(|device| !seen.insert(device.index))?;
    Some(format!("two interfaces of the save are {} today", again.name))
}

// How an interface differs from when it was saved, or from how a command left it where it ran.
fn changes(saved: &file::Device, device: &Device, is_by_command: bool) -> Vec<String> {
    let mut said = Vec::new();
    let name = &device.name;
    let mut compare = |what: &str, old: Option<String>, new: String| match old {
        Some(old) if old != new && is_by_command => {
            said.push(format!("the script sets another {what} ({old}) than {name} has ({new}), which isn't applied"));
        }
        Some(old) if old != new => {
            said.push(format!("{name} has another {what} than {} when it was saved: {new} for {old}", saved.name));
        }
        _ => {}
    };
    compare("MAC", saved.mac.clone(), device.mac_text());
    compare("MTU", saved.mtu.map(|it| it.to_string()), device.mtu.to_string());
    compare("txqueuelen", saved.txqueuelen.map(|it| it.to_string()), device.txqueuelen.to_string());
    let queues = |(send, receive)| format!("{send} and {receive}");
    let [send, receive] = device.queues;
    compare("number of queues", saved.queues.map(queues), queues((send.into(), receive.into())));
    said
}

// Without a head the lines have the indices of when they were saved, and nothing says whose they are.
fn by_index(save: &Save, arguments: &Arguments, devices: &Devices) -> Result<Targets, Vec<String>> {
    let mut faults = Vec::new();
    if !arguments.map.is_empty() {
        faults.push("--map: the save has no head with names".to_string());
    }
    let mut targets = Targets::default();
    let own = indices_of(save);
    match arguments.devs.first() {
        Some(dev) => {
            if own.len() > 1 {
                faults.push(format!(
                    "--dev requires lines of one interface, and these are of {}: {}",
                    own.len(),
                    numbers(&own)
                ));
            }
            match devices.find(dev) {
                Some(device) => {
                    targets.only = Some(device.index);
                    targets.devices.push(device.clone());
                }
                None => faults.push(format!("there is no interface {dev}")),
            }
        }
        None => {
            for index in own {
                match devices.at(index) {
                    Some(device) => targets.devices.push(device.clone()),
                    None => faults.push(format!("there is no interface {index}")),
                }
            }
        }
    }
    targets
        .warnings
        .push(format!("the save has no head with names; interfaces are taken by index: {}", listed(&targets.devices)));
    if faults.is_empty() { Ok(targets) } else { Err(faults) }
}

fn numbers(indices: &BTreeSet<u32>) -> String {
    indices.iter().map(u32::to_string).collect::<Vec<_>>().join(", ")
}

fn listed(devices: &[Device]) -> String {
    let all: Vec<String> = devices.iter().map(|device| format!("{} ({})", device.index, device.name)).collect();
    if all.is_empty() { "none".to_string() } else { all.join(", ") }
}

// The interfaces of the lines.
fn indices_of(save: &Save) -> BTreeSet<u32> {
    let values = save.lines().filter_map(|line| ::serde_json::from_str::<Value>(line).ok());
    let indices = values.filter_map(|value| {
        let message = value.get("message").unwrap_or(&value);
        message["header"]["index"].as_u64()
    });
    indices.filter_map(|index| u32::try_from(index).ok()).filter(|index| *index != 0).collect()
}
