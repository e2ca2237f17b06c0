//! Interfaces: their names and what else identifies them, as the kernel of this network namespace has them.

use super::attributes::{Attributes, put, text};
use super::fault::Fault;
use super::kernel::Kernel;
use super::message::{HEADER, NLM_F_DUMP, RTM_GETLINK, RTM_NEWLINK, header_of, request, u32_at};
use super::transport::Transport;

const IFINFOMSG: usize = 16;
const IFLA_ADDRESS: u16 = 1;
const IFLA_IFNAME: u16 = 3;
const IFLA_MTU: u16 = 4;
const IFLA_TXQLEN: u16 = 13;
const IFLA_LINKINFO: u16 = 18;
const IFLA_EXT_MASK: u16 = 29;
const IFLA_NUM_TX_QUEUES: u16 = 31;
const IFLA_NUM_RX_QUEUES: u16 = 32;
const IFLA_PROP_LIST: u16 = 52;
const IFLA_ALT_IFNAME: u16 = 53;
const IFLA_INFO_KIND: u16 = 1;
const RTEXT_FILTER_SKIP_STATS: u32 = 8;
const IFF_UP: u32 = 1;

/// An interface.
#[derive(Clone, PartialEq, Eq, Debug, Default)]
pub struct Device {
    /// `ifi_index`.
    pub index: u32,
    /// `IFLA_IFNAME`.
    pub name: String,
    /// `IFLA_ALT_IFNAME`, of each of them.
    pub altnames: Vec<String>,
    /// `IFLA_ADDRESS`; empty if it has none.
    pub mac: Vec<u8>,
    /// `IFLA_MTU`, in bytes.
    pub mtu: u32,
    /// `IFLA_TXQLEN`, in packets.
    pub txqueuelen: u32,
    /// How many queues there are to send and to receive.
    pub queues: [u32; 2],
    /// `IFF_UP` of `ifi_flags`.
    pub is_up: bool,
    /// `IFLA_INFO_KIND`; empty if it has none.
    pub kind: String,
}

impl Device {
    /// The address in hex, with colons.
    pub fn mac_text(&self) -> String {
        self.mac.iter().map(|byte| format!("{byte:02x}")).collect::<Vec<_>>().join(":")
    }

    // The interface of an `RTM_NEWLINK`.
    fn of(message: &[u8]) -> Result<Device, Fault> {
        let Some(index) = u32_at(message, HEADER + 4) else {
            return Err(Fault::Broken("an interface without an index"));
        };
        let is_up = u32_at(message, HEADER + 8).is_some_and(|flags| flags & IFF_UP != 0);
        let mut device = Device { index, is_up, ..Device::default() };
        let Some(attributes) = message.get(HEADER + IFINFOMSG..) else {
            return Err(Fault::Broken("an interface that is cut"));
        };
        for attribute in Attributes::of(attributes) {
            let (kind, value) = attribute?;
            device.take(kind, value)?;
        }
        if device.name.is_empty() { Err(Fault::Broken("an interface without a name")) } else { Ok(device) }
    }

    fn take(&mut self, kind: u16, value: &[u8]) -> Result<(), Fault> {
        let number = || u32_at(value, 0).ok_or(Fault::Broken("a number of an interface that is cut"));
        match kind {
            IFLA_ADDRESS => self.mac = value.to_vec(),
            IFLA_IFNAME => self.name = text(value),
            IFLA_MTU => self.mtu = number()?,
            IFLA_TXQLEN => self.txqueuelen = number()?,
            IFLA_NUM_TX_QUEUES => self.queues[0] = number()?,
            IFLA_NUM_RX_QUEUES => self.queues[1] = number()?,
            IFLA_LINKINFO => self.kind = kind_in(value)?,
            IFLA_PROP_LIST => self.altnames = altnames_in(value)?,
            _ => {}
        }
        Ok(())
    }
}

fn kind_in(value: &[u8]) -> Result<String, Fault> {
    for attribute in Attributes::of(value) {
        if let (IFLA_INFO_KIND, kind) = attribute? {
            return Ok(text(kind));
        }
    }
    Ok(String::new())
}

fn altnames_in(value: &[u8]) -> Result<Vec<String>, Fault> {
    let mut names = Vec::new();
    for attribute in Attributes::of(value) {
        if let (IFLA_ALT_IFNAME, name) = attribute? {
            names.push(text(name));
        }
    }
    Ok(names)
}

/// All interfaces of a network namespace.
#[derive(Clone, PartialEq, Eq, Debug, Default)]
pub struct Devices(Vec<Device>);

impl Devices {
    /// Those that the kernel has now.
    pub fn of<T: Transport>(kernel: &mut Kernel<T>) -> Result<Devices, Fault> {
        Devices::in_links(&links(kernel)?)
    }

    /// Those of messages `RTM_NEWLINK`.
    pub fn in_links(messages: &[Vec<u8>]) -> Result<Devices, Fault> {
        let is_link = |message: &&Vec<u8>| header_of(message).is_some_and(|header| header.kind == RTM_NEWLINK);
        messages.iter().filter(is_link).map(|message| Device::of(message)).collect::<Result<_, _>>().map(Devices)
    }

    /// The interface that a word of a user names: by its name, which may be of digits, by another name of it, or by its index. One whose name isn't UTF-8
    /// is found by its index alone.
    pub fn find(&self, word: &str) -> Option<&Device> {
        let by_name = self.0.iter().find(|device| device.name == word && is_name(word));
        let by_altname = || self.0.iter().find(|device| device.altnames.iter().any(|name| name == word));
        by_name.or_else(by_altname).or_else(|| self.at(index_in(word)?))
    }

    /// The interface of an index.
    pub fn at(&self, index: u32) -> Option<&Device> {
        self.0.iter().find(|device| device.index == index)
    }

    /// The indices of all.
    pub fn indices(&self) -> Vec<u32> {
        self.0.iter().map(|device| device.index).collect()
    }

    pub fn iter(&self) -> impl Iterator<Item = &Device> {
        self.0.iter()
    }
}

/// True if a name is one interface's. Linux has names of any bytes; in one that isn't UTF-8 each such byte is U+FFFD, and another may look the same.
pub fn is_name(name: &str) -> bool {
    !name.contains(char::REPLACEMENT_CHARACTER)
}

// An index in decimal digits, without a sign.
fn index_in(word: &str) -> Option<u32> {
    if word.bytes().all(|byte| byte.is_ascii_digit()) { word.parse().ok() } else { None }
}

/// The messages `RTM_NEWLINK` of all interfaces.
pub fn links<T: Transport>(kernel: &mut Kernel<T>) -> Result<Vec<Vec<u8>>, Fault> {
    let mut body = vec![0; IFINFOMSG];
    put(&mut body, IFLA_EXT_MASK, &RTEXT_FILTER_SKIP_STATS.to_ne_bytes());
    // Interfaces come and go while others are looked at: the kernel says so, and the list is asked for anew.
    for _ in 0..MOST_TRIES {
        match kernel.dump(&request(RTM_GETLINK, NLM_F_DUMP, &body)) {
            Err(Fault::Interrupted | Fault::Lost) => {}
            links => return links,
        }
    }
    Err(Fault::Changing(MOST_TRIES))
}

const MOST_TRIES: u32 = 8;
