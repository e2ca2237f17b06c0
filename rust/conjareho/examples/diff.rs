//! Prints what changed between two dumps, which are files of netlink messages: objects that came and went, and options.

use conjareho::capture::{MessageType, Messages, rtm_of};
use conjareho::kinds::Message;
use conjareho::kinds::message::TcAttr;
use std::collections::BTreeMap;

fn state(path: &str) -> Result<BTreeMap<String, Message>, Box<dyn std::error::Error>> {
    let (bytes, mut state) = (std::fs::read(path)?, BTreeMap::new());
    for netlink in Messages::new(&bytes) {
        let netlink = netlink?;
        let Some(rtm) = rtm_of(netlink.kind).filter(|rtm| rtm.holds == MessageType::Tc) else { continue };
        let mut message = Message::parse(netlink.payload)?;
        message.attributes.retain(|it| !matches!(it, TcAttr::Stats(_) | TcAttr::Stats2(_) | TcAttr::Xstats(_)));
        let header = &message.header;
        let name = format!("{} {} {} {}", header.index, message.kind(), header.handle, header.parent);
        state.insert(format!("{} {name} {:x}", rtm.name, header.info), message);
    }
    Ok(state)
}

fn main() -> Result<(), Box<dyn std::error::Error>> {
    let paths: Vec<String> = std::env::args().skip(1).collect();
    let [old, new] = paths.as_slice() else { return Err("usage: diff OLD NEW".into()) };
    let (old, new) = (state(old)?, state(new)?);
    old.keys().filter(|name| !new.contains_key(*name)).for_each(|name| println!("- {name}"));
    for (name, message) in &new {
        let Some(before) = old.get(name) else {
            println!("+ {name}");
            continue;
        };
        let (was, is) = (format!("{:#?}", before.attributes), format!("{:#?}", message.attributes));
        for (was, is) in was.lines().zip(is.lines()).filter(|(was, is)| was != is && was.len() < 100) {
            println!("~ {name}: {} -> {}", was.trim(), is.trim());
        }
    }
    Ok(())
}
