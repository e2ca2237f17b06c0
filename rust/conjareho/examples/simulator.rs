//! Says whether a flower or u32 filter matches a packet: `simulator FILTER PACKET`, a netlink message and an IPv4 packet in hex.

use conjareho::kinds::filters::flower::FlowerAttr;
use conjareho::kinds::{Attrs, Bytes, Message, Options};

fn word(packet: &[u8], at: i32) -> Option<u32> {
    packet.get(usize::try_from(at).ok()?..)?.first_chunk().map(|bytes| u32::from_be_bytes(*bytes))
}

fn has<T: Copy + Into<u32>>(key: Option<&T>, mask: Option<&T>, is: u32) -> bool {
    key.is_none_or(|key| ((*key).into() ^ is) & mask.map_or(u32::MAX, |mask| (*mask).into()) == 0)
}

fn flower(list: &Attrs<FlowerAttr>, packet: &[u8]) -> Option<bool> {
    let (source, target, ports) = (word(packet, 12)?, word(packet, 16)?, word(packet, 20)?);
    let (from, from_mask) = (list.tcp_src().or(list.udp_src()), list.tcp_src_mask().or(list.udp_src_mask()));
    let (to, to_mask) = (list.tcp_dst().or(list.udp_dst()), list.tcp_dst_mask().or(list.udp_dst_mask()));
    let has_ports = has(from, from_mask, ports >> 16) && has(to, to_mask, ports & 0xffff);
    let has_ip =
        has(list.ipv4_src(), list.ipv4_src_mask(), source) && has(list.ipv4_dst(), list.ipv4_dst_mask(), target);
    Some(has_ports && has_ip && has(list.ip_proto(), None, packet[9].into()))
}

fn main() -> Result<(), Box<dyn std::error::Error>> {
    let words = std::env::args().skip(1).map(|word| word.parse::<Bytes>()).collect::<Result<Vec<_>, _>>()?;
    let [filter, packet] = words.as_slice() else { return Err("usage: simulator FILTER PACKET".into()) };
    let message = Message::parse(filter.get(16..).ok_or("a netlink header is missing")?)?;
    let matches = match message.options() {
        Some(Options::Flower(list)) => flower(list, packet),
        Some(Options::U32(list)) => list.selector().map(|selector| {
            selector.keys.iter().all(|key| word(packet, key.off).is_some_and(|word| word & key.mask == key.val))
        }),
        _ => None,
    };
    println!("{}: {}", message.kind(), matches.ok_or("isn't simulated")?);
    Ok(())
}
