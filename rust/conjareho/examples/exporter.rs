//! Prints the statistics of a dump for Prometheus. The dump is a file of netlink messages.
use conjareho::capture::Messages;
use conjareho::kinds::{Message, Statistics};

fn main() -> Result<(), Box<dyn std::error::Error>> {
    let dump = std::fs::read(std::env::args().nth(1).ok_or("usage: exporter DUMP")?)?;
    for netlink in Messages::new(&dump) {
        let Ok(message) = Message::parse(netlink?.payload) else { continue };
        let (header, Some(stats)) = (&message.header, message.stats()) else { continue };
        let of = format!("{{ifindex=\"{}\",kind=\"{}\",handle=\"{}\"}}", header.index, message.kind(), header.handle);
        if let Some(basic) = stats.basic() {
            let packets = stats.pkt64().copied().unwrap_or(basic.packets.into());
            println!("tc_bytes_total{of} {}\ntc_packets_total{of} {packets}", basic.bytes);
        }
        if let Some(queue) = stats.queue() {
            println!("tc_drops_total{of} {}\ntc_overlimits_total{of} {}", queue.drops, queue.overlimits);
            println!("tc_requeues_total{of} {}\ntc_backlog_bytes{of} {}", queue.requeues, queue.backlog);
        }
        if let Some(Statistics::Htb(htb)) = message.xstats() {
            println!("tc_htb_lends_total{of} {}\ntc_htb_borrows_total{of} {}", htb.lends, htb.borrows);
        }
    }
    Ok(())
}
