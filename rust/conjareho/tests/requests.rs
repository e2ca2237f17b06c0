//! Requests as people write them, byte for byte those of iproute2 (`iproute2.txt`).
#![cfg(feature = "kinds")]

use conjareho::RewriteError;
use conjareho::kinds::action::{ActionAttr, Gen, TcAct};
use conjareho::kinds::actions::gact::{Gact, GactAttr, GactP, Pgact};
use conjareho::kinds::actions::mirred::{Mirred, MirredAttr, TcaMirred};
use conjareho::kinds::filters::flower::FlowerAttr;
use conjareho::kinds::filters::matchall::MatchallAttr;
use conjareho::kinds::filters::u32::{TcU32Bits, TcaClsFlagsBits, U32Attr, U32Key, U32Sel};
use conjareho::kinds::message::{ActionMessageAttr, TcAttr, TcaActFlagBits, TcaRootFlags};
use conjareho::kinds::qdiscs::cake::{CakeAttr, CakeDiffserv};
use conjareho::kinds::qdiscs::fq_codel::FqCodelAttr;
use conjareho::kinds::qdiscs::netem::{
    NetemAttr, NetemCorr, NetemCorrupt, NetemGemodel, NetemLossAttr, NetemQopt, NetemRate, NetemReorder,
};
use conjareho::kinds::shared::{TcLinklayer, eth_p};
use conjareho::kinds::{
    ActionMessage, ActionOptions, Handle, Htb, HtbClass, Message, Options, PoliceAction, Prob, Rate, Sizes, Tbf, police,
};
use conjareho::requests::{Object, Verb};
use std::time::Duration;

/// Compares a request with the stored one of this command of iproute2.
fn same(command: &str, request: Result<Vec<u8>, RewriteError>) {
    let stored = include_str!("iproute2.txt").lines().skip_while(|line| *line != command).nth(1);
    let stored = stored.unwrap_or_else(|| panic!("{command}: not stored"));
    let request = request.unwrap_or_else(|e| panic!("{command}: {e}"));
    assert_eq!(request.iter().map(|octet| format!("{octet:02x}")).collect::<String>(), stored, "{command}");
}

fn qdisc(command: &str, verb: Verb, message: Message) {
    same(command, message.request(Object::Qdisc, verb, 0));
}

fn class(command: &str, verb: Verb, message: Message) {
    same(command, message.request(Object::Class, verb, 0));
}

fn filter(command: &str, verb: Verb, message: Message) {
    same(command, message.request(Object::Filter, verb, 0));
}

fn actions(command: &str, verb: Verb, actions: impl Into<ActionOptions>) {
    let options: ActionOptions = actions.into();
    same(command, ActionMessage::of([options]).request(verb, 0));
}

fn at(handle: &str, parent: &str) -> Message {
    Message::on(1).handle(handle.parse().expect("a handle")).parent(parent.parse().expect("a handle"))
}

fn rate(text: &str) -> Rate {
    text.parse().expect("a rate")
}

fn mirred(eaction: TcaMirred, action: TcAct, index: u32) -> ActionOptions {
    let generic = Gen { index, action, ..Gen::default() };
    ActionOptions::Mirred(MirredAttr::list().with_parms(Mirred { generic, eaction, ifindex: 1 }))
}

#[test]
fn htb() {
    let plain = || at("1:", "root").of(Htb::new(0x30));
    qdisc("tc qdisc add dev lo root handle 1: htb default 30", Verb::Add, plain());
    qdisc("tc qdisc replace dev lo root handle 1: htb default 30", Verb::Replace, plain());
    let more = Htb { r2q: 20, direct_qlen: Some(500), ..Htb::new(0x10) };
    let command = "tc qdisc add dev lo root handle 1: htb default 10 r2q 20 direct_qlen 500";
    qdisc(command, Verb::Add, at("1:", "root").of(more));
    qdisc("tc qdisc delete dev lo root handle 1:", Verb::Delete, at("1:", "root"));
    qdisc("tc qdisc show dev lo", Verb::Dump, Message::on(1));
}

#[test]
fn classes_of_htb() {
    let add = |command: &str, handle: &str, it: HtbClass| class(command, Verb::Add, at(handle, "1:1").of(it));
    let command = "tc class add dev lo parent 1: classid 1:1 htb rate 100mbit";
    class(command, Verb::Add, at("1:1", "1:").of(HtbClass::new(rate("100mbit"))));
    let shared = HtbClass { ceil: rate("100mbit"), prio: 1, quantum: 3000, ..HtbClass::new(rate("60mbit")) };
    add("tc class add dev lo parent 1:1 classid 1:10 htb rate 60mbit ceil 100mbit prio 1 quantum 3000", "1:10", shared);
    let bursts = HtbClass { ceil: rate("50mbit"), burst: 15 << 10, cburst: 20 << 10, ..HtbClass::new(rate("10mbit")) };
    add(
        "tc class add dev lo parent 1:1 classid 1:30 htb rate 10mbit ceil 50mbit burst 15k cburst 20k prio 2 quantum 1514",
        "1:30",
        HtbClass { prio: 2, quantum: 1514, ..bursts },
    );
    let wide = HtbClass { ceil: rate("50gbit"), ..HtbClass::new(rate("40gbit")) };
    class(
        "tc class replace dev lo parent 1:1 classid 1:40 htb rate 40gbit ceil 50gbit",
        Verb::Replace,
        at("1:40", "1:1").of(wide),
    );
    let sizes = Sizes { mtu: 9000, overhead: 24, mpu: 84, ..Sizes::default() };
    let counted = HtbClass { ceil: rate("20mbit"), sizes, ..HtbClass::new(rate("10mbit")) };
    class(
        "tc class change dev lo parent 1:1 classid 1:50 htb rate 10mbit ceil 20mbit mtu 9000 overhead 24 mpu 84",
        Verb::Change,
        at("1:50", "1:1").of(counted),
    );
    let sizes = Sizes { overhead: 20, mpu: 96, linklayer: TcLinklayer::Atm, ..Sizes::default() };
    add(
        "tc class add dev lo parent 1:1 classid 1:60 htb rate 2500kbit mpu 96 overhead 20 linklayer atm",
        "1:60",
        HtbClass { sizes, ..HtbClass::new(rate("2500kbit")) },
    );
    class("tc class delete dev lo classid 1:10", Verb::Delete, Message::on(1).handle(Handle::new(1, 0x10)));
    class("tc class show dev lo", Verb::Dump, Message::on(1));
}

#[test]
fn tbf() {
    let add = |command: &str, tbf: Tbf| qdisc(command, Verb::Add, at("2:", "root").of(tbf));
    add(
        "tc qdisc add dev lo root handle 2: tbf rate 10mbit burst 32kbit latency 50ms",
        Tbf::new(rate("10mbit"), 4096, 0).latency(Duration::from_millis(50)),
    );
    let sizes = |mtu| Sizes { mtu, ..Sizes::default() };
    let peak = Tbf { peakrate: Some(rate("2mbit")), sizes: sizes(1540), ..Tbf::new(rate("1mbit"), 5 << 10, 10000) };
    add("tc qdisc add dev lo root handle 2: tbf rate 1mbit burst 5kb limit 10000 peakrate 2mbit mtu 1540", peak);
    add(
        "tc qdisc add dev lo root handle 2: tbf rate 40gbit burst 10mb limit 20mb",
        Tbf::new(rate("40gbit"), 10 << 20, 20 << 20),
    );
    let sizes = Sizes { overhead: 14, ..sizes(9000) };
    let wide = Tbf { peakrate: Some(rate("50gbit")), sizes, ..Tbf::new(rate("40gbit"), 10 << 20, 0) };
    add(
        "tc qdisc add dev lo root handle 2: tbf rate 40gbit burst 10mb latency 20ms peakrate 50gbit mtu 9000 overhead 14",
        wide.latency(Duration::from_millis(20)),
    );
    let sizes = Sizes { mtu: 2000, mpu: 64, linklayer: TcLinklayer::Atm, ..Sizes::default() };
    let atm = Tbf { peakrate: Some(rate("4mbit")), sizes, ..Tbf::new(rate("3mbit"), 10 << 10, 0) };
    add(
        "tc qdisc add dev lo root handle 2: tbf rate 3mbit burst 10kb latency 70ms peakrate 4mbit mtu 2000 mpu 64 linklayer atm",
        atm.latency(Duration::from_millis(70)),
    );
}

#[test]
fn police_actions() {
    let limit = |text: &str, burst| PoliceAction { rate: Some((rate(text), burst)), ..PoliceAction::default() };
    actions(
        "tc actions add action police rate 10mbit burst 10k conform-exceed drop/pipe index 5",
        Verb::Add,
        PoliceAction { exceed: TcAct::Shot, conform: Some(TcAct::Pipe), index: 5, ..limit("10mbit", 10 << 10) },
    );
    let sizes = Sizes { mtu: 9000, ..Sizes::default() };
    let wide = PoliceAction { peakrate: Some(rate("50gbit")), sizes, ..limit("40gbit", 1 << 20) };
    actions(
        "tc actions add action police rate 40gbit burst 1m mtu 9000 peakrate 50gbit conform-exceed drop/continue",
        Verb::Add,
        PoliceAction { exceed: TcAct::Shot, conform: Some(TcAct::Unspec), ..wide },
    );
    let sizes = Sizes { overhead: 14, mpu: 64, linklayer: TcLinklayer::Atm, ..Sizes::default() };
    actions(
        "tc actions replace action police rate 1mbit burst 10k overhead 14 mpu 64 linklayer atm conform-exceed reclassify/pipe index 6",
        Verb::Replace,
        PoliceAction { conform: Some(TcAct::Pipe), index: 6, sizes, ..limit("1mbit", 10 << 10) },
    );
    let packets = PoliceAction { packets: Some((1000, 200)), exceed: TcAct::Shot, ..PoliceAction::default() };
    actions("tc actions add action police pkts_rate 1000 pkts_burst 200 conform-exceed drop", Verb::Add, packets);
    let command = "tc filter add dev lo parent ffff: protocol ip prio 10 matchall action police rate 10mbit burst 10k conform-exceed drop/pipe";
    let limited = MatchallAttr::list().with_action([police(rate("10mbit"), 10 << 10, TcAct::Shot, TcAct::Pipe)]);
    filter(command, Verb::Add, at("0:0", "ffff:").filter(10, eth_p::IP).of(limited));
}

#[test]
fn actions_by_index() {
    let fifth = || {
        let mut message = ActionMessage::default();
        message.attributes =
            message.attributes.with_actions([(1, ActionAttr::list().with_kind("police").with_index(5))]);
        message
    };
    same("tc actions delete action police index 5", fifth().request(Verb::Delete, 0));
    same("tc actions get action police index 5", fifth().request(Verb::Get, 0));
    let mut all = ActionMessage::default();
    let flags = TcaRootFlags { flags: TcaActFlagBits::LARGE_DUMP_ON, selector: TcaActFlagBits::LARGE_DUMP_ON };
    all.attributes = all.attributes.with_actions([(1, ActionAttr::list().with_kind("police"))]);
    all.attributes.push(ActionMessageAttr::Flags(flags));
    same("tc actions list action police", all.request(Verb::Dump, 0));
}

#[test]
fn gact_and_mirred() {
    actions("tc actions add action gact drop", Verb::Add, TcAct::Shot);
    let generic = Gen { index: 7, ..Gen::default() };
    let random = GactP { ptype: Pgact::Netrand, pval: 10, paction: TcAct::Shot };
    let pass = GactAttr::list().with_parms(Gact { generic }).with_prob(random);
    actions("tc actions add action pass random netrand drop 10 index 7", Verb::Add, ActionOptions::Gact(pass));
    let redirect = mirred(TcaMirred::EgressRedir, TcAct::Stolen, 0);
    actions("tc actions add action mirred egress redirect dev lo", Verb::Add, redirect);
    let mirror = mirred(TcaMirred::IngressMirror, TcAct::Pipe, 9);
    actions("tc actions add action mirred ingress mirror dev lo pipe index 9", Verb::Add, mirror);
}

#[test]
fn matchall() {
    let drop = MatchallAttr::list().with_action([ActionOptions::from(TcAct::Shot)]);
    filter(
        "tc filter add dev lo ingress protocol all prio 10 matchall action gact drop",
        Verb::Add,
        Message::on(1).parent(Handle::INGRESS).filter(10, eth_p::ALL).of(drop),
    );
    let two = [mirred(TcaMirred::EgressMirror, TcAct::Pipe, 0), TcAct::Pipe.into()];
    let first = Message::on(1).handle(Handle(1)).parent(Handle::EGRESS).filter(10, eth_p::IP);
    filter(
        "tc filter replace dev lo egress protocol ip prio 10 handle 1 matchall action mirred egress mirror dev lo action gact pipe",
        Verb::Replace,
        first.of(MatchallAttr::list().with_action(two)),
    );
}

#[test]
fn flower() {
    let steps = [
        mirred(TcaMirred::EgressMirror, TcAct::Pipe, 0),
        TcAct::Pipe.into(),
        police(rate("10mbit"), 10 << 10, TcAct::Shot, TcAct::Pipe),
    ];
    let https = FlowerAttr::list()
        .with_ip_proto(6)
        .with_ipv4_dst([10, 8, 0, 1])
        .with_ipv4_dst_mask([255; 4])
        .with_tcp_dst(443)
        .with_actions(steps)
        .with_flags(TcaClsFlagsBits(0))
        .with_eth_type(eth_p::IP);
    filter(
        "tc filter add dev lo egress protocol ip prio 10 flower ip_proto tcp dst_ip 10.8.0.1 dst_port 443 action mirred egress mirror dev lo pipe action gact pipe action police rate 10mbit burst 10k conform-exceed drop/pipe",
        Verb::Add,
        Message::on(1).parent(Handle::EGRESS).filter(10, eth_p::IP).of(https),
    );
    let dns = FlowerAttr::list()
        .with_ipv4_src([10, 0, 0, 0])
        .with_ipv4_src_mask([255, 0, 0, 0])
        .with_eth_src([2, 0, 0, 0, 0, 1])
        .with_eth_src_mask([255; 6])
        .with_ip_proto(17)
        .with_udp_src(53)
        .with_actions([ActionOptions::from(TcAct::Shot)])
        .with_flags(TcaClsFlagsBits::SKIP_HW)
        .with_eth_type(eth_p::IP);
    let third = Message::on(1).handle(Handle(3)).parent(Handle::INGRESS).filter(20, eth_p::IP);
    filter(
        "tc filter add dev lo ingress protocol ip prio 20 handle 3 chain 7 flower skip_hw src_ip 10.0.0.0/8 src_mac 02:00:00:00:00:01 ip_proto udp src_port 53 action gact drop",
        Verb::Add,
        third.clone().with(TcAttr::Chain(7)).of(dns),
    );
    let tagged = FlowerAttr::list()
        .with_vlan_id(100)
        .with_vlan_eth_type(eth_p::IPV6)
        .with_ipv6_dst("2001:db8::1".parse::<std::net::Ipv6Addr>().expect("an address"))
        .with_ipv6_dst_mask([255; 16])
        .with_class_id(Handle::new(1, 0x10))
        .with_flags(TcaClsFlagsBits(0))
        .with_eth_type(eth_p::_802_1Q);
    let first = Message::on(1).handle(Handle(1)).parent(Handle::INGRESS).filter(30, eth_p::_802_1Q);
    filter(
        "tc filter change dev lo ingress protocol 802.1q prio 30 handle 1 flower vlan_id 100 vlan_ethtype ipv6 dst_ip 2001:db8::1 classid 1:10",
        Verb::Change,
        first.of(tagged),
    );
    let asked = FlowerAttr::list().with_flags(TcaClsFlagsBits(0)).with_eth_type(eth_p::IP);
    filter("tc filter get dev lo ingress protocol ip prio 20 handle 3 flower", Verb::Get, third.of(asked));
    filter(
        "tc filter delete dev lo ingress protocol ip prio 20",
        Verb::Delete,
        Message::on(1).parent(Handle::INGRESS).filter(20, eth_p::IP),
    );
    filter("tc filter show dev lo ingress", Verb::Dump, Message::on(1).parent(Handle::INGRESS));
}

#[test]
fn u32() {
    let rule = |handle: u32| Message::on(1).handle(Handle(handle)).parent(Handle::new(1, 0)).filter(5, eth_p::IP);
    let key = |val, mask, off| U32Key { mask, val, off, ..U32Key::default() };
    let terminal = |keys: Vec<U32Key>| U32Sel { flags: TcU32Bits::TERMINAL, ..U32Sel::of(keys) };
    let web = terminal(vec![key(0x0a00_0000, 0xff00_0000, 16), key(80, 0xffff, 20)]);
    filter(
        "tc filter add dev lo parent 1: protocol ip prio 5 u32 match ip dst 10.0.0.0/8 match ip dport 80 0xffff flowid 1:10",
        Verb::Add,
        rule(0).of(U32Attr::list().with_class_id(Handle::new(1, 0x10)).with_selector(web)),
    );
    // Without a class or a next table tc sets no TC_U32_TERMINAL, but for actions.
    let drop = U32Attr::list().with_action([ActionOptions::from(TcAct::Shot)]);
    filter(
        "tc filter add dev lo parent 1: protocol ip prio 5 handle 800::801 u32 match u32 0x01020304 0xffffffff at 16 action gact drop",
        Verb::Add,
        rule(0x8000_0801).of(drop.with_selector(terminal(vec![key(0x0102_0304, u32::MAX, 16)]))),
    );
    filter(
        "tc filter add dev lo parent 1: protocol ip prio 5 handle 2: u32 divisor 256",
        Verb::Add,
        rule(2 << 20).of(U32Attr::list().with_divisor(256)),
    );
    let hashed = U32Sel { hoff: 12, hmask: 0xff, ..U32Sel::of([key(0xc0a8_0000, 0xffff_ff00, 12)]) };
    filter(
        "tc filter add dev lo parent 1: protocol ip prio 5 u32 ht 800:: link 2: hashkey mask 0x000000ff at 12 match ip src 192.168.0.0/24",
        Verb::Add,
        rule(0).of(U32Attr::list().with_link(2 << 20).with_hash(0x8000_0000).with_selector(hashed)),
    );
}

#[test]
fn chains_and_clsact() {
    let seventh = || Message::on(1).parent(Handle::INGRESS).with(TcAttr::Chain(7));
    same("tc chain add dev lo ingress chain 7", seventh().request(Object::Chain, Verb::Add, 0));
    same("tc chain delete dev lo ingress chain 7", seventh().request(Object::Chain, Verb::Delete, 0));
    let root = || Message::on(1).handle(Handle::new(0xffff, 0)).parent(Handle::CLSACT);
    qdisc("tc qdisc add dev lo clsact", Verb::Add, root().with_kind("clsact"));
    qdisc("tc qdisc add dev lo ingress", Verb::Add, root().with_kind("ingress"));
    qdisc("tc qdisc delete dev lo clsact", Verb::Delete, root().with_kind("clsact"));
}

#[test]
fn netem() {
    let add = |command: &str, it: NetemQopt| qdisc(command, Verb::Add, at("3:", "root").of(it));
    let ms = |ms| Duration::from_millis(ms).into();
    let share = |text: &str| text.parse::<Prob>().expect("a share");
    let corr = NetemCorr { delay_corr: share("25%"), ..NetemCorr::default() };
    add(
        "tc qdisc add dev lo root handle 3: netem delay 100ms 10ms 25% loss 1%",
        NetemQopt {
            latency: ms(100),
            jitter: ms(10),
            limit: 1000,
            loss: Prob::percent(1.0),
            attributes: NetemAttr::list().with_corr(corr),
            ..NetemQopt::default()
        },
    );
    let attributes = NetemAttr::list()
        .with_corr(NetemCorr { dup_corr: share("10%"), ..NetemCorr::default() })
        .with_reorder(NetemReorder { probability: share("25%"), correlation: share("50%") })
        .with_corrupt(NetemCorrupt { probability: share("0.1%"), ..NetemCorrupt::default() });
    let (latency, jitter, duplicate) = (ms(20), ms(5), share("0.5%"));
    add(
        "tc qdisc add dev lo root handle 3: netem limit 2000 delay 20ms 5ms duplicate 0.5% 10% corrupt 0.1% reorder 25% 50% gap 5",
        NetemQopt { limit: 2000, latency, jitter, duplicate, gap: 5, attributes, ..NetemQopt::default() },
    );
    let cells = NetemRate { rate: rate("1mbit").0 as u32, packet_overhead: 20, cell_size: 100, cell_overhead: 5 };
    let limit = 1000;
    add(
        "tc qdisc add dev lo root handle 3: netem rate 1mbit 20 100 5",
        NetemQopt { limit, attributes: NetemAttr::list().with_rate(cells), ..NetemQopt::default() },
    );
    let wide = NetemRate { rate: u32::MAX, ..NetemRate::default() };
    let attributes = NetemAttr::list().with_rate64(rate("40gbit").0).with_rate(wide);
    add(
        "tc qdisc add dev lo root handle 3: netem rate 40gbit delay 5s",
        NetemQopt { limit, latency: ms(5000), attributes, ..NetemQopt::default() },
    );
    // tc takes 1-h, and sends what that leaves of the greatest number.
    let h = Prob(u32::MAX - share("70%").0);
    let model = NetemGemodel { p: share("1%"), r: share("10%"), h, k1: share("0.1%") };
    let attributes = NetemAttr::list().with_ecn(1).with_loss(NetemLossAttr::list().with_ge(model));
    add(
        "tc qdisc add dev lo root handle 3: netem loss gemodel 1% 10% 70% 0.1% ecn",
        NetemQopt { limit, attributes, ..NetemQopt::default() },
    );
}

#[test]
fn fq_codel_and_cake() {
    let list = || FqCodelAttr::list();
    qdisc(
        "tc qdisc change dev lo root handle 1: fq_codel limit 2000",
        Verb::Change,
        at("1:", "root").of(list().with_limit(2000)),
    );
    qdisc(
        "tc qdisc add dev lo parent 1:10 handle 10: fq_codel limit 1000 target 5ms interval 100ms",
        Verb::Add,
        at("10:", "1:10").of(list().with_limit(1000).with_interval(100_000).with_target(5000)),
    );
    let more = list().with_flows(512).with_quantum(300).with_ecn(0).with_ce_threshold(1000);
    qdisc(
        "tc qdisc add dev lo parent 1:10 handle 10: fq_codel flows 512 quantum 300 memory_limit 4Mb ce_threshold 1ms noecn drop_batch 32",
        Verb::Add,
        at("10:", "1:10").of(more.with_memory_limit(4 << 20).with_drop_batch_size(32)),
    );
    let cake = CakeAttr::list()
        .with_base_rate64(rate("20mbit").0)
        .with_diffserv_mode(CakeDiffserv::Besteffort)
        .with_autorate(0);
    qdisc(
        "tc qdisc add dev lo root handle 20: cake bandwidth 20mbit besteffort",
        Verb::Add,
        at("20:", "root").of(cake),
    );
}

#[test]
fn the_stored_requests_are_read_and_written() {
    let octet = |hex: &str, at: usize| u8::from_str_radix(&hex[at..at + 2], 16).expect("hex");
    let lines: Vec<&str> = include_str!("iproute2.txt").lines().skip(1).collect();
    for pair in lines.chunks(2) {
        let bytes: Vec<u8> = (0..pair[1].len()).step_by(2).map(|at| octet(pair[1], at)).collect();
        let written = match bytes[4] {
            48..=50 => ActionMessage::parse(&bytes[16..]).expect("a header").to_bytes(),
            _ => Message::parse(&bytes[16..]).expect("a header").to_bytes(),
        };
        assert_eq!(written.expect("it fits"), bytes[16..], "{}", pair[0]);
    }
    assert_eq!(lines.len(), 122);
    assert!(matches!(Options::from(HtbClass::new(Rate(1))), Options::Htb(_)));
}
