//! Prints nine requests in hex: clsact with a flower filter of four actions, htb with three classes, and fq_codel, netem and cake below them.

use conjareho::kinds::action::{Gen, TcAct};
use conjareho::kinds::actions::{mirred::*, tunnel_key::*};
use conjareho::kinds::filters::{flower::*, u32::*};
use conjareho::kinds::qdiscs::{cake::*, fq_codel::*, netem::*};
use conjareho::kinds::shared::eth_p;
use conjareho::kinds::{ActionOptions, Handle, Htb, HtbClass, Message, Prob, Rate, police};
use conjareho::requests::{Object, Verb};
use std::time::Duration;

fn main() -> Result<(), Box<dyn std::error::Error>> {
    let at = |handle: &str, parent: &str| -> Result<Message, Box<dyn std::error::Error>> {
        Ok(Message::on(1).handle(handle.parse()?).parent(parent.parse()?))
    };
    let pipe = || Gen { action: TcAct::Pipe, ..Gen::default() };
    let mirror = Mirred { generic: pipe(), eaction: TcaMirred::EgressMirror, ifindex: 1 };
    let tunnel = TunnelKeyAttr::list().with_enc_ipv4_src([10, 0, 0, 1]).with_enc_ipv4_dst([10, 0, 0, 2]);
    let tunnel = tunnel.with_enc_key_id(42).with_enc_dst_port(4789).with_no_csum(false);
    let steps = [
        ActionOptions::Mirred(MirredAttr::list().with_parms(mirror)),
        TcAct::Pipe.into(),
        police("10mbit".parse()?, 10240, TcAct::Shot, TcAct::Pipe),
        ActionOptions::TunnelKey(tunnel.with_parms(TunnelKey { generic: pipe(), t_action: 1 })),
    ];
    let https = FlowerAttr::list().with_ip_proto(6).with_ipv4_dst([10, 8, 0, 1]).with_ipv4_dst_mask([255; 4]);
    let https = https.with_tcp_dst(443).with_actions(steps).with_flags(TcaClsFlagsBits(0)).with_eth_type(eth_p::IP);
    let fast = HtbClass { ceil: "100mbit".parse()?, quantum: 3000, prio: 1, ..HtbClass::new("60mbit".parse()?) };
    let slow = HtbClass { ceil: "50mbit".parse()?, quantum: 1514, prio: 2, ..HtbClass::new("10mbit".parse()?) };
    let queue = FqCodelAttr::list().with_limit(1000).with_interval(100_000).with_target(5000);
    let (latency, loss) = (Duration::from_millis(100).into(), Prob::percent(1.0));
    let cake = CakeAttr::list().with_base_rate64("20mbit".parse::<Rate>()?.0);
    let requests = [
        (Object::Qdisc, Message::on(1).handle("ffff:".parse()?).parent(Handle::CLSACT).with_kind("clsact")),
        (Object::Filter, Message::on(1).parent(Handle::EGRESS).filter(10, eth_p::IP).of(https)),
        (Object::Qdisc, at("1:", "root")?.of(Htb::new(0x30))),
        (Object::Class, at("1:1", "1:")?.of(HtbClass::new("100mbit".parse()?))),
        (Object::Class, at("1:10", "1:1")?.of(fast)),
        (Object::Class, at("1:30", "1:1")?.of(slow)),
        (Object::Qdisc, at("10:", "1:10")?.of(queue)),
        (Object::Qdisc, at("30:", "1:30")?.of(NetemQopt { latency, limit: 1000, loss, ..NetemQopt::default() })),
        (Object::Qdisc, at("20:", "1:20")?.of(cake.with_diffserv_mode(CakeDiffserv::Besteffort).with_autorate(0))),
    ];
    for (sequence, (object, message)) in (1..).zip(&requests) {
        let request = message.request(*object, Verb::Add, sequence)?;
        println!("{}", request.iter().map(|octet| format!("{octet:02x}")).collect::<String>());
    }
    Ok(())
}
