//! Dumps made into requests, by the argument `--request`.

use crate::user::prelude::*;

use crate::make::program::arguments::Arguments;
use crate::tests::made::make::runs::made;
use crate::user::Fail;
use clap::Parser as _;

// What kernels dumped and `tc` asked for, each line of which is made into a request, is left out or gets a complaint.
#[rustfmt::skip]
static DUMPS: &str = r#"{"type":"RTM_NEWQDISC","flags":0,"seq":13,"fits":true,"settled":true,"canonical":true,"message":{"header":{"family":"Unspec","index":3,"handle":"abcd:","parent":"root","info":5},"attributes":[{"Kind":"htb"},{"Options":[{"Htb":{"Init":{"version":196625,"rate2quantum":10,"defcls":0,"debug":0,"direct_pkts":4}}},{"Htb":{"DirectQlen":1000}}]},{"HwOffload":0},{"Stats2":[{"Basic":{"bytes":2568,"packets":4}},{"Queue":{"qlen":0,"backlog":0,"drops":0,"requeues":0,"overlimits":0}}]},{"Stats":{"bytes":2568,"packets":4,"drops":0,"overlimits":0,"bps":0,"pps":0,"qlen":0,"backlog":0}}]}}
{"type":"RTM_NEWQDISC","flags":0,"seq":11,"fits":true,"settled":true,"canonical":true,"message":{"header":{"family":"Unspec","index":7,"handle":"8012:","parent":"root","info":2},"attributes":[{"Kind":"fq_codel"},{"Options":[{"FqCodel":{"Target":4999}},{"FqCodel":{"Limit":10240}},{"FqCodel":{"Interval":99999}},{"FqCodel":{"Ecn":1}},{"FqCodel":{"Quantum":1514}},{"FqCodel":{"DropBatchSize":64}},{"FqCodel":{"MemoryLimit":33554432}},{"FqCodel":{"Flows":1024}}]},{"HwOffload":0},{"Stab":[{"Base":{"cell_log":3,"size_log":0,"cell_align":-1,"overhead":24,"linklayer":"Atm","mpu":64,"mtu":2048,"tsize":512}}]},{"Pad":true},{"Stats2":[{"Pad":true},{"App":{"FqCodel":{"Qdisc":{"maxpacket":0,"drop_overlimit":0,"ecn_mark":0,"new_flow_count":0,"new_flows_len":0,"old_flows_len":0,"ce_mark":0,"memory_usage":0,"drop_overmemory":0}}}},{"Pad":true},{"Basic":{"bytes":0,"packets":0}},{"Pad":true},{"Queue":{"qlen":0,"backlog":0,"drops":0,"requeues":0,"overlimits":0}}]},{"Stats":{"bytes":0,"packets":0,"drops":0,"overlimits":0,"bps":0,"pps":0,"qlen":0,"backlog":0}},{"Pad":true},{"Xstats":{"FqCodel":{"Qdisc":{"maxpacket":0,"drop_overlimit":0,"ecn_mark":0,"new_flow_count":0,"new_flows_len":0,"old_flows_len":0,"ce_mark":0,"memory_usage":0,"drop_overmemory":0}}}}]}}
{"type":"RTM_NEWTFILTER","flags":0,"seq":19,"fits":true,"settled":true,"canonical":true,"message":{"header":{"family":"Unspec","index":7,"handle":":5","parent":"ffff:fff2","info":327688},"attributes":[{"Kind":"flower"},{"Chain":0},{"Options":[{"Flower":{"Flags":8}},{"Flower":{"Actions":[{"tab":1,"attributes":[{"Kind":"tunnel_key"},{"Stats":[{"Pad":true},{"Basic":{"bytes":0,"packets":0}},{"Pad":true},{"BasicHw":{"bytes":0,"packets":0}},{"Pad":true},{"Queue":{"qlen":0,"backlog":0,"drops":0,"requeues":0,"overlimits":0}}]}]}]}}]}]}}
{"type":"RTM_NEWTFILTER","flags":0,"seq":40,"fits":true,"settled":true,"canonical":false,"message":{"header":{"family":"Unspec","index":7,"handle":":1","parent":"ffff:fff3","info":22610688},"attributes":[{"Kind":"matchall"},{"Chain":0},{"Options":[{"MatchAll":{"Flags":8}},{"MatchAll":{"Pnct":{"rhit":0}}},{"MatchAll":{"Action":[{"tab":1,"attributes":[{"Kind":"bpf"},{"Pad":true},{"Stats":[{"Pad":true},{"Basic":{"bytes":0,"packets":0}},{"Pad":true},{"BasicHw":{"bytes":0,"packets":0}},{"Pad":true},{"Queue":{"qlen":0,"backlog":0,"drops":0,"requeues":0,"overlimits":0}}]},{"InHwCount":0},{"Options":[{"Bpf":{"Parms":{"generic":{"index":4,"capab":0,"action":"Pipe","refcnt":1,"bindcnt":1}}}},{"Bpf":{"OpsLen":1}},{"Bpf":{"Ops":[{"code":6,"jt":0,"jf":0,"k":4294967295}]}},{"Bpf":{"Tm":{"install":291,"lastuse":291,"expires":0,"firstuse":0}}}],"word":2}]}]}}]}]}}
{"type":"RTM_GETACTION","flags":0,"seq":29,"fits":true,"settled":true,"canonical":false,"message":{"header":{"family":"Unspec"},"attributes":[{"Actions":[{"tab":1,"attributes":[{"Kind":"mirred"},{"Stats":[{"Basic":{"bytes":0,"packets":0}},{"BasicHw":{"bytes":0,"packets":0}},{"Queue":{"qlen":0,"backlog":0,"drops":0,"requeues":0,"overlimits":0}}]},{"Cookie":"00ff"},{"UsedHwStats":{"value":0,"selector":3}},{"InHwCount":0},{"Options":[{"Mirror":{"Parms":{"generic":{"index":7,"capab":0,"action":"Unspec","refcnt":1,"bindcnt":0},"eaction":"IngressMirror","ifindex":2}}},{"Mirror":{"Tm":{"install":29,"lastuse":29,"expires":0,"firstuse":0}}}],"word":2}]}]}]}}
{"type":"RTM_NEWCHAIN","flags":0,"seq":30,"fits":true,"settled":true,"canonical":true,"message":{"header":{"family":"Unspec","index":7,"handle":"0:0","parent":"ffff:","info":0},"attributes":[{"Chain":7},{"Kind":"flower"},{"Options":[{"Flower":{"EthDst":"00:00:00:00:00:00"}},{"Flower":{"EthDstMask":"ff:ff:ff:ff:ff:ff"}},{"Flower":{"EthType":0}}]}]}}
{"type":"RTM_NEWTFILTER","flags":0,"seq":36,"fits":true,"settled":true,"canonical":true,"message":{"header":{"family":"Unspec","index":3,"handle":":1","parent":"1:","info":4784896},"attributes":[{"Kind":"bpf"},{"Chain":0},{"Options":[{"Bpf":{"ProgName":"prog.o:[classifier]"}},{"Bpf":{"ProgId":220}},{"Bpf":{"ProgTag":"f03f3c893109830e"}},{"Bpf":{"Flags":1}},{"Bpf":{"FlagsGeneric":8}}]}]}}
{"type":"RTM_NEWTFILTER","flags":0,"seq":18,"fits":true,"settled":true,"canonical":true,"message":{"header":{"family":"Unspec","index":7,"handle":"0:0","parent":"ffff:fff2","info":65544},"attributes":[{"Kind":"flower"},{"Chain":0}]}}
{"type":"RTM_GETTFILTER","flags":0,"seq":137,"fits":true,"settled":true,"canonical":true,"message":{"header":{"family":"Unspec","index":3,"handle":":c","parent":"ffff:fff2","info":843142},"attributes":[{"Kind":"flower"},{"Options":[{"Flower":{"Flags":0}},{"Flower":{"EthType":34525}}]}]}}
{"type":"RTM_NEWTFILTER","flags":0,"seq":17,"fits":true,"settled":true,"canonical":true,"message":{"header":{"family":"Unspec","index":3,"handle":"0:0","parent":"1:","info":917512},"attributes":[{"Kind":"u32"},{"Options":[{"U32":{"Action":[{"tab":1,"attributes":[{"Kind":"mirred"},{"Options":[{"Mirror":{"Parms":{"generic":{"index":0,"capab":0,"action":"Stolen","refcnt":0,"bindcnt":0},"eaction":"EgressRedir","ifindex":4}}}]}]}]}},{"U32":{"Selector":{"flags":1,"offshift":0,"nkeys":1,"offmask":0,"off":0,"offoff":0,"hoff":0,"hmask":0,"keys":[{"mask":4294967295,"val":16909063,"off":12,"offmask":0}]}}}]}]}}
{"type":"RTM_NEWTCLASS","flags":0,"seq":11,"message":{"header":{"family":"Unspec","index":7,"handle":"10:61","parent":"10:","info":0},"attributes":[{"Stats":{"bytes":0,"packets":0,"drops":0,"overlimits":0,"bps":0,"pps":0,"qlen":24,"backlog":15408}}]}}
{"header":{"family":"Unspec"},"attributes":[{"Actions":[{"tab":0,"attributes":[{"Kind":"gact"}]}]}]}
{"type":"RTM_GETACTION","time":"1764028801.123456789","flags":2,"seq":13,"message":{"header":{"family":"Unspec"},"attributes":[{"Actions":[{"tab":0,"attributes":[{"Kind":"gact"},{"Options":[]}]},{"tab":1,"attributes":[{"Kind":"nat"},{"Options":[]}]}]},{"RootCount":2}]}}
{"type":"RTM_NEWTFILTER","flags":0,"seq":14,"message":{"header":{"family":"Unspec","index":2,"handle":":1","parent":"ffff:fff2","info":39387144},"attributes":[{"Kind":"flower"},{"Options":[{"Flower":{"MplsBos":3}},{"Flower":{"Flags":8}}]}]}}
{"type":"RTM_NEWQDISC","seq":15,"message":{"header":{"family":"Unspec","index":2,"index":3,"handle":"1:","parent":"root","info":0},"attributes":[{"Kind":"fq_codel"}]}}
{"type":"RTM_NEWTFILTER","flags":2,"seq":99,"message":{"header":{"family":"Unspec","index":2,"handle":":1","parent":"ffff:","info":65544},"attributes":[{"Kind":"flower"},{"Options":[{"Flower":{"Flags":31}},{"Flower":{"InHwCount":2}}]}]}}
{"type":"RTM_NEWTFILTER","flags":2,"seq":41,"message":{"header":{"family":"Unspec","index":7,"handle":":2","parent":"ffff:fff3","info":22610688},"attributes":[{"Kind":"matchall"},{"Chain":0},{"Options":[{"MatchAll":{"Action":[{"tab":1,"attributes":[{"Kind":"mirred"},{"Options":[{"Mirror":{"Parms":{"generic":{"index":7,"capab":0,"action":"Unspec","refcnt":2,"bindcnt":1},"eaction":"IngressMirror","ifindex":2}}}]}]}]}}]}]}}
{"type":"RTM_GETACTION","flags":0,"seq":42,"fits":true,"settled":true,"canonical":false,"message":{"header":{"family":"Unspec"},"attributes":[{"Actions":[{"tab":1,"attributes":[{"Kind":"mirred"},{"Stats":[{"Basic":{"bytes":0,"packets":0}},{"BasicHw":{"bytes":0,"packets":0}},{"Queue":{"qlen":0,"backlog":0,"drops":0,"requeues":0,"overlimits":0}}]},{"Cookie":"00ff"},{"UsedHwStats":{"value":0,"selector":3}},{"InHwCount":0},{"Options":[{"Mirror":{"Parms":{"generic":{"index":7,"capab":0,"action":"Unspec","refcnt":1,"bindcnt":0},"eaction":"IngressMirror","ifindex":2}}},{"Mirror":{"Tm":{"install":29,"lastuse":29,"expires":0,"firstuse":0}}}],"word":2}]}]}]}}
"#;

// The requests, parents before what hangs below them.
static REQUESTS: &str = "\
50000000240005060d0000000000000000000000030000000000cdabffffffff0500000008000100687462002400020018000200030000000a00000000000000000000000400000008000500e8030000
54000000300005061d0000000000000000000000400001003c0001000b0001006d697272656400000600060000ff000024000280200002000700000000000000ffffffff00000000000000000400000002000000
5c000000640005061e000000000000000000000007000000000000000000ffff0000000008000b00070000000b000100666c6f7765720000240002000a00040000000000000000000a000500ffffffffffff00000600080000000000
2c000000300005060d0000000000000000000000180001001400010009000100676163740000000004000280
28000000300005060d00000000000000000000001400010010000100080001006e61740004000280
3c0000002c00050663000000000000000000000002000000010000000000ffff080001000b000100666c6f77657200000c0002000800160013000000
780000002c0005062900000000000000000000000700000002000000f3ffffff000359010d0001006d61746368616c6c0000000008000b00000000003c00020038000200340001000b0001006d6972726564000024000280200002000700000000000000ffffffff00000000000000000400000002000000
880000002c0005062800000000000000000000000700000001000000f3ffffff000359010d0001006d61746368616c6c0000000008000b00000000004c0002000800030000000000400002003c00010008000100627066003000028018000200000000000000000003000000000000000000000006000300010000000c00040006000000ffffffff
";

#[test]
fn requests_of_dumps() -> Result<(), Fail> {
    let options = Arguments::try_parse_from(["tcmake", "--request"])?.options();
    let run = made(&options, DUMPS.as_bytes());
    assert!(run.status == 1 && run.written.as_slice() == REQUESTS.as_bytes());
    Ok(())
}

// A filter, and the action that it shares: by default the action is made first.
#[rustfmt::skip]
static SHARED: &str = r#"{"type":"RTM_NEWTFILTER","flags":2,"seq":41,"message":{"header":{"family":"Unspec","index":7,"handle":":2","parent":"ffff:fff3","info":22610688},"attributes":[{"Kind":"matchall"},{"Chain":0},{"Options":[{"MatchAll":{"Action":[{"tab":1,"attributes":[{"Kind":"mirred"},{"Options":[{"Mirror":{"Parms":{"generic":{"index":7,"capab":0,"action":"Unspec","refcnt":2,"bindcnt":1},"eaction":"IngressMirror","ifindex":2}}}]}]}]}}]}]}}
{"type":"RTM_GETACTION","flags":0,"seq":29,"fits":true,"settled":true,"canonical":false,"message":{"header":{"family":"Unspec"},"attributes":[{"Actions":[{"tab":1,"attributes":[{"Kind":"mirred"},{"Stats":[{"Basic":{"bytes":0,"packets":0}},{"BasicHw":{"bytes":0,"packets":0}},{"Queue":{"qlen":0,"backlog":0,"drops":0,"requeues":0,"overlimits":0}}]},{"Cookie":"00ff"},{"UsedHwStats":{"value":0,"selector":3}},{"InHwCount":0},{"Options":[{"Mirror":{"Parms":{"generic":{"index":7,"capab":0,"action":"Unspec","refcnt":1,"bindcnt":0},"eaction":"IngressMirror","ifindex":2}}},{"Mirror":{"Tm":{"install":29,"lastuse":29,"expires":0,"firstuse":0}}}],"word":2}]}]}]}}
"#;

static IN_DEFAULT_ORDER: &str = "\
54000000300005061d0000000000000000000000400001003c0001000b0001006d697272656400000600060000ff000024000280200002000700000000000000ffffffff00000000000000000400000002000000
780000002c0005062900000000000000000000000700000002000000f3ffffff000359010d0001006d61746368616c6c0000000008000b00000000003c00020038000200340001000b0001006d6972726564000024000280200002000700000000000000ffffffff00000000000000000400000002000000
";

static IN_ORDER_OF_LINES: &str = "\
780000002c0005062900000000000000000000000700000002000000f3ffffff000359010d0001006d61746368616c6c0000000008000b00000000003c00020038000200340001000b0001006d6972726564000024000280200002000700000000000000ffffffff00000000000000000400000002000000
54000000300005061d0000000000000000000000400001003c0001000b0001006d697272656400000600060000ff000024000280200002000700000000000000ffffffff00000000000000000400000002000000
";

#[test]
fn requests_in_both_orders() -> Result<(), Fail> {
    let options = Arguments::try_parse_from(["tcmake", "--request"])?.options();
    let run = made(&options, SHARED.as_bytes());
    assert!(run.status == 0 && run.written.as_slice() == IN_DEFAULT_ORDER.as_bytes());
    let options = Arguments::try_parse_from(["tcmake", "--request", "--in-order"])?.options();
    let run = made(&options, SHARED.as_bytes());
    assert!(run.status == 0 && run.written.as_slice() == IN_ORDER_OF_LINES.as_bytes());
    Ok(())
}

// Options of requests, where none are made.
static NO_REQUESTS: [&[&str]; 5] = [
    &["tcmake", "--verbose"],
    &["tcmake", "--index", "7", "--settle"],
    &["tcmake", "--settle", "--in-order"],
    &["tcmake", "--verbose", "--as-given"],
    &["tcmake", "--as-given", "--index", "7"],
];

#[test]
fn options_of_requests_alone() {
    for words in &NO_REQUESTS {
        assert!(Arguments::try_parse_from(*words).is_err(), "{words:?}");
    }
}
