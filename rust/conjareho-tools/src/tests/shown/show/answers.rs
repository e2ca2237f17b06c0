//! Answers of the kernel to requests.

use crate::user::prelude::*;

use crate::read::select::Filter;
use crate::show::program::options::OutputFormat;
use crate::tests::shown::show::runs::{Written, all_in, chosen_in, counted_in, gives_of_hex};

// pcap, a packet for each: EINVAL of a request, with a text and a place, from the port 77, of packet type 7; the same, capped; an
// acknowledgement; EEXIST of a request for links; NLMSG_DONE; an error 777 of a request that is cut; an acknowledgement with a warning.
static ANSWERS: &str = "d4c3b2a102000400000000000000000000001000fd00000000f1536540e20100980000009800000000070338000000000000\
     00000000000088000000020000029b0000004d000000eaffffff500000002c0000069b000000000000000000000003000000\
     00000000f2ffffff080059020b000100666c6f77657200002000020005000900060000001400030010000100090001006761\
     6374000000001c0001004e4c415f465f4e4553544544206973206d697373696e6700080002003c00000000f1536540e20100\
     58000000580000000004033800000000000000000000000048000000020000039b00000000000000eaffffff500000002c00\
     00069b000000000000001c0001004e4c415f465f4e4553544544206973206d697373696e6700080002003c00000000f15365\
     40e2010034000000340000000004033800000000000000000000000024000000020000019b00000000000000000000005000\
     00002c0000069b0000000000000000f1536540e2010044000000440000000004033800000000000000000000000034000000\
     020000000900000000000000efffffff200000001000000609000000000000000000000000000000000000000000000000f1\
     536540e2010024000000240000000004033800000000000000000000000014000000030002009b0000000000000000000000\
     00f1536540e2010038000000380000000004033800000000000000000000000028000000020000000900000000000000f7fc\
     ffff140000002400000609000000000000000000000000f1536540e2010048000000480000000004033800000000000000000000000038000000\
     020000039b0000000000000000000000500000002c0000069b00000000000000130001007175616e74756d206973206269670000";

static LINES: &str = r#"1700000000.123456000 NLMSG_ERROR EINVAL ack_tlvs seq 155 port 77 "NLA_F_NESTED is missing" at 44 /attributes/1/Options/1/Flower/Actions
  RTM_NEWTFILTER create excl seq 155 index 3 handle 0x0 parent ffff:fff2 pref 601 protocol ip (0x0800)
  kind flower
  options
    ip_proto tcp (6)
    actions
      action 1
        kind gact

1700000000.123456000 NLMSG_ERROR EINVAL capped ack_tlvs seq 155 "NLA_F_NESTED is missing" at 44
  RTM_NEWTFILTER create excl seq 155

1700000000.123456000 NLMSG_ERROR 777 seq 9
  RTM_NEWQDISC create excl seq 9
  raw 00000000
  refused BufferTooSmall len 4 needed 20 offset 0 path /header

1700000000.123456000 NLMSG_ERROR warning capped ack_tlvs seq 155 "quantum is big"
  RTM_NEWTFILTER create excl seq 155

summary
  2 NLMSG_ERROR EINVAL
  1 NLMSG_ERROR 777
  1 NLMSG_ERROR warning
  0 messages
  4 answers
  0 refused
  0 left out
  3 other netlink messages
  0 packets of other link types
  0 packets of other netlink families
  0 cut
  0 skipped
  0 broken
"#;

static JSON: &str = r#"{"time":"1700000000.123456000","packet":1,"packet_type":7,"type":"NLMSG_ERROR","flags":512,"seq":155,"portid":77,"errno":"EINVAL","text":"NLA_F_NESTED is missing","offset":44,"path":"/attributes/1/Options/1/Flower/Actions","request":{"type":"RTM_NEWTFILTER","flags":1536,"seq":155,"message":{"header":{"family":"Unspec","index":3,"handle":"0:0","parent":"ffff:fff2","info":39387144},"attributes":[{"Kind":"flower"},{"Options":[{"Flower":{"IpProto":6}},{"Flower":{"Actions":[{"tab":1,"attributes":[{"Kind":"gact"}]}]}}]}]}}}
{"time":"1700000000.123456000","packet":2,"type":"NLMSG_ERROR","flags":768,"seq":155,"errno":"EINVAL","text":"NLA_F_NESTED is missing","offset":44,"request":{"type":"RTM_NEWTFILTER","flags":1536,"seq":155}}
{"time":"1700000000.123456000","packet":6,"type":"NLMSG_ERROR","flags":0,"seq":9,"errno":"777","request":{"type":"RTM_NEWQDISC","flags":1536,"seq":9,"message":{"raw":"00000000"}}}
{"time":"1700000000.123456000","packet":7,"type":"NLMSG_ERROR","flags":768,"seq":155,"errno":"warning","text":"quantum is big","request":{"type":"RTM_NEWTFILTER","flags":1536,"seq":155}}
"#;

static REFUSED_LINE: &str = r#"22:13:20.123456 refused EINVAL "NLA_F_NESTED is missing" at Options/Flower/Actions (byte 44) add filter flower - dev 3 ingress pref 601 protocol ip ip_proto tcp action gact
"#;

static OTHER_LINES: &str = r#"22:13:20.123456 refused EINVAL "NLA_F_NESTED is missing" at byte 44 add filter - -
22:13:20.123456 refused 777 add qdisc - - raw=00000000 malformed: 4 bytes, 20 expected, at header (byte 0)
22:13:20.123456 warned "quantum is big" add filter - -
"#;

// Refused messages of a kind and an interface.
static REFUSED_FLOWER: Filter<'static> = Filter { kinds: &["flower"], interfaces: &[3], refused: true, ..Filter::ALL };

// A stream: a request and its capped answer, and a request to dump and the end of the dump, EINVAL with a text.
static ASKED: &str = "500000002c0005069b00000000000000000000000300000000000000f2ffffff080059020b000100666c6f77657200002000\
     02000500090006000000140003001000010009000100676163740000000048000000020000039b0000004d000000eaffffff\
     500000002c0005069b000000000000001c0001004e4c415f465f4e4553544544206973206d697373696e6700080002003c00\
     0000240000002600010309000000000000000000000007000000000000000000000000000000280000000300020209000000\
     4d000000eaffffff1100010044756d70206973206275737900000000";

static ASKED_LINES: &str = r#"add filter flower - dev 3 ingress pref 601 protocol ip ip_proto tcp action gact
refused EINVAL "NLA_F_NESTED is missing" at Options/Flower/Actions (byte 44) add filter flower - dev 3 ingress pref 601 protocol ip ip_proto tcp action gact
dump qdisc - - dev 7
refused EINVAL "Dump is busy" dump qdisc - - dev 7
"#;

static ASKED_FLOWER: &str = r#"refused EINVAL "NLA_F_NESTED is missing" at Options/Flower/Actions (byte 44) add filter flower - dev 3 ingress pref 601 protocol ip ip_proto tcp action gact
"#;

#[test]
fn answers_with_their_requests() {
    let options = all_in(OutputFormat::Lines(false));
    assert!(gives_of_hex(&options, ASKED, 0, Written::Is(&[ASKED_LINES]), ""));
    let options = chosen_in(OutputFormat::Lines(false), REFUSED_FLOWER);
    assert!(gives_of_hex(&options, ASKED, 0, Written::Is(&[ASKED_FLOWER]), ""));
}

#[test]
fn answers() {
    let options = counted_in(OutputFormat::Outline);
    assert!(gives_of_hex(&options, ANSWERS, 0, Written::Is(&[LINES]), ""));
    let options = all_in(OutputFormat::Json);
    assert!(gives_of_hex(&options, ANSWERS, 0, Written::Is(&[JSON]), ""));
    let options = all_in(OutputFormat::Lines(false));
    assert!(gives_of_hex(&options, ANSWERS, 0, Written::Is(&[REFUSED_LINE, OTHER_LINES]), ""));
    let options = chosen_in(OutputFormat::Lines(false), REFUSED_FLOWER);
    assert!(gives_of_hex(&options, ANSWERS, 0, Written::Is(&[REFUSED_LINE]), ""));
}
