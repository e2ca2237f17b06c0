//! Typed values of every kind beside the codec's, and what is kept that isn't of a table.
#![cfg(feature = "kinds")]

use conjareho::kinds::action::{ActionAttr, Gen, TcAct};
use conjareho::kinds::actions::gact::{Gact, GactAttr};
use conjareho::kinds::actions::mirred::{Mirred, MirredAttr, TcaMirred};
use conjareho::kinds::filters::flower::FlowerAttr;
use conjareho::kinds::message::TcAttr;
use conjareho::kinds::qdiscs::fq_codel::FqCodelAttr;
use conjareho::kinds::qdiscs::htb::{HtbAttr, HtbOpt};
use conjareho::kinds::qdiscs::red::TcRedBits;
use conjareho::kinds::shared::{Ratespec, TcLinklayer};
use conjareho::kinds::{
    ActionMessage, ActionOptions, Attrs, Bytes, Handle, HtbClass, Mac, Message, Options, Prob, Rate, Sizes, Statistics,
    Ticks, police,
};
use conjareho::tc::{TcActionMessage, TcAttribute, TcHandle, TcMessage, TcOption, TcQdiscFqCodelOption};
use conjareho::{DecodeError, Flags, RewriteError};

/// An attribute of a type and a payload, padded.
fn attribute(word: u16, payload: &[u8]) -> Vec<u8> {
    let len = u16::try_from(4 + payload.len()).expect("a short payload");
    let padding = vec![0; payload.len().wrapping_neg() % 4];
    [&len.to_le_bytes()[..], &word.to_le_bytes(), payload, &padding].concat()
}

/// A message of a kind with options, after a header of zeros.
fn message(kind: &str, options: &[u8]) -> Vec<u8> {
    [vec![0; 20], attribute(1, format!("{kind}\0").as_bytes()), attribute(2, options)].concat()
}

fn parsed(bytes: &[u8]) -> Message {
    let message = Message::parse(bytes).expect("a header");
    assert_eq!(message.to_bytes().expect("it fits"), bytes);
    message
}

#[test]
fn a_message_of_the_codec_and_a_typed_one_are_turned_into_each_other() {
    let mut codec = TcMessage::with_index(7);
    codec.header.handle = TcHandle { major: 1, minor: 0x10 };
    codec.attributes.push(TcAttribute::Kind("fq_codel".to_string()));
    codec.attributes.push(TcAttribute::Options(vec![TcOption::FqCodel(TcQdiscFqCodelOption::Limit(10240))]));
    let typed = Message::try_from(&codec).expect("it fits");
    assert_eq!((typed.header.index, typed.header.handle), (7, Handle::new(1, 0x10)));
    assert_eq!(typed.kind(), "fq_codel");
    assert_eq!(typed.options(), Some(&Options::FqCodel([FqCodelAttr::Limit(10240)].into())));
    assert_eq!(TcMessage::try_from(&typed).expect("a message"), codec);
}

#[test]
fn an_action_message_of_the_codec_and_a_typed_one_are_turned_into_each_other() {
    let redirect = Mirred { eaction: TcaMirred::EgressRedir, ifindex: 3, ..Mirred::default() };
    let action = ActionAttr::list().with_kind("mirred").with_options(MirredAttr::list().with_parms(redirect));
    let mut typed = ActionMessage::default();
    typed.attributes = typed.attributes.with_actions([(1, action)]);
    let codec = TcActionMessage::try_from(&typed).expect("a message");
    assert_eq!(codec.attributes.len(), 1);
    assert_eq!(ActionMessage::try_from(&codec).expect("it fits"), typed);
    let (tab, action) = &typed.actions().expect("actions")[0];
    assert_eq!((*tab, action.kind().map(String::as_str)), (1, Some("mirred")));
}

#[test]
fn what_the_codec_refuses_is_an_error() {
    let cut = message("fq_codel", &[9, 0, 1, 0, 0, 0, 0, 0]);
    let fault = TcMessage::try_from(&parsed(&cut)).expect_err("a cut attribute");
    assert_eq!(fault, RewriteError::Decode(DecodeError::FrameTooLong { length: 9, left: 8 }));
    assert_eq!(Message::parse(&[0; 19]), Err(DecodeError::BufferTooSmall { len: 19, needed: 20 }));
    assert_eq!(ActionMessage::parse(&[]), Err(DecodeError::BufferTooSmall { len: 0, needed: 4 }));
}

#[test]
fn what_does_not_fit_is_an_error() {
    let long = Message::default().with_kind(&"x".repeat(65531));
    assert_eq!(long.to_bytes(), Err(RewriteError::DoesNotFit));
    let wide = Ratespec { linklayer: TcLinklayer::Other(256), ..Ratespec::default() };
    let class = |rate| {
        Message::default()
            .with_kind("htb")
            .with_options(HtbAttr::list().with_parms(HtbOpt { rate, ..HtbOpt::default() }))
    };
    assert_eq!(class(wide).to_bytes(), Err(RewriteError::DoesNotFit));
    assert!(class(Ratespec::default()).to_bytes().is_ok());
    // The result of police is unsigned, as the header has it.
    let unspec = conjareho::kinds::actions::police::PoliceAttr::list().with_result(TcAct::Unspec);
    let mut message = ActionMessage::default();
    message.attributes =
        message.attributes.with_actions([(1, ActionAttr::list().with_kind("police").with_options(unspec))]);
    let bytes = message.to_bytes().expect("it fits");
    assert!(bytes.ends_with(&[8, 0, 5, 0, 0xff, 0xff, 0xff, 0xff]));
    assert_eq!(ActionMessage::parse(&bytes), Ok(message));
}

#[test]
fn the_last_attribute_of_a_type_counts() {
    let list = HtbAttr::list().with_rate64(1).with_direct_qlen(2).with_rate64(3);
    assert_eq!((list.rate64(), list.direct_qlen(), list.ceil64()), (Some(&3), Some(&2), None));
}

#[test]
fn statistics_are_found_in_either_place() {
    let htb = [1u32, 2, 3, 4, 5].iter().flat_map(|number| number.to_le_bytes()).collect::<Vec<u8>>();
    let kind = attribute(1, b"htb\0");
    for place in [attribute(4, &htb), attribute(7, &attribute(4, &htb))] {
        let found = parsed(&[vec![0; 20], kind.clone(), place].concat());
        let Some(Statistics::Htb(xstats)) = found.xstats() else { panic!("no statistics in {found:?}") };
        assert_eq!((xstats.lends, xstats.borrows, xstats.ctokens), (1, 2, 5));
    }
}

#[test]
fn the_actions_of_a_filter_are_found() {
    let drop = Gact { generic: Gen { action: TcAct::Shot, ..Gen::default() } };
    let action = ActionAttr::list().with_kind("gact").with_options(GactAttr::list().with_parms(drop));
    let filter = Message::default().with_kind("flower").with_options(FlowerAttr::list().with_actions([(1, action)]));
    let found = parsed(&filter.to_bytes().expect("it fits"));
    let (_, action) = &found.actions().expect("actions")[0];
    let Some(ActionOptions::Gact(gact)) = action.options() else { panic!("no gact in {found:?}") };
    assert_eq!(gact.parms().map(|parms| parms.generic.action), Some(TcAct::Shot));
    assert_eq!(found.attributes, filter.attributes);
}

#[test]
fn what_is_not_of_a_table_is_kept() {
    let limit = |word: u16| attribute(word, &10240u32.to_le_bytes());
    let cases = [
        message("fq_codel", &limit(0x8002)),                      // NLA_F_NESTED at a number
        message("fq_codel", &attribute(2, &[1, 2, 3])),           // a number of three bytes
        message("fq_codel", &[limit(2), vec![3, 0, 1]].concat()), // a broken attribute at the end
        message("fq_codel", &[5, 0, 2, 0, 1, 9, 9, 9]),           // padding that isn't zero
        message("netem", &[1; 23]),                               // a record that is cut
        message("sfq", &[1; 24]),                                 // a record of neither length
        message("red", &attribute(4, &[1, 0, 0, 0, 2, 0, 0, 0, 3])), // a byte after a record
        message("pfifo", &[1; 6]),                                // two bytes after the record of options
        message("unknown", &[1, 2, 3]),                           // a kind without a table
        [vec![0; 20], attribute(1, b"fq_codel"), limit(2)].concat(), // a kind without NUL
        [vec![0; 20], attribute(1, b"\xff\xff\0"), limit(2)].concat(), // a kind that is no text
    ];
    cases.iter().for_each(|case| drop(parsed(case)));
    let newer = parsed(&cases[6]);
    let Some(Options::Red(red)) = newer.options() else { panic!("no red in {newer:?}") };
    assert_eq!(red.flags().map(|flags| flags.value), Some(TcRedBits::ECN));
}

#[test]
fn a_message_that_is_cut_or_broken_is_not_whole() {
    let limit = |word: u16| attribute(word, &10240u32.to_le_bytes());
    let wholes = [
        vec![0; 20],
        message("fq_codel", &limit(2)),
        message("fq_codel", &limit(0x8002)),       // NLA_F_NESTED at a number
        message("fq_codel", &attribute(99, &[1])), // an attribute without a table
        message("pfifo", &[1; 6]),                 // two bytes after a record
        message("sfq", &[1; 20]),
        message("unknown", &[1, 2, 3]), // a kind without a table
        [vec![0; 20], attribute(1, b"fq_codel"), attribute(2, &limit(2))].concat(), // a kind without NUL
        [vec![0; 20], vec![5, 0, 12, 0, 1, 9, 9, 9]].concat(), // padding that isn't zero
    ];
    for bytes in &wholes {
        assert!(parsed(bytes).is_whole(), "{bytes:?}");
    }
    let broken = [
        message("fq_codel", &attribute(2, &[1, 2, 3])), // a number of three bytes
        message("fq_codel", &[limit(2), vec![3, 0, 1]].concat()), // a broken attribute at the end of options
        message("netem", &[1; 23]),                     // a record that is cut
        message("sfq", &[1; 24]),                       // a record of neither length
        [vec![0; 20], attribute(1, b"\xff\xff\0")].concat(), // a kind that is no text
        message("flower", &attribute(3, &attribute(1, &[9, 0, 1, 0]))), // in an action
    ];
    for bytes in &broken {
        assert!(!parsed(bytes).is_whole(), "{bytes:?}");
    }
    // Cut after each byte: it is whole between attributes, and with less padding.
    let bytes = message("fq_codel", &[limit(2), limit(3)].concat());
    for len in 20..bytes.len() {
        let is_between = len == 20 || (33..=36).contains(&len);
        assert_eq!(parsed(&bytes[..len]).is_whole(), is_between, "{len}");
    }
    for (mode, bytes) in sent() {
        let is_whole = match &*mode {
            "action" => ActionMessage::parse(&bytes).expect("a header").is_whole(),
            _ => parsed(&bytes).is_whole(),
        };
        assert!(is_whole, "{mode} {bytes:?}");
    }
    assert!(ActionMessage::of([ActionOptions::from(TcAct::Shot)]).is_whole());
    assert!(!ActionMessage::parse(&[0, 0, 0, 0, 8, 0, 1, 0]).expect("a header").is_whole());
    assert!(!Message::on(2).with_kind(&"x".repeat(65531)).is_whole());
}

#[test]
fn a_filter_has_its_priority_and_its_protocol() {
    let filter = Message::on(2).filter(10, 0x0800);
    assert_eq!((filter.header.info, filter.priority(), filter.protocol()), (0x000a_0008, 10, 0x0800));
    // As Linux has it: TC_H_MAKE(prio << 16, htons(ETH_P_ALL)).
    let read = parsed(&[&[0; 16][..], &[0x00, 0x03, 0x00, 0xc0]].concat());
    assert_eq!((read.priority(), read.protocol()), (0xc000, 3));
    assert_eq!(Message::default().filter(read.priority(), read.protocol()).header.info, read.header.info);
}

#[test]
fn a_changed_list_keeps_what_is_beside_its_attributes() {
    let options =
        [attribute(1, &[5, 0, 0, 0]), attribute(0x8002, &[6, 0, 0, 0]), attribute(9, &[7, 0, 0, 0]), vec![9, 9]]
            .concat();
    let mut read = parsed(&message("fq_codel", &options));
    let Some(TcAttr::Options(Options::FqCodel(list))) = read.attributes.iter_mut().nth(1) else { panic!("no options") };
    assert_eq!(format!("{list:?}").matches("32770").count(), 1);
    list.retain(|item| !matches!(item, FqCodelAttr::Target(_)));
    list.push(FqCodelAttr::Flows(8));
    let left = [attribute(0x8002, &[6, 0, 0, 0]), attribute(9, &[7, 0, 0, 0]), attribute(5, &[8, 0, 0, 0])].concat();
    assert_eq!(read.to_bytes().expect("it fits"), message("fq_codel", &left));
    let Some(TcAttr::Options(Options::FqCodel(list))) = read.attributes.iter_mut().nth(1) else { panic!("no options") };
    list.settle();
    let settled = [attribute(2, &[6, 0, 0, 0]), attribute(9, &[7, 0, 0, 0]), attribute(5, &[8, 0, 0, 0])].concat();
    assert_eq!(read.to_bytes().expect("it fits"), message("fq_codel", &settled));
}

#[test]
fn padding_that_is_cut_is_made_whole_by_a_push() {
    let mut list = parsed(&[vec![0; 20], vec![5, 0, 12, 0, 1]].concat()).attributes;
    list.push(TcAttr::Chain(2));
    let header = Message::default().header;
    let bytes = Message { header, attributes: list }.to_bytes().expect("it fits");
    assert_eq!(bytes[20..], [5, 0, 12, 0, 1, 0, 0, 0, 8, 0, 11, 0, 2, 0, 0, 0]);
}

#[test]
fn a_kind_that_is_replaced_where_a_nul_was_missing_is_no_trap() {
    let mut read = parsed(&[vec![0; 20], attribute(1, b"fq")].concat());
    for item in read.attributes.iter_mut() {
        *item = TcAttr::Pad(());
    }
    assert_eq!(read.to_bytes().expect("it fits")[20..], [4, 0, 9, 0]);
}

#[test]
fn nesting_is_limited() {
    let nested = |depth: usize| {
        let mut list = attribute(10, &[1, 0, 0, 0]);
        for _ in 0..depth {
            list = attribute(7, &list);
        }
        message("taprio", &list)
    };
    for depth in [1, 12, 13, 14, 15, 16, 17, 1000, 10_000] {
        parsed(&nested(depth));
    }
}

#[test]
fn flags_and_numbers_have_names() {
    let flags = TcRedBits::ECN | TcRedBits(0x40);
    assert_eq!(
        format!("{flags:?} {:?} {:?}", TcRedBits(0), TcRedBits::from_name("NODROP")),
        "ECN | 0x40 0x0 Some(NODROP)"
    );
    assert!(flags.contains(TcRedBits::ECN) && !flags.contains(TcRedBits::NODROP));
    assert_eq!((TcAct::from(2), TcAct::from(77), i32::from(TcAct::Unspec)), (TcAct::Shot, TcAct::Other(77), -1));
    assert_eq!(conjareho::kinds::shared::eth_p::_802_1Q, 0x8100);
}

#[test]
fn a_handle_is_the_text_of_tc() {
    for (text, handle) in [
        ("1:10", Handle(0x10010)),
        ("8001:", Handle(0x8001_0000)),
        (":a", Handle(10)),
        ("root", Handle::ROOT),
        ("0:0", Handle(0)),
    ] {
        assert_eq!((text.parse(), handle.to_string()), (Ok(handle), text.to_string()));
        assert_eq!(Handle::from(TcHandle::from(handle)), handle);
    }
    for text in ["", "1", "1:2:3", "1:x", "10000:1", "+1:2", " 1:2", "Root"] {
        assert!(text.parse::<Handle>().is_err(), "{text}");
    }
}

#[test]
fn a_handle_of_u32_is_the_text_of_tc() {
    use conjareho::kinds::U32Parts;
    for (text, handle) in [
        ("800:", 0x8000_0000),
        ("800::800", 0x8000_0800),
        ("fff:ff:fff", u32::MAX),
        ("2:1:3", 0x0020_1003),
        ("2:a", 0x0020_a000),
        ("none", 0),
    ] {
        assert_eq!(text.parse::<U32Parts>().map(Handle::from), Ok(Handle(handle)), "{text}");
        assert_eq!(Handle(handle).u32_parts().to_string(), text);
    }
    assert_eq!(
        ("0:0:0".parse::<U32Parts>(), "::801".parse()),
        (Ok(Handle(0).u32_parts()), Ok(Handle(0x801).u32_parts()))
    );
    for text in ["", "800", "1000:", "800:100", "800::1000", "800:::1", "1:x", "+1:", "1: 2", "800::-1", "root"] {
        assert!(text.parse::<U32Parts>().is_err(), "{text}");
    }
    assert!("800::800".parse::<Handle>().is_err());
}

/// The stored messages that iproute2 sent: a mode, `tc` or `action`, and the bytes.
fn sent() -> Vec<(String, Vec<u8>)> {
    let path = std::path::Path::new(env!("CARGO_MANIFEST_DIR")).join("../../model/labelled");
    let text = std::fs::read_to_string(path).expect("the stored messages");
    let octet = |hex: &str, at: usize| u8::from_str_radix(&hex[at..at + 2], 16).expect("hex");
    let octets = |hex: &str| (0..hex.len()).step_by(2).map(|at| octet(hex, at)).collect::<Vec<u8>>();
    let lines = text.lines().filter(|line| line.contains(".send.")).map(|line| line.split(' ').collect::<Vec<&str>>());
    lines.map(|words| (words[1].to_string(), octets(words[2]))).collect()
}

#[test]
fn rate_tables_are_those_of_iproute2() {
    let mut compared = 0;
    let mut compare = |spec: &Ratespec, table: Option<&Bytes>| {
        if let (Some(table), 0) = (table, spec.mpu) {
            let mtu = if spec.cell_log == 3 { 2047 } else { 2048 };
            let sizes = Sizes { mtu, ..Sizes::default() };
            assert_eq!(Ratespec::with_table(Rate(spec.rate.into()), sizes), (spec.clone(), table.clone()));
            compared += 1;
        }
    };
    for (mode, bytes) in sent() {
        let message = ActionMessage::parse(&bytes).expect("a header");
        for (_, action) in message.actions().filter(|_| mode == "action").into_iter().flatten() {
            let Some(ActionOptions::Police(list)) = action.options() else { continue };
            list.tbf().iter().for_each(|tbf| compare(&tbf.rate, list.rate()));
            list.tbf().iter().for_each(|tbf| compare(&tbf.peakrate, list.peakrate()));
        }
        if mode == "action" {
            continue;
        }
        if let Some(Options::Tbf(list)) = parsed(&bytes).options() {
            list.parms().iter().for_each(|parms| compare(&parms.rate, list.rtab()));
            list.parms().iter().for_each(|parms| compare(&parms.peakrate, list.ptab()));
        }
    }
    assert!(compared >= 7, "{compared} rate tables");
}

#[test]
fn police_is_that_of_iproute2() {
    // 3 Mbit/s with bursts of 250 KiB.
    let ours = police(Rate(375_000), 256_000, TcAct::Shot, TcAct::Ok);
    let ActionOptions::Police(ours) = ours else { panic!("no police") };
    let actions = sent()
        .into_iter()
        .filter(|(mode, _)| mode == "action")
        .map(|(_, bytes)| ActionMessage::parse(&bytes).expect("a header"));
    let tables: Vec<_> = actions.flat_map(|message| message.actions().cloned().unwrap_or_default()).collect();
    let theirs = tables.iter().filter_map(|(_, action)| {
        if let Some(ActionOptions::Police(list)) = action.options() { Some(list) } else { None }
    });
    let same = theirs.filter(|list| list.rate() == ours.rate()).filter_map(|list| list.tbf());
    assert!(same.map(|tbf| (tbf.burst, &tbf.rate)).any(|it| Some(it) == ours.tbf().map(|tbf| (tbf.burst, &tbf.rate))));
}

#[test]
fn a_rate_is_the_text_of_tc() {
    for (text, rate) in [
        ("100mbit", 12_500_000),
        ("1gbit", 125_000_000),
        ("8bit", 1),
        ("1500kbit", 187_500),
        ("5tbit", 625_000_000_000),
    ] {
        assert_eq!((text.parse(), Rate(rate).to_string()), (Ok(Rate(rate)), text.to_string()));
    }
    assert_eq!(
        ("1.5mbit".parse(), "10KBps".parse(), "800".parse()),
        (Ok(Rate(187_500)), Ok(Rate(10_000)), Ok(Rate(100)))
    );
    assert_eq!(
        (Rate(0).to_string(), Rate(u64::MAX).to_string()),
        ("0bit".to_string(), format!("{}bit", u128::from(u64::MAX) * 8))
    );
    assert_eq!(("1mibit".parse(), "1.0625kibps".parse()), (Ok(Rate(131_072)), Ok(Rate(1088))));
    for text in ["", "mbit", ".mbit", "1.2.3mbit", "1 mbit", "-1mbit", "1miles", "18446744073709551616bps"] {
        assert!(text.parse::<Rate>().is_err(), "{text}");
    }
}

#[test]
fn units_are_those_of_tc() {
    use std::time::Duration;
    // What tc sends for `delay 100ms loss 1%`.
    assert_eq!((Ticks::from(Duration::from_millis(100)), Prob::percent(1.0)), (Ticks(1_562_500), Prob(42_949_673)));
    assert_eq!((Prob::percent(100.0), Prob::percent(-1.0)), (Prob(u32::MAX), Prob(0)));
    assert_eq!(Duration::from(Ticks(1_562_500)), Duration::from_millis(100));
    assert_eq!(Rate(0).ticks(1), Ticks(u32::MAX));
    let sizes = Sizes { mtu: u32::MAX, ..Sizes::default() };
    let class = Options::from(HtbClass { sizes, ..HtbClass::new(Rate(5_000_000_000)) });
    let Options::Htb(list) = class else { panic!("no htb") };
    assert_eq!((list.rate64(), list.parms().map(|it| it.rate.rate)), (Some(&5_000_000_000), Some(u32::MAX)));
}

/// Numbers of each width: the smallest and the largest of each number of bits, and some between.
fn of_all_widths(bits: u32) -> impl Iterator<Item = u64> {
    let top = |width: u32| u64::MAX.checked_shr(64 - width).unwrap_or(0);
    let edges = (0..=bits).flat_map(move |width| [top(width), top(width) / 2 + 1, top(width) / 3, top(width) / 7 * 5]);
    let between = (1..2000u64).map(move |at| at.wrapping_mul(0x9e37_79b9_7f4a_7c15) & top(bits));
    edges.chain(between).chain(0..2000)
}

#[test]
fn units_are_read_as_they_were_written() {
    use std::fmt::{Debug, Display};
    use std::str::FromStr;
    fn again<T: Display + FromStr<Err: Debug> + PartialEq + Debug>(value: T) {
        let text = value.to_string();
        assert_eq!(text.parse::<T>().unwrap_or_else(|e| panic!("{text}: {e:?}")), value, "{text}");
    }
    of_all_widths(64).for_each(|number| again(Rate(number)));
    for number in of_all_widths(32).map(|number| number as u32) {
        again(Ticks(number));
        again(Prob(number));
        again(Handle(number));
        again(TcHandle::from(number));
        again(conjareho::tc::TcActionType::from(number as i32));
    }
    for octets in of_all_widths(48).map(u64::to_le_bytes) {
        again(Mac(octets[..6].try_into().expect("six bytes")));
        again(Bytes(octets[..usize::from(octets[0]) % 9].to_vec()));
    }
    assert_eq!((Ticks(1_562_500).to_string(), Ticks(1).to_string()), ("100ms".to_string(), "64ns".to_string()));
    assert_eq!((Prob(42_949_673).to_string(), "0.5%".parse()), ("1%".to_string(), Ok(Prob(21_474_836))));
    assert_eq!(("1.5s".parse(), "20".parse()), (Ok(Ticks(23_437_500)), Ok(Ticks(312))));
    for text in ["", "ms", "1parsec", "5 min", "-1s", "300s", "1..5s"] {
        assert!(text.parse::<Ticks>().is_err(), "{text}");
    }
    for text in ["", "%", "101%", "-1%", "1%%", "100.1", "half"] {
        assert!(text.parse::<Prob>().is_err(), "{text}");
    }
    for text in ["", "02:00:00:00:00", "02:00:00:00:00:01:02", "2:0:0:0:0:1", "+2:00:00:00:00:01"] {
        assert!(text.parse::<Mac>().is_err(), "{text}");
    }
    assert!("123".parse::<Bytes>().is_err() && "+1".parse::<Bytes>().is_err());
    assert!(
        "1:+2".parse::<TcHandle>().is_err() && "1:x".parse::<TcHandle>().is_err() && "1".parse::<TcHandle>().is_err()
    );
}

#[test]
fn lists_are_collections() {
    let list: Attrs<HtbAttr> = [HtbAttr::Rate64(1), HtbAttr::Pad(())].into_iter().collect();
    assert_eq!((list.len(), list.first()), (2, Some(&HtbAttr::Rate64(1))));
    assert_eq!((&list).into_iter().count() + list.clone().into_iter().count(), 4);
    assert_eq!(list, vec![HtbAttr::Rate64(1), HtbAttr::Pad(())].into());
}

#[test]
fn an_option_that_was_read_is_replaced() {
    let options = |limit: u32| [attribute(2, &limit.to_le_bytes()), attribute(4, &[1, 0, 0, 0])].concat();
    let mut typed = parsed(&message("fq_codel", &options(10240)));
    let Some(Options::FqCodel(list)) = typed.options_mut() else { panic!("another kind") };
    list.set(FqCodelAttr::Limit(500));
    assert_eq!(typed.to_bytes(), Ok(message("fq_codel", &options(500))));
    let Some(Options::FqCodel(list)) = typed.options_mut() else { panic!("another kind") };
    list.set(FqCodelAttr::Flows(64));
    assert_eq!((list.len(), list.flows()), (3, Some(&64)));
    let other = |word: u16, value: u8| FqCodelAttr::Other(conjareho::kinds::Nla { word, value: vec![value].into() });
    let mut list: Attrs<FqCodelAttr> = [other(98, 1), other(99, 2)].into();
    list.set(other(98, 3));
    assert_eq!(list, vec![other(98, 3), other(99, 2)].into());
    assert!(Message::on(2).options_mut().is_none());
}

#[cfg(feature = "serde")]
#[test]
fn json_is_that_of_the_forms() {
    use conjareho::forms::{Shown, TC_MESSAGE, TcTables};
    let bytes = message("fq_codel", &attribute(0x8002, &10240u32.to_le_bytes()));
    let (typed, shown) = (parsed(&bytes), Shown { table: TcTables, form: TC_MESSAGE, bytes: &bytes });
    let json = serde_json::to_string(&typed).expect("memory");
    assert_eq!(json, serde_json::to_string(&shown).expect("memory"));
    assert_eq!(serde_json::from_str::<Message>(&json).expect("a message"), typed);
    // Two attributes in one object, and a misspelt member.
    for wrong in [r#"{"Limit":1000,"Target":5000}"#, r#"{"Limit":1000,"wrod":32770}"#] {
        let json = json.replace(r#"{"Limit":10240,"word":32770}"#, wrong);
        assert!(json.contains(wrong) && serde_json::from_str::<Message>(&json).is_err(), "{json}");
    }
    let fault =
        serde_json::from_str::<Message>(r#"{"header":{"family":"Unspec","index":0.5}}"#).expect_err("no message");
    assert!(fault.to_string().starts_with("/header/index: found 0.5, wanted a number"), "{fault}");
    let action = ActionMessage::default();
    let json = serde_json::to_value(&action).expect("memory");
    assert_eq!(serde_json::from_value::<ActionMessage>(json).expect("a message"), action);
}
