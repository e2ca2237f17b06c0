//! Builders of options that were read: of requests of iproute2, and of answers of Linux.
#![cfg(feature = "kinds")]

use conjareho::kinds::action::TcAct;
use conjareho::kinds::actions::police::{Police, PoliceAttr};
use conjareho::kinds::qdiscs::fq_codel::FqCodelAttr;
use conjareho::kinds::qdiscs::htb::{HtbAttr, HtbGlob, HtbOpt};
use conjareho::kinds::qdiscs::tbf::{TbfAttr, TbfQopt};
use conjareho::kinds::shared::{Ratespec, TcLinklayer};
use conjareho::kinds::{
    ActionMessage, ActionOptions, Attrs, Htb, HtbClass, Message, Nla, Options, OptionsError, PoliceAction, Rate, Sizes,
    Tbf, Ticks,
};
use std::fmt::Debug;

/// The stored messages: a label, `tc` or `action`, and the bytes in hex.
fn labelled() -> String {
    let path = std::path::Path::new(env!("CARGO_MANIFEST_DIR")).join("../../model/labelled");
    std::fs::read_to_string(path).expect("the stored messages")
}

fn octets(hex: &str) -> Vec<u8> {
    (0..hex.len()).step_by(2).map(|at| u8::from_str_radix(&hex[at..at + 2], 16).expect("hex")).collect()
}

/// The options and the actions' options of a message, if they have builders.
fn options_in(bytes: &[u8], is_action: bool) -> (Option<Options>, Vec<ActionOptions>) {
    let (options, actions) = if is_action {
        (None, ActionMessage::parse(bytes).expect("a header").actions().cloned())
    } else {
        let message = Message::parse(bytes).expect("a header");
        (message.options().cloned(), message.actions().cloned())
    };
    let police = actions.into_iter().flatten().filter_map(|(_, action)| action.options().cloned());
    (
        options.filter(|it| matches!(it, Options::Htb(_) | Options::Tbf(_))),
        police.filter(|it| matches!(it, ActionOptions::Police(_))).collect(),
    )
}

/// The options that their builder makes of them, after they were read twice.
fn again<O: Debug + PartialEq, B>(options: &O) -> Result<O, OptionsError>
where
    B: for<'a> TryFrom<&'a O, Error = OptionsError> + Into<O> + Copy + PartialEq + Debug,
{
    let built = B::try_from(options)?;
    let made: O = built.into();
    assert_eq!(B::try_from(&made), Ok(built));
    Ok(made)
}

fn any_again(options: &Options) -> Result<Options, OptionsError> {
    match options {
        Options::Htb(list) if list.parms().is_some() => again::<_, HtbClass>(options),
        Options::Htb(_) => again::<_, Htb>(options),
        _ => again::<_, Tbf>(options),
    }
}

#[test]
fn requests_of_iproute2_are_made_again() {
    let mut made = 0;
    let mut compare = |bytes: &[u8], is_action: bool, name: &str| {
        let (options, actions) = options_in(bytes, is_action);
        if let Some(options) = options {
            assert_eq!(any_again(&options).as_ref(), Ok(&options), "{name}");
            made += 1;
        }
        for options in actions {
            assert_eq!(again::<_, PoliceAction>(&options).as_ref(), Ok(&options), "{name}");
            made += 1;
        }
    };
    let lines: Vec<&str> = include_str!("iproute2.txt").lines().skip(1).collect();
    for pair in lines.chunks(2) {
        let bytes = octets(pair[1]);
        compare(&bytes[16..], (48..=50).contains(&bytes[4]), pair[0]);
    }
    let stored = labelled();
    let sent = stored.lines().filter(|line| line.contains(".send."));
    for words in sent.map(|line| line.split(' ').collect::<Vec<_>>()) {
        compare(&octets(words[2]), words[1] == "action", words[0]);
    }
    assert!(made >= 25, "{made} options");
}

#[test]
fn answers_of_linux_have_builders() {
    let is_answer = |line: &&str| line.contains(".answer.") || line.contains(".note.");
    let stored = labelled();
    let (mut made, mut refused) = (0, Vec::new());
    for words in stored.lines().filter(is_answer).map(|line| line.split(' ').collect::<Vec<_>>()) {
        let (options, actions) = options_in(&octets(words[2]), words[1] == "action");
        let results = options
            .iter()
            .map(|it| any_again(it).map(drop))
            .chain(actions.iter().map(|it| again::<_, PoliceAction>(it).map(drop)));
        for result in results {
            match result {
                Ok(()) => made += 1,
                Err(why) => refused.push((words[0].to_string(), why.to_string())),
            }
        }
    }
    assert!(made >= 10, "{made} options, refused: {refused:?}");
    assert_eq!(refused, []);
}

/// The record of a rate as the kernel reports it, without what describes a rate table.
fn reported(spec: &Ratespec) -> Ratespec {
    Ratespec { cell_log: 0, cell_align: 0, ..spec.clone() }
}

/// A class as the kernel reports it.
fn answer(class: HtbClass) -> Options {
    let Options::Htb(mut list) = class.into() else { panic!("no htb") };
    list.retain(|it| !matches!(it, HtbAttr::Rtab(_) | HtbAttr::Ctab(_)));
    let parms = list.parms().expect("parameters");
    let parms = HtbOpt { rate: reported(&parms.rate), ceil: reported(&parms.ceil), level: 7, ..parms.clone() };
    list.set(HtbAttr::Parms(parms));
    Options::Htb(list.with_offload(()))
}

fn rate(text: &str) -> Rate {
    text.parse().expect("a rate")
}

#[test]
fn a_class_is_read_changed_and_sent() {
    let plain = HtbClass { ceil: rate("100mbit"), ..HtbClass::new(rate("60mbit")) };
    let sizes = Sizes { overhead: 24, mpu: 84, linklayer: TcLinklayer::Atm, ..Sizes::default() };
    let wide = HtbClass { ceil: rate("50gbit"), prio: 3, quantum: 9000, sizes, ..HtbClass::new(rate("40gbit")) };
    // A microsecond is a byte at 8 Mbit/s.
    let bursts = HtbClass { burst: 15 << 10, cburst: 20 << 10, ..HtbClass::new(rate("8mbit")) };
    for class in [plain, wide, bursts, HtbClass::new(rate("1kbit")), HtbClass::new(Rate(u64::MAX))] {
        assert_eq!(HtbClass::try_from(&answer(class)), Ok(class));
    }
    let mut class = HtbClass::try_from(&answer(plain)).expect("a class");
    class.ceil = rate("80mbit");
    assert_eq!(Options::from(class), HtbClass { ceil: rate("80mbit"), ..plain }.into());
}

#[test]
fn a_burst_takes_the_same_time_or_a_little_longer() {
    let class = HtbClass { ceil: rate("1gbit"), ..HtbClass::new(rate("50mbit")) };
    for burst in [1, 2, 99, 1599, 1601, 15 << 10, 1 << 20, 1 << 30] {
        let options = answer(HtbClass { burst, cburst: burst, ..class });
        let read = HtbClass::try_from(&options).expect("a class");
        assert_eq!(answer(read), options, "{burst}");
        assert!(read.burst.max(1) <= burst && (read.burst == 0 || burst - read.burst < 7), "{burst} {read:?}");
    }
    let Options::Htb(mut list) = answer(class) else { panic!("no htb") };
    for time in (1..3000).chain([u32::MAX / 64]) {
        let parms = HtbOpt { buffer: Ticks(time), ..list.parms().expect("parameters").clone() };
        list.set(HtbAttr::Parms(parms));
        let read = HtbClass::try_from(&Options::Htb(list.clone())).expect("a class");
        let Options::Htb(again) = answer(read) else { panic!("no htb") };
        // A microsecond has 15.625 ticks.
        let longer = again.parms().expect("parameters").buffer.0 - time;
        assert!(longer < 16, "{longer} ticks longer than {time}");
    }
}

/// A qdisc tbf as the kernel reports it, which has times for bytes.
fn tbf_answer(tbf: Tbf, burst: u32, mtu: u32) -> Options {
    let Options::Tbf(mut list) = tbf.into() else { panic!("no tbf") };
    list.retain(|it| matches!(it, TbfAttr::Parms(_) | TbfAttr::Rate64(_) | TbfAttr::Prate64(_)));
    let parms = list.parms().expect("parameters").clone();
    let (rate, peakrate) = (reported(&parms.rate), reported(&parms.peakrate));
    list.set(TbfAttr::Parms(TbfQopt { rate, peakrate, limit: parms.limit, buffer: Ticks(burst), mtu: Ticks(mtu) }));
    Options::Tbf(list)
}

#[test]
fn a_tbf_is_read_as_the_kernel_reports_it() {
    let tbf = |rate: &str, burst: u32, sizes: Sizes| Tbf { sizes, ..Tbf::new(self::rate(rate), burst, 10_000) };
    let with = |overhead, linklayer| Sizes { overhead, linklayer, ..Sizes::default() };
    // 800 ns a byte, 64 ns a tick. On ATM 86 cells of 53 bytes have 48 bytes each, of which 20 are overhead.
    for (sizes, burst, ticks) in [
        (Sizes::default(), 4096, 4096 * 800 / 64),
        (with(24, TcLinklayer::Ethernet), 4096, (4096 + 24) * 800 / 64),
        (with(20, TcLinklayer::Atm), 85 * 48 + 1 - 20, 86 * 53 * 800 / 64),
    ] {
        let tbf = tbf("10mbit", burst, sizes);
        assert_eq!(Tbf::try_from(&tbf_answer(tbf, ticks, 0)), Ok(tbf));
    }
    // Linux 6.1 reports 1500 bytes at 10 kbit/s so.
    let slow = tbf("10kbit", 1500, Sizes::default());
    assert_eq!(Tbf::try_from(&tbf_answer(slow, 18_750_000, 0)), Ok(slow));
    let sizes = Sizes { mtu: 1540, ..Sizes::default() };
    let peak = Tbf { peakrate: Some(rate("2mbit")), ..tbf("1mbit", 5120, sizes) };
    assert_eq!(Tbf::try_from(&tbf_answer(peak, 5120 * 8000 / 64, 1540 * 4000 / 64)), Ok(peak));
    // At 40 Gbit/s a tick has 320 bytes.
    let wide = tbf("40gbit", 10 << 20, Sizes::default());
    let read = Tbf::try_from(&tbf_answer(wide, 32767, 0)).expect("a tbf");
    assert!((10 << 20) - read.burst <= 320, "{read:?}");
    assert_eq!(Tbf { burst: wide.burst, ..read }, wide);
}

#[test]
fn an_action_is_read_as_the_kernel_reports_it() {
    let packets = PoliceAction { packets: Some((1000, 200)), exceed: TcAct::Shot, ..PoliceAction::default() };
    let limit = PoliceAction { rate: Some((rate("8mbit"), 10 << 10)), conform: Some(TcAct::Pipe), ..packets };
    let both = PoliceAction { peakrate: Some(rate("16mbit")), avrate: Some(7), index: 5, ..limit };
    for action in [packets, limit, both] {
        // The kernel reports the MTU that it takes for 0: the largest of the table, or any.
        let mtu = if action.rate.is_some() { 2040 } else { u32::MAX };
        let action = PoliceAction { sizes: Sizes { mtu, ..Sizes::default() }, ..action };
        let ActionOptions::Police(mut list) = action.into() else { panic!("no police") };
        list.retain(|it| !matches!(it, PoliceAttr::Rate(_) | PoliceAttr::Peakrate(_)));
        let tbf = list.tbf().expect("parameters");
        let (rate, peakrate) = (reported(&tbf.rate), reported(&tbf.peakrate));
        list.set(PoliceAttr::Tbf(Police { rate, peakrate, refcnt: 1, bindcnt: 1, ..tbf.clone() }));
        let options = ActionOptions::Police(list.with_tm(Default::default()));
        assert_eq!(PoliceAction::try_from(&options), Ok(action));
    }
}

#[test]
fn what_has_no_field_is_an_error() {
    let class = |options: Options| HtbClass::try_from(&options).expect_err("an error");
    let htb = |list: Attrs<HtbAttr>| class(Options::Htb(list));
    let list = || if let Options::Htb(list) = HtbClass::new(Rate(125_000)).into() { list } else { panic!("no htb") };
    let said = |why: OptionsError, text: &str| assert_eq!(why.to_string(), text);
    said(class(FqCodelAttr::list().into()), "options of fq_codel, not of htb");
    said(class(Options::default()), "options without a table, not of htb");
    said(class(Htb::new(1).into()), "HtbAttr::Parms is missing");
    said(htb(list().with_rate64(1).with_rate64(1)), "HtbAttr::Rate64 is there more than once");
    said(htb(list().with_direct_qlen(1)), "no field for HtbAttr::DirectQlen");
    let mut unknown = list();
    unknown.push(HtbAttr::Other(Nla { word: 0x8000 | 99, value: vec![1].into() }));
    said(htb(unknown), "no field for an attribute of type 99");
    let parms = list().parms().expect("parameters").clone();
    let differs = HtbOpt { ceil: Ratespec { overhead: 24, ..parms.ceil.clone() }, ..parms.clone() };
    let mut changed = list();
    changed.set(HtbAttr::Parms(differs));
    said(htb(changed), "HtbOpt::rate and HtbOpt::ceil count the size of a packet differently");
    let mut long = list().with_rate64(u64::MAX);
    long.set(HtbAttr::Parms(HtbOpt { buffer: Ticks(u32::MAX), ..parms }));
    said(htb(long), "HtbOpt::buffer is too long");
    let init = HtbGlob { debug: 1, ..HtbGlob::default() };
    said(
        Htb::try_from(&Options::Htb(HtbAttr::list().with_init(init))).expect_err("an error"),
        "no field for HtbGlob::debug",
    );
}

#[test]
fn a_list_with_a_broken_end_is_settled_first() {
    let mut bytes = Message::on(2).of(HtbClass::new(Rate(125_000))).to_bytes().expect("it fits");
    // The length of the options, which begin after the header and the kind, with two bytes more.
    let len = u16::from_le_bytes([bytes[28], bytes[29]]) + 2;
    bytes[28..30].copy_from_slice(&len.to_le_bytes());
    bytes.extend([9, 9]);
    let mut message = Message::parse(&bytes).expect("a header");
    assert_eq!(message.options().map(HtbClass::try_from), Some(Err(OptionsError::NotSettled)));
    let Some(Options::Htb(list)) = message.options_mut() else { panic!("no htb") };
    assert_eq!(list.remainder(), [9, 9]);
    list.settle();
    assert!(list.remainder().is_empty());
    assert_eq!(message.options().map(HtbClass::try_from), Some(Ok(HtbClass::new(Rate(125_000)))));
}
