//! What a visitor is shown: values with their rows, and what is beside them.
#![cfg(feature = "kinds")]

use conjareho::DecodeError;
use conjareho::kinds::visit::{Group, LeftOut, Mark, Names, Row, Section, Style, Unit, Value, Visit};
use conjareho::kinds::{ActionMessage, Handle, Message};
use std::net::Ipv4Addr;

/// What is shown.
#[derive(Clone, Copy, PartialEq, Debug)]
enum Seen<'b> {
    Value(Value<'b>),
    Open(Group),
    Close(Group),
    Mark(Mark<'b>),
}

/// All that is shown, with the names of the rows; but for the groups of this row, which are passed over.
#[derive(Default)]
struct Log<'b> {
    passes: &'static str,
    seen: Vec<(&'static str, Seen<'b>)>,
    rows: Vec<&'static Row>,
}

impl<'b> Visit<'b> for Log<'b> {
    fn value(&mut self, row: &'static Row, value: Value<'b>) {
        self.seen.push((row.name, Seen::Value(value)));
        self.rows.push(row);
    }

    fn open(&mut self, row: &'static Row, group: Group) -> bool {
        self.rows.push(row);
        self.seen.push((row.name, Seen::Open(group)));
        row.name != self.passes
    }

    fn close(&mut self, group: Group) {
        self.seen.push(("", Seen::Close(group)));
    }

    fn mark(&mut self, mark: Mark<'b>) {
        self.seen.push(("", Seen::Mark(mark)));
    }
}

fn attribute(word: u16, payload: &[u8]) -> Vec<u8> {
    let len = u16::try_from(4 + payload.len()).expect("a short payload");
    let padding = vec![0; payload.len().wrapping_neg() % 4];
    [&len.to_le_bytes()[..], &word.to_le_bytes(), payload, &padding].concat()
}

/// A message about interface 2 with these attributes.
fn message(attributes: &[&[u8]]) -> Vec<u8> {
    let header = [0, 0, 0, 0, 2, 0, 0, 0, 0x10, 0, 1, 0, 0xff, 0xff, 0xff, 0xff, 1, 0, 0, 0];
    [&header[..], &attributes.concat()].concat()
}

/// What is shown of the attributes of a message.
fn shown<'b>(bytes: &'b [u8], passes: &'static str) -> Log<'b> {
    let mut log = Log { passes, ..Log::default() };
    Message::visit(bytes, &mut log).expect("a header");
    log
}

/// The row of a value or a group of this name.
fn row(log: &Log<'_>, name: &str) -> &'static Row {
    log.rows.iter().find(|row| row.name == name).copied().unwrap_or_else(|| panic!("no {name}"))
}

#[test]
fn a_message_is_shown_from_its_header_on() {
    let bytes = message(&[&attribute(1, b"fq_codel\0"), &attribute(2, &attribute(1, &5000u32.to_le_bytes()))]);
    let log = shown(&bytes, "");
    let want = [
        ("message", Seen::Open(Group::Record)),
        ("header", Seen::Open(Group::Record)),
        ("family", Seen::Value(Value::Unsigned(0))),
        ("index", Seen::Value(Value::Signed(2))),
        ("handle", Seen::Value(Value::Handle(Handle::new(1, 0x10)))),
        ("parent", Seen::Value(Value::Handle(Handle::ROOT))),
        ("info", Seen::Value(Value::Unsigned(1))),
        ("", Seen::Close(Group::Record)),
        ("attributes", Seen::Open(Group::List)),
        ("Kind", Seen::Value(Value::Text("fq_codel"))),
        ("Options", Seen::Open(Group::List)),
        ("Target", Seen::Value(Value::Unsigned(5000))),
        ("", Seen::Close(Group::List)),
        ("", Seen::Close(Group::List)),
        ("", Seen::Close(Group::Record)),
    ];
    assert_eq!(log.seen, want);
    assert_eq!(row(&log, "Options").layer, "FqCodel");
}

#[test]
fn a_row_has_what_the_tables_say() {
    let flower = attribute(2, &[attribute(10, &[10, 8, 0, 0]), attribute(11, &[255, 255, 0, 0])].concat());
    let bytes = message(&[&attribute(1, b"flower\0"), &flower]);
    let log = shown(&bytes, "");
    let (address, mask) = (row(&log, "Ipv4Src"), row(&log, "Ipv4SrcMask"));
    assert_eq!((address.kernel, address.word), ("TCA_FLOWER_KEY_IPV4_SRC", "src_ip"));
    assert_eq!((address.style, address.with, address.section()), (Style::Mask, "Ipv4SrcMask", Section::Words));
    assert_eq!((address.left_out, mask.left_out), (LeftOut::Never, LeftOut::Equal(32)));
    assert!(log.seen.contains(&("Ipv4Src", Seen::Value(Value::Ipv4(Ipv4Addr::new(10, 8, 0, 0))))));

    let codel = attribute(2, &attribute(1, &5000u32.to_le_bytes()));
    let bytes = message(&[&attribute(1, b"codel\0"), &codel]);
    let log = shown(&bytes, "");
    let target = row(&log, "Target");
    assert_eq!((target.word, target.label, target.unit), ("target", "target", Unit::Microseconds));
    assert_eq!((row(&log, "index").unit, row(&log, "Options").style), (Unit::Interface, Style::Flat));
    assert!(
        matches!(row(&log, "family").names, Names::Enum(names) if names.iter().any(|it| it.name == "Inet" && it.number == 2))
    );
}

#[test]
fn a_rate_of_64_bits_replaces_that_of_a_record() {
    let parms = attribute(1, &[0; 44]);
    let bytes = message(&[&attribute(1, b"htb\0"), &attribute(2, &[parms, attribute(6, &[1; 8])].concat())]);
    let log = shown(&bytes, "");
    assert_eq!((row(&log, "ceil").style, row(&log, "ceil").with), (Style::Rate, "Ceil64"));
    assert_eq!((row(&log, "buffer").style, row(&log, "buffer").with), (Style::Burst, "rate"));
    assert_eq!((row(&log, "Rate64").left_out, row(&log, "Rate64").unit), (LeftOut::Always, Unit::BytesPerSecond));
    assert_eq!((row(&log, "level").section(), row(&log, "level").left_out), (Section::Statistics, LeftOut::Equal(0)));
    assert_eq!(
        (row(&log, "overhead").left_out, row(&log, "overhead").left_out_with_statistics),
        (LeftOut::Equal(0), LeftOut::Never)
    );
}

#[test]
fn what_is_not_of_its_form_is_raw_at_its_level_and_the_rest_is_marked() {
    let short = attribute(1, &[7, 0]); // `TCA_CODEL_TARGET`, of four bytes
    let unknown = attribute(99, &[1, 2]);
    let flagged = attribute(0x8002, &[0; 4]);
    let padded = [9, 0, 16, 0, 0, 0, 0, 0, 1, 6, 6, 6]; // `TCA_EXT_WARN_MSG` without a NUL, padding of sixes
    let options = attribute(2, &[short, unknown, flagged, vec![1, 0]].concat());
    let bytes = message(&[&attribute(1, b"codel"), &options, &padded]);
    let log = shown(&bytes, "header");
    let after = log.seen.iter().skip_while(|(name, _)| *name != "Kind").copied().collect::<Vec<_>>();
    let want = [
        ("Kind", Seen::Value(Value::Text("codel"))),
        ("", Seen::Mark(Mark::Bare)),
        ("Options", Seen::Open(Group::List)),
        ("Target", Seen::Value(Value::Raw(&[7, 0]))),
        ("Other", Seen::Value(Value::Unknown(99, &[1, 2]))),
        ("Limit", Seen::Value(Value::Unsigned(0))),
        ("", Seen::Mark(Mark::Word(0x8002))),
        ("", Seen::Mark(Mark::Rest(&[1, 0]))),
        ("", Seen::Close(Group::List)),
        ("ExtWarnMsg", Seen::Value(Value::Raw(&[0, 0, 0, 0, 1]))),
        ("", Seen::Mark(Mark::Padding(&[6, 6, 6]))),
        ("", Seen::Close(Group::List)),
        ("", Seen::Close(Group::Record)),
    ];
    assert_eq!(after, want);
    // A group that isn't opened isn't closed, and nothing in it is shown.
    assert!(log.seen.iter().all(|(name, _)| *name != "index"));
}

#[test]
fn an_array_has_the_elements_that_are_there() {
    let weights = attribute(17, &[1, 0, 0, 0, 0xff, 0xff, 0xff, 0xff, 9]); // `TCA_FQ_WEIGHTS`, of three
    let bytes = message(&[&attribute(1, b"fq\0"), &attribute(2, &weights)]);
    let log = shown(&bytes, "header");
    let found: Vec<_> = log.seen.iter().skip_while(|(name, _)| *name != "Weights").take(5).map(|(_, it)| *it).collect();
    let group = Group::Array;
    let values = [Value::Signed(1), Value::Signed(-1)].map(Seen::Value);
    assert_eq!(found, [Seen::Open(group), values[0], values[1], Seen::Mark(Mark::Rest(&[9])), Seen::Close(group)]);
}

#[test]
fn elements_have_their_number() {
    let action = attribute(1, &[attribute(1, b"gact\0"), attribute(3, &[4, 0, 0, 0])].concat());
    let bytes = [vec![0; 4], attribute(1, &action)].concat();
    let mut log = Log::default();
    ActionMessage::visit(&bytes, &mut log).expect("a header");
    let opened: Vec<_> = log.seen.iter().filter(|(_, it)| matches!(it, Seen::Open(_))).collect();
    assert!(opened.contains(&&("Actions", Seen::Open(Group::Indexed))));
    assert!(opened.contains(&&("Actions", Seen::Open(Group::Element(1)))));
    assert!(log.seen.contains(&("Index", Seen::Value(Value::Unsigned(4)))));
    assert_eq!(row(&log, "Actions").section(), Section::Actions);
}

#[test]
fn fewer_bytes_than_a_header_are_refused() {
    let short = DecodeError::BufferTooSmall { len: 19, needed: 20 };
    assert_eq!(Message::visit(&[0; 19], &mut Log::default()), Err(short));
    assert_eq!(ActionMessage::visit(&[0; 4], &mut Log::default()), Ok(()));
}
