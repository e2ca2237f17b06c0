//! Lines for people.

use crate::user::prelude::*;

use crate::read::select::Filter;
use crate::show::outline::Interfaces;
use crate::show::program::options::{OutputFormat, TimeFormat, TimeZone};
use crate::tests::data::{Format, file_of};
use crate::tests::shown::show::runs::{Written, all_in, chosen_in, counted_in, gives, shown, writes};
use crate::user::Fail;

// In hex: a qdisc of fq_codel with a limit of 10240 packets, and of three bytes; a list of actions with an index of 5.
static TEXT: &str =
    "40000000 2400 0006 05000000 00000000 000000000200000000000100ffffffff00000000 0d00010066715f636f64656c00000000 0c0002000800020000280000
40000000 2400 0006 05000000 00000000 000000000200000000000100ffffffff00000000 0d00010066715f636f64656c00000000 0c0002000700020000280000
14000000 0300 0200 05000000 00000000 00000000
30000000 3000 0000 07000000 00000000 00000000 1c000100 18000100 0b0001006d69727265640000 08000300 05000000
";

static LINES: &str = r"new qdisc fq_codel 1: dev eth0 root limit 10240p
new qdisc fq_codel 1: dev eth0 root limit {raw=002800} malformed: 3 bytes, 4 expected, at Options/FqCodel/Limit (byte 44)
new action mirred - index 5
";

#[test]
fn lines_are_known() {
    let mut options = all_in(OutputFormat::Lines(false));
    options.names = Interfaces { names: &[(2, "eth0")] };
    assert!(writes(&options, TEXT, 1, LINES));
    let filter = Filter { refused: true, ..Filter::ALL };
    let options = chosen_in(OutputFormat::Lines(true), filter);
    assert!(gives(
        &options,
        TEXT.as_bytes(),
        1,
        Written::Begins("new qdisc fq_codel 1: dev 2 root refcnt 0 limit {raw"),
        ""
    ));
    let options = counted_in(OutputFormat::Lines(false));
    assert!(gives(&options, TEXT.as_bytes(), 1, Written::Has("\nsummary\n"), ""));
}

// nlmsg_type, nlmsg_flags and nlmsg_pid of messages with sequence number 5, and the verb and the sender of each.
#[derive(Clone, Copy)]
struct Said {
    kind: u16,
    flags: u16,
    port: u16,
    verb: &'static str,
    sender: &'static str,
}

fn row(kind: u16, flags: u16, port: u16, verb: &'static str, sender: &'static str) -> Said {
    Said { kind, flags, port, verb, sender }
}

// Commands of iproute2 with the flags that `strace tc` shows, then messages of the kernel.
fn alone() -> [Said; 22] {
    [
        row(36, 0x605, 0, "add", ""),
        row(36, 0x505, 0, "replace", ""),
        row(36, 5, 0, "change", ""),
        row(36, 0x105, 0, "send flags 0x105", ""),
        row(36, 0x405, 0, "send flags 0x405", ""),
        row(37, 5, 0, "del", ""),
        row(38, 1, 0, "get", ""),
        row(38, 0x301, 0, "dump", ""),
        row(40, 0x605, 0, "add", ""),
        row(40, 0x405, 0, "replace", ""),
        row(40, 5, 0, "change", ""),
        row(44, 0x60d, 0, "add", ""),
        row(44, 0x405, 0, "replace", ""),
        row(45, 5, 0, "del", ""),
        row(36, 2, 0, "is", ""),
        row(38, 2, 77, "is", ""),
        row(36, 0, 77, "new", " by 77"),
        row(36, 0x600, 0, "new", ""),
        row(37, 0, 77, "gone", " by 77"),
        row(44, 0x605, 77, "new", " by 77"),
        row(45, 5, 77, "gone", " by 77"),
        row(46, 2, 77, "is", ""),
    ]
}

// A netlink message with the header of a message about interface 2, a handle of 1: and the root.
fn message_of(said: &Said) -> Result<Vec<u8>, AllocError> {
    let [a, b] = said.kind.to_le_bytes();
    let [c, d] = said.flags.to_le_bytes();
    let [e, f] = said.port.to_le_bytes();
    let mut bytes = [36, 0, 0, 0, a, b, c, d, 5, 0, 0, 0, e, f, 0, 0].try_to_vec()?;
    bytes.try_extend(&[0, 0, 0, 0, 2, 0, 0, 0, 0, 0, 1, 0, 255, 255, 255, 255, 0, 0, 0, 0])?;
    Ok(bytes)
}

fn object_of(kind: u16) -> &'static str {
    match kind {
        36..=38 => "qdisc - 1: dev 2 root",
        40..=42 => "class - 1: dev 2 root",
        _ => "filter - 0x10000 dev 2 root",
    }
}

// True if the messages of an input have these verbs and senders, after this time.
fn are_said(input: &[u8], time: &str, all: &[Said]) -> Result<bool, Fail> {
    let mut lines = String::new();
    for one in all {
        let line = crate::user::formatted(format_args!("{time}{} {}{}\n", one.verb, object_of(one.kind), one.sender))?;
        lines.try_push_str(line.as_str())?;
    }
    let run = shown(&all_in(OutputFormat::Lines(false)), input);
    Ok(run.written.as_slice() == lines.as_bytes())
}

// A file with these messages.
fn file_with(format: Format, all: &[Said]) -> Result<Vec<u8>, Fail> {
    let mut messages = Vec::new();
    for one in all {
        messages.try_push(message_of(one)?)?;
    }
    Ok(file_of(format, false, &messages)?)
}

// A request with a port id, the kernel's copy of it, a get, its answer, and a request of the same number by another.
fn in_packets() -> [Said; 6] {
    [
        row(44, 0x605, 77, "add", ""),
        row(44, 0x605, 77, "new", " by 77"),
        row(46, 5, 0, "get", ""),
        row(44, 5, 78, "is", ""),
        row(36, 0x605, 78, "add", ""),
        row(36, 0x605, 79, "add", ""),
    ]
}

// RTM_NEWLINK: interface 9 is eth9.
const LINK: &str = "2c00000010000200050000004d00000000000000090000000000000000000000090003006574683900000000";

// The time of each packet.
const TIME: &str = "22:13:20.123456 ";

#[test]
fn verbs_are_known() -> Result<(), Fail> {
    for one in &alone() {
        let message = message_of(one)?;
        assert!(are_said(&message, "", &[*one])?, "{} {}", one.kind, one.flags);
    }
    let packets = in_packets();
    let capture = file_with(Format::Microseconds, &packets)?;
    assert!(are_said(&capture, TIME, &packets)?);
    // all in a file of rtmon is the kernel's
    let noted = [row(36, 0x605, 0, "new", ""), row(38, 0x301, 77, "is", "")];
    let file = file_with(Format::Stream, &noted)?;
    assert!(are_said(&file, TIME, &noted)?);
    // so is all in a stream that begins with links
    let mut stream = crate::hex::decode(LINK)?;
    for one in &noted {
        stream.try_extend(&message_of(one)?)?;
    }
    assert!(are_said(&stream, "", &noted)?);
    Ok(())
}

// Of a pcap, the file header, and a packet with a qdisc of fq_codel.
static FILE_HEADER: [u8; 24] = *b"\xd4\xc3\xb2\xa1\x02\0\x04\0\0\0\0\0\0\0\0\0\0\0\x10\0\xfd\0\0\0";

// The same of one whose times are seconds and nanoseconds.
static FINE_HEADER: [u8; 24] = *b"\x4d\x3c\xb2\xa1\x02\0\x04\0\0\0\0\0\0\0\0\0\0\0\x10\0\xfd\0\0\0";

static PACKET: &str = "0004033800000000000000000000000034000000240000060500000000000000000000000200000000000100ffffffff000000000d00010066715f636f64656c00000000";

// A pcap of such packets at these times: seconds, and micro- or nanoseconds.
fn capture_at(header: &[u8], times: &[(u32, u32)]) -> Result<Vec<u8>, Fail> {
    let packet = crate::hex::decode(PACKET)?;
    let mut file = header.try_to_vec()?;
    for (seconds, parts) in times {
        file.try_extend(&seconds.to_le_bytes())?;
        file.try_extend(&parts.to_le_bytes())?;
        file.try_extend(&[68, 0, 0, 0, 68, 0, 0, 0])?;
        file.try_extend(&packet)?;
    }
    Ok(file)
}

// True if the lines of packets at these times begin so.
fn begin_so(format: TimeFormat<'_>, times: &[(u32, u32)], fronts: &[&str]) -> Result<bool, Fail> {
    are_begun(format, &FILE_HEADER, times, fronts)
}

// The same in a file with this header.
fn are_begun(format: TimeFormat<'_>, header: &[u8], times: &[(u32, u32)], fronts: &[&str]) -> Result<bool, Fail> {
    let file = capture_at(header, times)?;
    let mut options = chosen_in(OutputFormat::Lines(false), Filter::ALL);
    options.time = format;
    Ok(gives(&options, &file, 0, Written::BeginsWithLines(fronts), ""))
}

// Three packets, the last of which is the earliest.
static TIMES: [(u32, u32); 3] = [(1_700_000_000, 123_456), (1_700_000_001, 0), (1_699_999_999, 500_000)];

// What `date -u` of coreutils prints of seconds.
static DATES: [(u32, &str); 8] = [
    (0, "1970-01-01T00:00:00"),
    (946_684_799, "1999-12-31T23:59:59"),
    (951_782_400, "2000-02-29T00:00:00"),
    (1_700_000_000, "2023-11-14T22:13:20"),
    (1_709_164_800, "2024-02-29T00:00:00"),
    (1_735_689_599, "2024-12-31T23:59:59"),
    (4_102_444_799, "2099-12-31T23:59:59"),
    (4_107_542_400, "2100-03-01T00:00:00"),
];

#[test]
fn times_are_known() -> Result<(), Fail> {
    let clocks = ["22:13:20.123456 new ", "22:13:21.000000 ", "22:13:19.500000 "];
    assert!(begin_so(TimeFormat::Clock, &TIMES, &clocks)?);
    let seconds = ["1700000000.123456 new ", "1700000001.000000 ", "1699999999.500000 "];
    assert!(begin_so(TimeFormat::Epoch, &TIMES, &seconds)?);
    let deltas = ["0.000000 new ", "0.876544 new ", "-1.500000 new "];
    assert!(begin_so(TimeFormat::Delta, &TIMES, &deltas)?);
    let relatives = ["0.000000 new ", "0.876544 new ", "-0.623456 new "];
    assert!(begin_so(TimeFormat::Relative, &TIMES, &relatives)?);
    // nine digits from the first time on that isn't whole microseconds
    let fine = [(1_700_000_000, 123_456_789), (1_700_000_001, 500_000_000)];
    let clocks = ["22:13:20.123456789 new ", "22:13:21.500000000 "];
    assert!(are_begun(TimeFormat::Clock, &FINE_HEADER, &fine, &clocks)?);
    let deltas = ["0.000000000 new ", "1.376543211 "];
    assert!(are_begun(TimeFormat::Delta, &FINE_HEADER, &fine, &deltas)?);
    for (seconds, date) in &DATES {
        let line = crate::user::formatted(format_args!("{date}.000000Z new qdisc fq_codel 1: dev 2 root"))?;
        assert!(begin_so(TimeFormat::Date, &[(*seconds, 0)], &[line.as_str()])?, "{date}");
    }
    Ok(())
}

// What `TZ=RULE date -d @SECONDS +%T` of coreutils prints, before and after each change of a year, and before 1970 begins in a zone.
static LOCAL_TIMES: [(&str, u32, &str); 8] = [
    ("CET-1CEST,M3.5.0,M10.5.0/3", 1_679_792_399, "01:59:59"),
    ("CET-1CEST,M3.5.0,M10.5.0/3", 1_679_792_400, "03:00:00"),
    ("CET-1CEST,M3.5.0,M10.5.0/3", 1_698_541_199, "02:59:59"),
    ("CET-1CEST,M3.5.0,M10.5.0/3", 1_698_541_200, "02:00:00"),
    ("EST5EDT,M3.2.0,M11.1.0", 0, "19:00:00"),
    ("EST5EDT,M3.2.0,M11.1.0", 1_679_792_400, "21:00:00"),
    ("EST5EDT,M3.2.0,M11.1.0", 1_700_000_000, "17:13:20"),
    ("NPT-5:45", 4_102_444_799, "05:44:59"),
];

