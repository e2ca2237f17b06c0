//! Known texts. The texts in parentheses, verdicts and handles are as `tc` 6.1 writes them (`tc -d monitor file`);
//! verdicts without a name in `tc` have their name in linux/pkt_cls.h.

use crate::user::prelude::*;

use crate::show::units::{
    Name, Unit, prefix_of, put_flags, put_named, put_number, put_signed, put_u32_handle, put_verdict,
};

// The function under test.
enum Put {
    Number(Unit),
    Verdict,
    Handle,
}

// The text of a number.
fn text_of(put: &Put, n: u64) -> Result<Vec<u8>, AllocError> {
    let mut out = Vec::new();
    match put {
        Put::Number(unit) => put_number(&mut out, *unit, n)?,
        Put::Verdict => put_verdict(&mut out, (n % 0x1_0000_0000) as u32)?,
        Put::Handle => put_u32_handle(&mut out, n)?,
    }
    Ok(out)
}

// True if a number has this text.
fn is_known(put: &Put, n: u64, text: &str) -> bool {
    match text_of(put, n) {
        Ok(out) => out.as_slice() == text.as_bytes(),
        Err(_) => false,
    }
}

static RATES: [(u64, &str); 18] = [
    (0, "0 B/s (0bit)"),
    (1, "1 B/s (8bit)"),
    (124, "124 B/s (992bit)"),
    (125, "125 B/s (1Kbit)"),
    (126, "126 B/s (1008bit)"),
    (1000, "1000 B/s (8Kbit)"),
    (12345, "12345 B/s (98760bit)"),
    (124_999, "124999 B/s (999992bit)"),
    (125_000, "125000 B/s (1Mbit)"),
    (125_001, "125001 B/s (1Mbit)"),
    (1_250_000, "1250000 B/s (10Mbit)"),
    (123_456_789, "123456789 B/s (987654Kbit)"),
    (125_000_000, "125000000 B/s (1Gbit)"),
    (0xffff_ffff, "4294967295 B/s (34359Mbit)"),
    (1_000_000_000, "1000000000 B/s (8Gbit)"),
    (12_500_000_000, "12500000000 B/s (100Gbit)"),
    (125_000_000_000, "125000000000 B/s (1Tbit)"),
    (1_250_000_000_000_000, "1250000000000000 B/s (10000Tbit)"),
];

static TICKS: [(u64, &str); 5] = [
    (15_625, "15625 ticks (1ms)"),
    (31_250, "31250 ticks (2ms)"),
    (156_250, "156250 ticks (10ms)"),
    (1_562_500, "1562500 ticks (100ms)"),
    (15_625_000, "15625000 ticks (1s)"),
];

static MICROSECONDS: [(u64, &str); 5] = [
    (999, "999us"),
    (4999, "4999us"),
    (5000, "5000us (5ms)"),
    (100_000, "100000us (100ms)"),
    (1_000_000, "1000000us (1s)"),
];

static PROBABILITIES: [(u64, &str); 7] = [
    (429_497, "429497 (0.01%)"),
    (4_294_967, "4294967 (0.1%)"),
    (6_442_451, "6442451 (0.15%)"),
    (42_949_673, "42949673 (1%)"),
    (64_424_509, "64424509 (1.5%)"),
    (0x8000_0000, "2147483648 (50%)"),
    (0xffff_ffff, "4294967295 (100%)"),
];

static VERDICTS: [(u64, &str); 15] = [
    (0xffff_ffff, "continue"),
    (0, "pass"),
    (1, "reclassify"),
    (2, "drop"),
    (3, "pipe"),
    (4, "stolen"),
    (5, "queued"),
    (6, "repeat"),
    (7, "redirect"),
    (8, "trap"),
    (9, "9"),
    (0x1000_0000, "jump 0"),
    (0x1000_000a, "jump 10"),
    (0x2000_002a, "goto chain 42"),
    (0x2fff_ffff, "goto chain 268435455"),
];

static HANDLES: [(u64, &str); 9] = [
    (0x8000_0800, "800::800"),
    (0x8008_0800, "800:80:800"),
    (0x8000_0000, "800:"),
    (0x8000_5000, "800:5"),
    (0x0010_0801, "1::801"),
    (0x0000_0801, ":801"),
    (0x7ff0_0abc, "7ff::abc"),
    (0x801f_f001, "801:ff:1"),
    (0x8000_0fff, "800::fff"),
];

#[test]
fn numbers_in_units() {
    for (n, text) in &RATES {
        assert!(is_known(&Put::Number(Unit::BytesPerSecond), *n, text), "{text}");
    }
    for (n, text) in &TICKS {
        assert!(is_known(&Put::Number(Unit::Ticks), *n, text), "{text}");
    }
    for (n, text) in &MICROSECONDS {
        assert!(is_known(&Put::Number(Unit::Microseconds), *n, text), "{text}");
    }
    for (n, text) in &PROBABILITIES {
        assert!(is_known(&Put::Number(Unit::Probability), *n, text), "{text}");
    }
    assert!(is_known(&Put::Number(Unit::Hex), 0xfedc_ba98_7654_3210, "0xfedcba9876543210"));
    assert!(is_known(&Put::Number(Unit::ClockTicks), 250, "250 clock_t (2500ms)"));
    assert!(is_known(&Put::Number(Unit::Power), 63, "63 (9223372036854775808)"));
}

#[rustfmt::skip]
static SIGNED: [(Unit, i64, &str); 16] = [
    (Unit::Plain, -17, "-17"),
    (Unit::Hex, -0x1f, "-31"),
    (Unit::Bytes, -1514, "-1514B"),
    (Unit::Bytes, 1514, "1514B"),
    (Unit::Packets, -3, "-3p"),
    (Unit::Nanoseconds, -999, "-999ns"),
    (Unit::Nanoseconds, -5000, "-5000ns (-5us)"),
    (Unit::Nanoseconds, i64::MIN, "-9223372036854775808ns"),
    (Unit::Microseconds, -100_000, "-100000us (-100ms)"),
    (Unit::Milliseconds, -1, "-1ms"),
    (Unit::Milliseconds, -2000, "-2000ms (-2s)"),
    (Unit::Seconds, -7, "-7s"),
    (Unit::Ticks, -15_625, "-15625 ticks (-1ms)"),
    (Unit::Ticks, 15_625, "15625 ticks (1ms)"),
    (Unit::Ticks, 0, "0 ticks (0s)"),
    (Unit::Probability, -1, "-1"),
];

// True if a signed number has this text.
fn is_signed(unit: Unit, n: i64, text: &str) -> bool {
    let mut out = Vec::new();
    put_signed(&mut out, unit, n).is_ok() && out.as_slice() == text.as_bytes()
}

#[test]
fn negative_numbers() {
    for (unit, n, text) in &SIGNED {
        assert!(is_signed(*unit, *n, text), "{text}");
    }
}

#[test]
fn verdicts_and_handles() {
    for (n, text) in &VERDICTS {
        assert!(is_known(&Put::Verdict, *n, text), "{text}");
    }
    for (n, text) in &HANDLES {
        assert!(is_known(&Put::Handle, *n, text), "{text}");
    }
}

// Flags of linux/pkt_cls.h.
static FLAGS: [Name<'static>; 4] = [
    Name { number: 1, name: "skip_hw", kernel: "" },
    Name { number: 2, name: "skip_sw", kernel: "" },
    Name { number: 4, name: "in_hw", kernel: "" },
    Name { number: 8, name: "not_in_hw", kernel: "" },
];

// True if a flag word has this text.
fn has_flags(n: u64, text: &str) -> bool {
    let mut out = Vec::new();
    match put_flags(&mut out, &FLAGS, n) {
        Ok(()) => out.as_slice() == text.as_bytes(),
        Err(_) => false,
    }
}

// True if a protocol has this text.
fn is_protocol(n: u64, text: &str) -> bool {
    let names = [Name { number: 0x0800, name: "ip", kernel: "" }];
    let mut out = Vec::new();
    match put_named(&mut out, Unit::LongHex, &names, n) {
        Ok(()) => out.as_slice() == text.as_bytes(),
        Err(_) => false,
    }
}

#[test]
fn flags_names_and_prefixes() {
    assert!(has_flags(9, " skip_hw not_in_hw (0x9)"));
    assert!(has_flags(0x108, " not_in_hw 0x100 (0x108)"));
    assert!(has_flags(0, " 0x0"));
    assert!(is_protocol(0x0800, "ip (0x0800)"));
    assert!(is_protocol(0x0801, "0x0801"));
    assert!(prefix_of(&[255, 255, 0, 0]) == Some(16));
    assert!(prefix_of(&[255, 255, 128, 0]) == Some(17));
    assert!(prefix_of(&[255, 0, 255, 0]) == None);
    assert!(prefix_of(&[255, 255, 255, 255]) == Some(32));
    assert!(prefix_of(&[0, 0, 0, 0]) == Some(0));
}
