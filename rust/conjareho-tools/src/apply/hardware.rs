//! Filters that a network card had taken over, and hasn't now.

use ::serde_json::Value;

/// `TCA_CLS_FLAGS_SKIP_SW` and `TCA_CLS_FLAGS_IN_HW` of `linux/pkt_cls.h`.
const SKIP_SW: u64 = 2;
const IN_HW: u64 = 4;

/// What is said if fewer filters are in hardware than were when they were saved.
pub(crate) fn lost(then: usize, now: usize) -> Option<String> {
    if now < then { Some(format!("{} of {then} filters that were in hardware aren't", then - now)) } else { None }
}

/// How many filters of lines of JSON are in hardware.
pub(crate) fn count<'a>(lines: impl Iterator<Item = &'a str>) -> usize {
    count_with(IN_HW, lines)
}

/// How many filters of lines of JSON are for hardware alone. Some kinds (u32) are made with that flag where there is none.
pub(crate) fn count_alone<'a>(lines: impl Iterator<Item = &'a str>) -> usize {
    count_with(SKIP_SW, lines)
}

fn count_with<'a>(flag: u64, lines: impl Iterator<Item = &'a str>) -> usize {
    let values = lines.filter(|line| line.contains("\"RTM_NEWTFILTER\""));
    values.filter_map(|line| ::serde_json::from_str(line).ok()).filter(|line| has_flag(flag, line)).count()
}

fn has_flag(flag: u64, line: &Value) -> bool {
    let attributes = line["message"]["attributes"].as_array().into_iter().flatten();
    let options = attributes.filter_map(|it| it["Options"].as_array()).flatten().filter_map(Value::as_object);
    let flags =
        options.flat_map(|option| option.values()).filter_map(|it| it.get("Flags").or_else(|| it.get("FlagsGeneric")));
    flags.filter_map(Value::as_u64).any(|flags| flags & flag != 0)
}
