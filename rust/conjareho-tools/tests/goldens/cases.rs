//! The cases: the files of each, and how the programs are run on them.

use crate::captures::{answered, broken, pcap, pcapng, rtmon, stream, xxd, xxd_plain};
use crate::modes::{ALONE, CAPTURES, EVERY, KINDS, STATES, STORED};
use crate::common::random::Random;
use crate::states;
use crate::common::stored::{HUNDRED, Messages, changed, data, hex, stored, too_long};

const CHANGED: usize = 12_000;
const PAIRS: usize = 200;
const NAMES: &str = "7 d7\n2: wan: <UP> mtu 1500 qdisc noop\n3: ids@if4: <UP> mtu 1500 qdisc noop\n";

/// Files, and the commands that read them.
pub struct Case {
    pub name: String,
    pub files: Vec<(&'static str, Vec<u8>)>,
    pub modes: String,
}

pub fn cases() -> Vec<Case> {
    let stored = stored();
    let mut out = hundreds("stored", &[&stored[..], &too_long()].concat(), &stored, &[EVERY, STORED].concat());
    out.extend((0..PAIRS).map(|number| pair(number, &stored)));
    out.extend(captures(&stored));
    out.extend(kinds(&stored));
    let text = b"This is no message.\n\x1b[31m{\"type\":\n".to_vec();
    out.push(Case { name: "alone".into(), files: vec![("empty", Vec::new()), ("text", text)], modes: ALONE.into() });
    let mut random = Random(1);
    let changed: Messages = (0..CHANGED).map(|_| changed(&stored, &mut random)).collect();
    out.extend(hundreds("changed", &changed, &stored, EVERY));
    out
}

fn hundreds(name: &str, messages: &[Vec<u8>], stored: &[Vec<u8>], modes: &str) -> Vec<Case> {
    let case = |(number, hundred): (usize, &[Vec<u8>])| {
        let mut random = Random(number as u64);
        let before: Messages = hundred.iter().map(|it| if random.one_in(3) { random.choose(stored).clone() } else { it.clone() }).collect();
        let bare: Messages = hundred.iter().map(|it| it[16..].to_vec()).collect();
        let files = vec![
            ("hex", hex(hundred)),
            ("before", hex(&before)),
            ("bare", hex(&bare)),
            ("capture", pcap(hundred, false, false)),
            ("answers", pcap(&answered(hundred), true, true)),
            ("names", NAMES.into()),
        ];
        Case { name: format!("{name}-{:05}", number * HUNDRED), files, modes: format!("before: tcshow --json before > before.json{modes}") }
    };
    messages.chunks(HUNDRED).enumerate().map(case).collect()
}

fn pair(number: usize, stored: &[Vec<u8>]) -> Case {
    let (now, wanted) = states::pair(stored, &mut Random(1000 + number as u64));
    Case { name: format!("states-{number:03}"), files: vec![("now", stream(&now)), ("wanted", stream(&wanted))], modes: STATES.into() }
}

fn captures(stored: &[Vec<u8>]) -> Vec<Case> {
    let mut random = Random(2);
    let mut out = Vec::new();
    let mut add = |name: String, capture: Vec<u8>| out.push(Case { name, files: vec![("capture", capture)], modes: CAPTURES.into() });
    for round in 0..2 {
        let messages: Messages = (0..HUNDRED / 4).map(|_| random.choose(stored).clone()).collect();
        let mixed = answered(&messages);
        let one = random.choose(stored);
        let formats: [(&str, Vec<u8>); 11] = [
            ("stream", stream(&mixed)),
            ("pcap", pcap(&mixed, false, false)),
            ("pcap-big", pcap(&mixed, false, true)),
            ("pcap-nano", pcap(&mixed, true, false)),
            ("pcap-nano-big", pcap(&mixed, true, true)),
            ("pcapng", pcapng(&mixed, false)),
            ("pcapng-big", pcapng(&mixed, true)),
            ("rtmon", rtmon(&messages)),
            ("xxd", xxd(one)),
            ("xxd-plain", xxd_plain(one)),
            ("hex", hex(&messages)),
        ];
        for (format, whole) in formats {
            for number in 0..8 {
                add(format!("captures-{format}-{round}-broken-{number}"), broken(&whole, &mut random));
            }
            add(format!("captures-{format}-{round}"), whole);
        }
    }
    add("captures-example".into(), data("tcshow/data/capture.pcap"));
    add("captures-dump".into(), data("tcshow/data/dump"));
    out
}

/// The names of kinds, as the files of their tables have them.
fn kinds(stored: &[Vec<u8>]) -> Vec<Case> {
    let mut names: Vec<String> = Vec::new();
    for folder in ["actions", "filters", "qdiscs"] {
        let path = format!("{}/../../kinds/{folder}", env!("CARGO_MANIFEST_DIR"));
        let entries = std::fs::read_dir(&path).unwrap_or_else(|error| panic!("{path}: {error}"));
        names.extend(entries.map(|it| it.expect("a folder can be read").file_name().to_string_lossy().into_owned()));
    }
    names.sort();
    names.dedup();
    let some: Messages = stored.iter().step_by(7).cloned().collect();
    let of_kind = |name: &String| Case { name: format!("kind-{name}"), files: vec![("stored", hex(&some))], modes: KINDS.replace("KIND", name) };
    names.iter().map(of_kind).collect()
}
