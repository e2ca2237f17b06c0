//! What the generator reads of the tables, and what it skips.

use kinds::{Fault, page, types, types_of};
use std::path::Path;

fn written(path: &str, text: &str) -> Result<String, Fault> {
    types_of(&[("action".to_string(), "form actions hex".to_string()), (path.to_string(), text.to_string())])
}

/// The examples of `kinds/README.md`, which are its first indented lines, without the remarks in their last column.
fn examples() -> String {
    let page = Path::new(env!("CARGO_MANIFEST_DIR")).join("../../kinds/README.md");
    let text = std::fs::read_to_string(page).expect("the page");
    let is_indented = |line: &str| line.starts_with("    ");
    let after = text.lines().skip_while(|line| !is_indented(line));
    let indented: Vec<&str> = after.take_while(|line| line.is_empty() || is_indented(line)).collect();
    let column = indented.iter().find_map(|line| line.find("   a comment")).expect("the remark on a comment");
    let lines = indented.iter().map(|line| line.get(4..column.min(line.len())).unwrap_or("").trim_end());
    lines.map(|line| format!("{line}\n")).collect::<String>().trim_start().to_string()
}

#[test]
fn the_examples_of_the_page_are_read() {
    let types = written("qdiscs/codel", &examples()).expect("types");
    for part in [
        "pub mod qdiscs",
        "pub mod codel",
        "CodelAttr Plain",
        "#[doc = \"`TCA_CODEL_TARGET` (1), in microseconds.\"]",
        "Target target with_target \"Target\" \"\" 1 0 (u32) (u32) (u32)",
        "CodelXstats {",
        "#[doc = \"In microseconds.\"]\nldelay \"ldelay\" \"\" (u32) (u32)",
    ] {
        assert!(types.contains(part), "{part} isn't in\n{types}");
    }
}

const SHORT: &str = "# Example\n\nqdisc example\n  options  list example in Example\n\nlist example\n  1  TCA_EXAMPLE_RATE  Rate  u64  bytes/s\n";

#[test]
fn what_is_not_known_is_skipped() {
    let more = SHORT.replace("in Example\n", "in Example  change keeps\n  change  whole\n  leaves  out\n");
    let more = more.replace("bytes/s\n", "bytes/s  normal -  shade dark  # the rate\n") + "\nplans example\n  1  Something  else\n";
    let (short, more) = (written("qdiscs/example", SHORT).expect("types"), written("qdiscs/example", &more).expect("types"));
    assert_eq!(more.replace(", the rate", ""), short);
    // Without a unit, and with a value that is also a column's name.
    let bare = SHORT.replace("  bytes/s", "");
    let shaded = bare.replace("u64\n", "u64  shade names  depth 7\n");
    assert_eq!(written("qdiscs/example", &shaded), written("qdiscs/example", &bare));
}

#[test]
fn a_row_has_the_columns_of_its_line() {
    let line = "bytes/s  =7;  tc rate  as speed";
    let types = written("qdiscs/example", &SHORT.replace("bytes/s", line)).expect("types");
    for part in [
        "pub(crate) static LIST_EXAMPLE: [visit::Row; 1]",
        "name: \"Rate\", kernel: \"TCA_EXAMPLE_RATE\", label: \"speed\"",
        "unit: visit::Unit::BytesPerSecond",
        "word: \"rate\", style: visit::Style::Value",
        "left_out: visit::LeftOut::Equal(7), left_out_with_statistics: visit::LeftOut::Never",
    ] {
        assert!(types.contains(part), "{part} isn't in\n{types}");
    }
}

#[test]
fn a_mistake_has_its_place() {
    let fault = |text: &str| written("qdiscs/example", text).expect_err("a mistake");
    assert_eq!(fault(&SHORT.replace("u64", "u63")), "qdiscs/example:7: no such form: u63");
    assert_eq!(fault(&SHORT.replace("  1", "  one")), "qdiscs/example:7: no number: one");
    let twice = format!("{SHORT}\nstruct tc_example_attr\n  rate  u32\n");
    assert_eq!(fault(&twice), "qdiscs/example: the type ExampleAttr is also that of list example in qdiscs/example");
}

#[test]
fn the_tables_of_the_repository_are_written() {
    let types = types(&Path::new(env!("CARGO_MANIFEST_DIR")).join("../../kinds")).expect("types");
    for part in [
        "Htb \"\" \"Htb\" 0 (Attrs<HtbAttr>) (List<HtbAttr>) [BY_KIND_OPTIONS[",
        "Rate64 rate64 with_rate64 \"Rate64\" \"\" 6 0 (u64) (u64) (u64) \", in bytes per second\" [LIST_HTB[",
        "It has to be the number of `keys`, which [`of`](crate::kinds::filters::u32::U32Sel::of) counts",
        "\"In bytes per second. It is 4294967295 if the rate is larger",
        "#[doc(alias = \"TCA_HTB_RATE64\")]",
        "linklayer \"linklayer\" \"\" (TcLinklayer) (Coded<TcLinklayer, u8>)",
        "latency \"latency\" \"\" (Ticks) (Coded<Ticks, u32>)",
        "pub const _802_1Q: u16 = 33024;",
        "Flower actions,",
        "let options = FqCodelAttr::list().with_target(5000).with_limit(1000);\\nlet message = Message::on(2).parent(Handle::ROOT).of(options);",
        "NetemQopt { latency: Duration::from_millis(10).into(), limit: 1000, ..NetemQopt::default() }",
        "In [`NetemAttr::Loss`](crate::kinds::qdiscs::netem::NetemAttr::Loss).",
    ] {
        assert!(types.contains(part), "{part} isn't there");
    }
}

#[test]
fn the_page_lists_every_kind() {
    let page = page(&Path::new(env!("CARGO_MANIFEST_DIR")).join("../../kinds")).expect("a page");
    for row in [
        "| `htb` | qdisc | [`HtbAttr`](crate::kinds::qdiscs::htb::HtbAttr) | [`HtbXstats`](crate::kinds::qdiscs::htb::HtbXstats) |",
        "| `netem` | qdisc | [`NetemQopt`](crate::kinds::qdiscs::netem::NetemQopt) | [`NetemXstats`](crate::kinds::qdiscs::netem::NetemXstats) |",
        "| `gact` | action | [`GactAttr`](crate::kinds::actions::gact::GactAttr) |  |",
    ] {
        assert!(page.contains(row), "{row} isn't in\n{page}");
    }
}
