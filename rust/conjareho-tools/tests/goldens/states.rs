//! What an interface has now and what it is to have, as dumps: pairs of states that differ in some objects.

use super::captures::link;
use super::common::random::Random;
use super::common::stored::{Messages, attribute, message};

const QDISC: u16 = 36;
const CLASS: u16 = 40;
const FILTER: u16 = 44;
const ACTION: u16 = 48;
const CHAIN: u16 = 100;

const ROOT: u32 = 0xffff_ffff;
const CLSACT: u32 = 0xffff_fff1;
const INGRESS: u32 = 0xffff_fff2;

/// Qdiscs with classes that users make, and others.
const CLASSFUL: [&str; 4] = ["htb", "hfsc", "drr", "qfq"];
const ALONE: [&str; 12] = ["fq_codel", "fq", "cake", "tbf", "netem", "sfq", "red", "bfifo", "pfifo", "codel", "pie", "ets"];
const FILTERS: [&str; 9] = ["matchall", "flower", "u32", "basic", "fw", "bpf", "route", "flow", "cgroup"];

/// An object of a state, before it has its options.
#[derive(Clone)]
struct Object {
    type_: u16,
    kind: String,
    index: u32,
    handle: u32,
    parent: u32,
    info: u32,
    chain: Option<u32>,
    /// Which of the stored messages of this type and kind it takes its options from.
    sample: usize,
}

/// A state of now and one that is wanted.
pub fn pair(stored: &[Vec<u8>], random: &mut Random) -> (Messages, Messages) {
    let now = objects(random);
    let wanted = match random.below(8) {
        0 => objects(random),
        1 => Vec::new(),
        _ => {
            let more = more(random);
            now.iter().filter_map(|object| altered(object, random)).chain(more).collect()
        }
    };
    (messages(&now, stored), messages(&wanted, stored))
}

/// Most objects stay, some go or change.
fn altered(object: &Object, random: &mut Random) -> Option<Object> {
    let mut out = object.clone();
    match random.below(12) {
        0 => return None,
        1 => out.sample += 1,
        2 if out.type_ == QDISC => out.kind = random.choose::<&str>(&ALONE).to_string(),
        _ => {}
    }
    Some(out)
}

/// An object more, at times.
fn more(random: &mut Random) -> Vec<Object> {
    let parent = *random.choose(&[0x1_0000, INGRESS]);
    if random.one_in(3) { vec![filter(7, parent, random)] } else { Vec::new() }
}

fn objects(random: &mut Random) -> Vec<Object> {
    let mut out = Vec::new();
    for index in [7, 8].into_iter().take(1 + random.below(2)) {
        of_interface(index, &mut out, random);
    }
    for _ in 0..random.below(3) {
        let sample = random.below(1000);
        out.push(Object { type_: ACTION, kind: String::new(), index: 0, handle: 0, parent: 0, info: 0, chain: None, sample });
    }
    out
}

fn of_interface(index: u32, out: &mut Vec<Object>, random: &mut Random) {
    let new = |type_, kind: &str, handle, parent, random: &mut Random| {
        let (info, sample) = (if type_ == QDISC { 2 } else { 0 }, random.below(1000));
        Object { type_, kind: kind.into(), index, handle, parent, info, chain: None, sample }
    };
    if random.one_in(4) {
        out.push(new(QDISC, random.choose::<&str>(&ALONE), 0x8001_0000, ROOT, random));
    } else {
        let kind = *random.choose(&CLASSFUL);
        out.push(new(QDISC, kind, 0x1_0000, ROOT, random));
        for class in 1..=random.below(5) as u32 {
            let parent = if class > 2 && kind != "drr" && kind != "qfq" { 0x1_0001 } else { ROOT };
            let mut object = new(CLASS, kind, 0x1_0000 | class, parent, random);
            if random.one_in(2) && (class > 2 || kind != "htb") {
                let leaf = new(QDISC, random.choose::<&str>(&ALONE), (0x10 + class) << 16, 0x1_0000 | class, random);
                object.info = leaf.handle;
                out.push(leaf);
            }
            out.push(object);
        }
        for _ in 0..random.below(4) {
            out.push(filter(index, 0x1_0000, random));
        }
    }
    if random.one_in(2) {
        out.push(Object { info: 1, ..new(QDISC, "clsact", 0xffff_0000, CLSACT, random) });
        if random.one_in(3) {
            out.push(Object { chain: Some(5), ..new(CHAIN, "", 0, INGRESS, random) });
        }
        for _ in 0..random.below(4) {
            out.push(filter(index, INGRESS, random));
        }
    }
}

fn filter(index: u32, parent: u32, random: &mut Random) -> Object {
    let kind = *random.choose(&FILTERS);
    let number = 1 + random.below(5) as u32;
    let handle = if kind == "u32" { 0x8000_0800 + number } else { number };
    let protocol = u32::from(random.choose(&[0x0800_u16, 0x86dd, 3]).to_be());
    let chain = random.one_in(4).then_some(5);
    let info = (1 + random.below(3) as u32) << 16 | protocol;
    Object { type_: FILTER, kind: kind.into(), index, handle, parent, info, chain, sample: random.below(1000) }
}

fn messages(objects: &[Object], stored: &[Vec<u8>]) -> Messages {
    let links = [link(7, "d7"), link(8, "d8")];
    links.into_iter().chain(objects.iter().map(|object| bytes(object, stored))).collect()
}

/// The kind that the message is of, if it begins with that.
fn kind_of(message: &[u8]) -> Option<&str> {
    let length = usize::from(*message.get(36)?);
    let text = message.get(40..36 + length)?.strip_suffix(&[0])?;
    (message.get(38..40)? == [1, 0]).then_some(std::str::from_utf8(text).ok()?)
}

fn bytes(object: &Object, stored: &[Vec<u8>]) -> Vec<u8> {
    let is_type = |it: &&Vec<u8>| it[4..6] == object.type_.to_le_bytes();
    if object.type_ == ACTION {
        let of_type: Vec<_> = stored.iter().filter(is_type).collect();
        return of_type[object.sample % of_type.len()].clone();
    }
    let of_kind: Vec<_> = stored.iter().filter(|it| is_type(it) && kind_of(it) == Some(&object.kind)).collect();
    let words = [object.index, object.handle, object.parent, object.info];
    let head = [&[0; 4][..], &words.map(u32::to_le_bytes).concat()].concat();
    let name = if object.kind.is_empty() { Vec::new() } else { attribute(1, &[object.kind.as_bytes(), &[0]].concat()) };
    let chain = object.chain.map(|number| attribute(11, &number.to_le_bytes())).unwrap_or_default();
    let rest = match of_kind.len() {
        0 => Vec::new(),
        count => of_kind[object.sample % count].get(36 + name.len()..).unwrap_or_default().to_vec(),
    };
    message(object.type_, 2, 0, 0, &[head, name, chain, rest].concat())
}
