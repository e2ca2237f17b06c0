//! The attributes of messages, worked by hand.

use conjareho::DecodeError;
use conjareho::index::{Attributes, Node, Table, index_action, index_tc};

/// A message, and its attributes as `messages.txt` has them.
struct Message {
    is_tc: bool,
    bytes: Vec<u8>,
    nodes: Vec<&'static str>,
}

fn messages() -> Vec<Message> {
    let mut all: Vec<Message> = Vec::new();
    for line in include_str!("messages.txt").lines().filter(|line| !line.is_empty() && !line.starts_with('#')) {
        match line.split_once(' ') {
            Some((form @ ("tc" | "action"), hex)) => {
                let octet = |at: usize| u8::from_str_radix(&hex[at..at + 2], 16).expect("hex");
                let bytes = (0..hex.len()).step_by(2).map(octet).collect();
                all.push(Message { is_tc: form == "tc", bytes, nodes: Vec::new() });
            }
            _ => all.last_mut().expect("a message").nodes.push(line),
        }
    }
    all
}

const EMPTY: Node = Node { offset: 0, len: 0, word: 0, table: Table::Message, depth: 0 };

fn name_of(table: Table) -> &'static str {
    match table {
        Table::Message => "Message",
        Table::ActionMessage => "ActionMessage",
        Table::Stats2 => "Stats2",
        Table::Actions => "Actions",
        Table::Action => "Action",
        Table::ActionOptions => "ActionOptions",
        Table::Mirror => "Mirror",
        Table::TunnelKey => "TunnelKey",
        Table::FqCodel => "FqCodel",
        Table::U32 => "U32",
        Table::Flower => "Flower",
        Table::Mpls => "Mpls",
        Table::Lse => "Lse",
        _ => "another",
    }
}

fn told(nodes: &[Node]) -> Vec<String> {
    let told = |it: &Node| format!("{} {} {:#06x} {} {}", it.offset, it.len, it.word, name_of(it.table), it.depth);
    nodes.iter().map(told).collect()
}

/// The attributes of a message, of at most 32.
fn indexed(is_tc: bool, bytes: &[u8]) -> Vec<String> {
    let mut slots = [EMPTY; 32];
    let count = if is_tc { index_tc(bytes, &mut slots) } else { index_action(bytes, &mut slots) };
    told(&slots[..count])
}

#[test]
fn all_attributes() {
    let all = messages();
    assert_eq!(all.iter().map(|it| it.nodes.len()).collect::<Vec<_>>(), [3, 8, 5, 22]);
    for message in all {
        assert_eq!(indexed(message.is_tc, &message.bytes), message.nodes);
    }
}

/// All attributes are counted, and no more are written than there are slots.
#[test]
fn few_slots() {
    let flower = messages().remove(3);
    let mut slots = [EMPTY; 2];
    assert_eq!(index_tc(&flower.bytes, &mut slots[..1]), 22);
    assert_eq!(told(&slots[..1]), flower.nodes[..1]);
    assert_eq!(slots[1].offset, 0);
}

/// What is in options of an unknown kind isn't known.
#[test]
fn unknown_kind() {
    let mut fq_codel = messages().remove(0);
    fq_codel.bytes[24] = b'g';
    assert_eq!(indexed(true, &fq_codel.bytes), fq_codel.nodes[..2]);
}

#[test]
fn broken_frame() {
    let mut flower = messages().remove(3);
    flower.bytes[156] = 200;
    assert_eq!(indexed(true, &flower.bytes), flower.nodes[..18]);
    let all: Vec<_> = Attributes::of_tc(&flower.bytes).expect("a header").collect();
    let (broken, whole) = all.split_last().expect("attributes");
    assert_eq!((whole.len(), whole.iter().all(Result::is_ok)), (18, true));
    let broken = broken.as_ref().err().map(|it| (it.offset, it.fault.clone()));
    assert_eq!(broken, Some((156, DecodeError::FrameTooLong { length: 200, left: 8 })));
}

#[test]
fn short_headers() {
    let all = messages();
    let (fq_codel, mirred) = (&all[0].bytes, &all[2].bytes);
    assert_eq!(indexed(true, &fq_codel[..19]), [""; 0]);
    assert_eq!(indexed(true, &fq_codel[..20]), [""; 0]);
    assert_eq!(indexed(false, &mirred[..3]), [""; 0]);
    assert!(Attributes::of_tc(&fq_codel[..19]).is_err());
    assert!(Attributes::of_tc(&fq_codel[..20]).is_ok());
}
