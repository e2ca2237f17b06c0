//! Large messages: a list of 4,096 attributes, a selector of 255 keys, a text of 60,000 letters, and a warning of 300 NULs. What they are read as is spelled
//! here by itself.

use crate::forms::rows;
use crate::tc_wire::{
    Emitable, ParseableBytes, TcActionMessage, TcMessage, rewrite_action, rewrite_tc, settle_action, settle_tc,
};
use crate::tests_data::{Expected, MANY_ATTRIBUTES, MANY_KEYS, MANY_LETTERS, MANY_NULS, Row, large_messages};
use std::fmt::Debug;

/// The attributes of each message as `Debug` shows them.
fn attributes() -> [String; 4] {
    let chains: Vec<String> = (0..MANY_ATTRIBUTES).map(|chain| format!("Chain({chain})")).collect();
    let key = |key| format!("TcU32Key {{ mask: 4294967295, val: {key}, off: 16, offmask: 0 }}");
    let keys: Vec<String> = (0..MANY_KEYS).map(key).collect();
    let head =
        "flags: TcU32SelectorFlags(1), offshift: 0, nkeys: 255, offmask: 0, off: 0, offoff: 0, hoff: 0, hmask: 0";
    let selector = format!("TcU32Selector {{ {head}, keys: [{}] }}", keys.join(", "));
    [
        format!("[{}]", chains.join(", ")),
        format!("[Kind(\"u32\"), Options([U32(Selector({selector}))])]"),
        format!("[Kind(\"{}\")]", "a".repeat(MANY_LETTERS)),
        // One of the NULs ends the text, so the others are read.
        format!("[RootExtWarnMsg(\"a{}\")]", "\\0".repeat(MANY_NULS - 1)),
    ]
}

/// Asserts that a message is read as these attributes, and written as the row has it.
fn is_read<M: ParseableBytes + Emitable + Debug>(row: &Row, attributes: &str) {
    let message = M::parse(&row.input.bytes).expect("a message");
    assert!(format!("{message:?}").ends_with(&format!("attributes: {attributes} }}")));
    let Expected::Accepted { emitted, .. } = &row.expected else { panic!("it is read") };
    assert!(message.fits());
    let mut bytes = vec![0x55; message.buffer_len()];
    message.emit(&mut bytes);
    assert!(bytes == *emitted);
}

#[test]
fn are_read_and_written() {
    let rows = rows(large_messages());
    let [list, selector, text, warning] = &rows[..] else { panic!("four messages") };
    let attributes = attributes();
    for (row, attributes) in [list, selector, text].into_iter().zip(&attributes) {
        is_read::<TcMessage>(row, attributes);
        assert!(rewrite_tc(&row.input.bytes).as_ref() == Ok(&row.input.bytes));
        assert!(settle_tc(&row.input.bytes) == Ok((row.input.bytes.clone(), 0)));
    }
    is_read::<TcActionMessage>(warning, &attributes[3]);
    assert!(rewrite_action(&warning.input.bytes).is_ok_and(|bytes| bytes.len() == warning.input.bytes.len() - 4));
    // It is settled without its NULs, of which each rewrite takes one away.
    assert_eq!(settle_action(&warning.input.bytes), Ok((vec![0, 0, 0, 0, 5, 0, 5, 0, b'a', 0, 0, 0], MANY_NULS)));
}
