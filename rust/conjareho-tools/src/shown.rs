//! Messages with their netlink headers, as `tcshow` prints each: a line of JSON, or a line for people.
#![deny(clippy::unwrap_used, clippy::indexing_slicing, clippy::panic, clippy::arithmetic_side_effects)]

use std::collections::BTreeMap;

use crate::netlink::Fault;
use crate::show::json::{Message, NO_ORIGIN, line_of as json_line_of, safe_text};
use crate::show::lines::{Requests, TimeFormat, lines_of_message};
use crate::tc_capture::Messages;

/// What `tcshow --json` writes of messages.
#[derive(Clone, PartialEq, Eq, Debug, Default)]
pub struct Shown {
    /// A line each, with its line feed.
    pub text: String,
    /// True if the codec refuses one of them; its line says why.
    pub has_refused: bool,
}

/// The lines of JSON of messages of traffic control, one each.
pub fn lines_of(messages: &[Vec<u8>]) -> Result<Shown, Fault> {
    let mut shown = Shown::default();
    for message in messages {
        let found = found_in(message).ok_or(Fault::Broken("a message that isn't shown as one line"))?;
        let line = json_line_of(&found).and_then(|line| Ok((safe_text(line.json)?, line.fault)));
        let (json, fault) = line.map_err(|_| Fault::Broken("a message that isn't shown, since memory ran out"))?;
        shown.text.push_str(&json);
        shown.text.push('\n');
        shown.has_refused |= fault.is_some();
    }
    Ok(shown)
}

/// The line for people of a message. `None` if it is no line, or the message isn't one of traffic control.
pub fn line_of(message: &[u8]) -> Option<String> {
    let found = found_in(message)?;
    let lines = lines_of_message(&[], &BTreeMap::new(), &Requests::new(), false, TimeFormat::Clock, &found).ok()?;
    let text = String::from_utf8(lines.text).ok()?;
    let line = text.strip_suffix('\n')?;
    (!line.is_empty() && !line.contains('\n')).then(|| line.to_owned())
}

// The message of traffic control that these bytes are.
fn found_in(bytes: &[u8]) -> Option<Message<'_>> {
    let mut messages = Messages::new(bytes);
    let message = messages.next()?.ok()?;
    if messages.next().is_some() { None } else { Message::in_netlink(NO_ORIGIN, &message) }
}

/// Messages as a stream: each padded to a multiple of four bytes.
pub fn stream_of(messages: &[Vec<u8>]) -> Vec<u8> {
    let mut stream = Vec::new();
    for message in messages {
        stream.extend_from_slice(message);
        stream.resize(stream.len().next_multiple_of(4), 0);
    }
    stream
}

#[cfg(test)]
mod tests {
    use super::{Shown, line_of, lines_of};

    // struct nlmsghdr: 20 bytes more, RTM_NEWQDISC, NLM_F_MULTI, 1, 0; struct tcmsg of interface 7.
    const QDISC: [u8; 36] = [
        36, 0, 0, 0, 36, 0, 2, 0, 1, 0, 0, 0, 0, 0, 0, 0, 0, 0, 0, 0, 7, 0, 0, 0, 0, 0, 0, 0, 255, 255, 255, 255, 0, 0,
        0, 0,
    ];

    #[test]
    fn a_message_is_a_line() {
        let shown = lines_of(&[QDISC.to_vec(), QDISC.to_vec()]).expect("it is shown");
        let line =
            r#"{"type":"RTM_NEWQDISC","flags":2,"seq":1,"fits":true,"settled":true,"canonical":true,"message":{"#;
        assert!(shown.text.lines().count() == 2 && shown.text.lines().all(|it| it.starts_with(line)), "{}", shown.text);
        assert!(!shown.has_refused && shown.text.ends_with("}\n"));
        assert_eq!(lines_of(&[]).expect("nothing"), Shown::default());
        assert_eq!(line_of(&QDISC).as_deref(), Some("is qdisc - - dev 7 root"));
    }

    #[test]
    fn what_the_codec_refuses_is_a_line_too() {
        // An attribute of 12 bytes, of which 8 are there.
        let cut = [&[44], &QDISC[1..], &[12, 0, 1, 0, 0, 0, 0, 0]].concat();
        let shown = lines_of(&[cut]).expect("it is shown");
        assert!(
            shown.has_refused && shown.text.contains(r#""refused":"FrameTooLong","length":12,"left":8,"#),
            "{}",
            shown.text
        );
    }

    #[test]
    fn other_bytes_are_no_line() {
        let mut other = QDISC;
        other[4] = 20;
        for bytes in [&other[..], &QDISC[..35], &[&QDISC[..], &QDISC].concat(), &[]] {
            assert!(lines_of(&[bytes.to_vec()]).is_err() && line_of(bytes).is_none(), "{bytes:?}");
        }
    }
}
