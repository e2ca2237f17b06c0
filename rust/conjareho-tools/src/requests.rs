//! Streams of requests, and sending them.

use crate::netlink::fault::Located;
use crate::netlink::message::{
    HEADER, Header, Messages, NLM_F_REQUEST, NLMSG_MIN_TYPE, RTM_NEWLINK, is_action, is_tc, tcmsg_of,
};
use crate::netlink::{Fault, Kernel, Refusal, Transport};
use crate::shown::line_of;
use crate::status::{Ending, Status};
use crate::tc_capture::MessageType;
use crate::show::json::Message;

/// What pcap, with times in microseconds and in nanoseconds, and pcapng begin with, in both orders of bytes.
const CAPTURES: [[u8; 4]; 5] = [
    [0xD4, 0xC3, 0xB2, 0xA1],
    [0xA1, 0xB2, 0xC3, 0xD4],
    [0x4D, 0x3C, 0xB2, 0xA1],
    [0xA1, 0xB2, 0x3C, 0x4D],
    [0x0A, 0x0D, 0x0D, 0x0A],
];

/// What makes requests of what isn't one.
const MAKES_REQUESTS: &str = "tcshow --json | tcmake --request --stream makes requests of dumps";

/// The requests of a stream, checked.
pub struct Stream<'a> {
    // With the number of the message in the stream, from 1.
    requests: Vec<(usize, Header, &'a [u8])>,
}

impl<'a> Stream<'a> {
    /// The requests of a stream, each at most `most` bytes long. What netlink itself says (`NLMSG_DONE`) and interfaces that a dump has
    /// (`RTM_NEWLINK` that is no request) aren't among them. Another type than those of traffic control is an error unless `any`, and so is a message
    /// that is no request.
    pub fn of(bytes: &'a [u8], most: usize, any: bool) -> Result<Stream<'a>, Ending> {
        let mut requests = Vec::new();
        let mut messages = Messages::of(bytes);
        let mut number = 0;
        let mut at = 0;
        while let Some(message) = messages.next() {
            number += 1;
            let wrong =
                |what: String| Ending::new(Status::Stream, format!("byte {at} of the stream: {what}; nothing is sent"));
            let (header, message) = message.map_err(|_| wrong(format!("no whole message{}", advice(bytes, at))))?;
            let is_link = header.kind == RTM_NEWLINK && header.flags & NLM_F_REQUEST == 0;
            if header.kind >= NLMSG_MIN_TYPE && !is_link {
                if !(any || matches!(header.kind, 36..=50 | 100..=102)) {
                    return Err(wrong(format!("a message of type {}, which --any sends", header.kind)));
                }
                if message.len() > most {
                    return Err(wrong(format!("a message of {} bytes; {most} can be sent", message.len())));
                }
                if header.flags & NLM_F_REQUEST == 0 {
                    return Err(wrong(format!("message {number} is from a dump, not a request: {MAKES_REQUESTS}")));
                }
                requests.push((number, header, message));
            }
            at = bytes.len() - messages.rest().len();
        }
        Ok(Stream { requests })
    }
}

// How a capture becomes a stream, if the bytes begin one.
fn advice(bytes: &[u8], at: usize) -> &'static str {
    let is_capture = at == 0 && CAPTURES.iter().any(|magic| bytes.starts_with(magic));
    if is_capture { "; of a capture, tcshow --json | tcmake --stream makes a stream" } else { "" }
}

/// Sends all requests, each once, and calls `hear` with the reason for each that the kernel refuses. Returns how many it refused. Ends at the first whose answer
/// isn't known.
pub fn send_all<T: Transport>(
    kernel: &mut Kernel<T>,
    stream: &Stream<'_>,
    hear: impl Fn(String),
) -> Result<usize, Ending> {
    let mut refused = 0;
    for (number, header, message) in &stream.requests {
        match kernel.request(message) {
            Ok(_) => {}
            Err(Fault::Refused(refusal)) => {
                refused += 1;
                let path = path_of(*header, message, &refusal);
                let said = Located { refusal: &refusal, path: path.as_deref() };
                hear(format!("{}: {said}", place_of(*number, *header, message)));
            }
            Err(fault) => {
                let text = format!(
                    "{}: {fault}; it isn't known whether this was done, and those after it aren't sent",
                    place_of(*number, *header, message)
                );
                return Err(Ending::new(Status::Stream, text));
            }
        }
    }
    Ok(refused)
}

// The path of the attribute that a refusal names, as in lines of `tcshow`. `None` if the message isn't one of traffic control, or none begins there.
fn path_of(header: Header, message: &[u8], refusal: &Refusal) -> Option<String> {
    let holds = match header.kind {
        kind if is_action(kind) => MessageType::Action,
        kind if is_tc(kind) => MessageType::Tc,
        _ => return None,
    };
    // The codec counts bytes after the netlink header.
    let offset = u64::from(refusal.offset?).checked_sub(HEADER as u64)?;
    let path = Message::without_header(holds, message.get(HEADER..)?).path_at(offset).ok()??;
    Some(path.names)
}

// What a message is, for people: its number and its line, or, if it has none, what its headers say.
fn place_of(number: usize, header: Header, message: &[u8]) -> String {
    if let Some(line) = line_of(message) {
        return format!("message {number}, {line}");
    }
    let mut text = format!("message {number}, type {}", header.kind);
    if let Some(tcmsg) = tcmsg_of(message) {
        let halves = |handle: u32| format!("{:x}:{:x}", handle >> 16, handle & 0xffff);
        text.push_str(&format!(
            ", dev {}, handle {}, parent {}",
            tcmsg.index,
            halves(tcmsg.handle),
            halves(tcmsg.parent)
        ));
    }
    text
}

#[cfg(test)]
mod tests {
    use super::*;
    use crate::netlink::attributes::put;
    use crate::netlink::message::{RTM_NEWACTION, RTM_NEWQDISC, TCMSG, Tcmsg, request, tc_request};

    fn refused(bytes: &[u8]) -> String {
        Stream::of(bytes, 1 << 16, false).err().map(|ending| ending.text).unwrap_or_default()
    }

    #[test]
    fn says_what_is_no_request() {
        let qdisc = tc_request(RTM_NEWQDISC, 0, Tcmsg::default());
        let mut dumped = qdisc.clone();
        dumped[6..8].copy_from_slice(&2u16.to_ne_bytes());
        assert_eq!(refused(&qdisc), "");
        assert_eq!(
            refused(&[qdisc.clone(), dumped].concat()),
            "byte 36 of the stream: message 2 is from a dump, not a request: tcshow --json | tcmake --request --stream makes requests of dumps; \
             nothing is sent"
        );
        assert_eq!(
            refused(&[&CAPTURES[0][..], &[0; 20]].concat()),
            "byte 0 of the stream: no whole message; of a capture, tcshow --json | tcmake --stream makes a stream; nothing is sent"
        );
        assert_eq!(refused(b"some text that is no stream"), "byte 0 of the stream: no whole message; nothing is sent");
    }

    #[test]
    fn names_the_attribute_that_is_refused() {
        let said = |kind, fixed: usize, offset| {
            let mut body = vec![0; fixed];
            put(&mut body, 1, b"fq_codel\0");
            put(&mut body, 2, &[8, 0, 2, 0, 1, 0, 0, 0]);
            let sent = request(kind, 0x600, &body);
            let (header, message) = Messages::of(&sent).next().unwrap().unwrap();
            let refusal = Refusal { errno: 22, text: "no".to_string(), offset };
            let path = path_of(header, message, &refusal);
            Located { refusal: &refusal, path: path.as_deref() }.to_string()
        };
        let of_qdisc = |offset| said(RTM_NEWQDISC, TCMSG, offset);
        assert_eq!(of_qdisc(Some(56)), "EINVAL: no at Options/FqCodel/Limit (byte 56 of the netlink message)");
        assert_eq!(of_qdisc(Some(36)), "EINVAL: no at Kind (byte 36 of the netlink message)");
        for offset in [0, 16, 37, 60, 64, u32::MAX] {
            assert_eq!(of_qdisc(Some(offset)), format!("EINVAL: no (byte {offset} of the netlink message)"));
        }
        assert_eq!(of_qdisc(None), "EINVAL: no");
        assert_eq!(said(20, TCMSG, Some(36)), "EINVAL: no (byte 36 of the netlink message)");
        assert_eq!(said(RTM_NEWACTION, 4, Some(20)), "EINVAL: no at Actions (byte 20 of the netlink message)");
    }

    #[test]
    fn names_a_request_by_its_line() {
        let place = Tcmsg { index: 7, handle: 0x1_0000, parent: u32::MAX, ..Tcmsg::default() };
        let qdisc = tc_request(RTM_NEWQDISC, 0x600, place);
        let (header, message) = Messages::of(&qdisc).next().unwrap().unwrap();
        assert_eq!(place_of(3, header, message), "message 3, add qdisc - 1: dev 7 root");
    }
}
