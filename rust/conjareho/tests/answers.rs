//! Answers of the kernel.

use conjareho::answers::{Answer, AnswerError, Answers};
use conjareho::capture::Messages;
use conjareho::requests::{Object, Verb};
use conjareho::tc::{TcAttribute, TcMessage, TcOption, TcQdiscFqCodelOption};
use conjareho::{Netlink, Payload};

fn attribute(word: u16, payload: &[u8]) -> Vec<u8> {
    let len = u16::try_from(4 + payload.len()).expect("a short payload");
    let padding = vec![0; payload.len().wrapping_neg() % 4];
    [&len.to_le_bytes()[..], &word.to_le_bytes(), payload, &padding].concat()
}

fn netlink(kind: u16, flags: u16, sequence: u32, payload: &[u8]) -> Vec<u8> {
    let len = u32::try_from(16 + payload.len()).expect("a short payload");
    let words = [len, u32::from(kind) | u32::from(flags) << 16, sequence, 0];
    words.into_iter().flat_map(u32::to_le_bytes).chain(payload.iter().copied()).collect()
}

/// A request for fq_codel with two options.
fn request(verb: Verb) -> Vec<u8> {
    let mut message = TcMessage::with_index(1);
    message.attributes.push(TcAttribute::Kind("fq_codel".to_string()));
    let options = [TcQdiscFqCodelOption::Limit(1000), TcQdiscFqCodelOption::Flows(0)].map(TcOption::FqCodel);
    message.attributes.push(TcAttribute::Options(options.to_vec()));
    Netlink::request(Object::Qdisc, verb, 7, message).to_bytes().expect("it fits")
}

/// The kernel's answer: an error, the request or its header, and attributes.
fn answer(errno: u32, request: &[u8], is_capped: bool, attributes: &[u8]) -> Vec<u8> {
    let quoted = if is_capped { &request[..16] } else { request };
    let flags = 0x100 * u16::from(is_capped) + 0x200 * u16::from(!attributes.is_empty());
    netlink(2, flags, 7, &[&errno.wrapping_neg().to_le_bytes(), quoted, attributes].concat())
}

#[test]
fn an_error_has_its_name_its_text_and_its_place() {
    let request = request(Verb::Add);
    // The header, the kind, the header of the options, the first option.
    let offset = 16 + 20 + 16 + 4 + 8;
    let extended =
        [attribute(1, b"Number of flows must be positive\0"), attribute(2, &(offset as u32).to_le_bytes())].concat();
    for is_capped in [false, true] {
        let datagram = answer(22, &request, is_capped, &extended);
        let mut answers = Answers::to(&request);
        let Err(AnswerError::Refused(answer)) = answers.read(&datagram) else { panic!("no error") };
        assert!(answers.is_done());
        assert_eq!((answer.errno, answer.name(), answer.offset), (22, Some("EINVAL"), Some(offset)));
        assert_eq!(answer.text.as_deref(), Some("Number of flows must be positive"));
        let path = cfg!(feature = "serde").then_some("/attributes/1/Options/1/FqCodel/Flows");
        assert_eq!(answer.path.as_deref(), path);
        let text = answer.to_string();
        assert!(text.starts_with("EINVAL: Number of flows must be positive, offset 64"), "{text}");
    }
}

#[test]
fn an_acknowledgement_ends_a_request() {
    let request = request(Verb::Add);
    let mut answers = Answers::to(&request);
    // A notification, an answer to another request, and the acknowledgement.
    let others = [netlink(36, 0, 0, &[0; 20]), netlink(2, 0, 6, &[0; 20])].concat();
    assert_eq!(answers.read(&others).map(|found| found.len()), Ok(0));
    assert!(!answers.is_done());
    assert_eq!(answers.read(&answer(0, &request, true, &[])).map(|found| found.len()), Ok(0));
    assert!(answers.is_done() && !answers.is_interrupted());
}

#[test]
fn an_acknowledgement_can_have_a_warning() {
    let (add, dump) = (request(Verb::Add), request(Verb::Dump));
    let text = attribute(1, b"Warning: offload is off\0");
    for is_capped in [false, true] {
        let mut answers = Answers::to(&add);
        assert_eq!((answers.acknowledgement(), answers.is_done()), (None, false));
        assert_eq!(answers.read(&answer(0, &add, is_capped, &text)).map(|found| found.len()), Ok(0));
        let told = answers.acknowledgement().expect("an acknowledgement");
        assert_eq!((told.errno, told.text.as_deref(), told.offset), (0, Some("Warning: offload is off"), None));
        assert_eq!(told.to_string(), "done: Warning: offload is off");
    }
    // One without a text, and the end of a dump.
    let mut answers = Answers::to(&add);
    assert!(answers.read(&answer(0, &add, true, &[])).is_ok());
    assert_eq!(answers.acknowledgement(), Some(&Answer::default()));
    let mut answers = Answers::to(&dump);
    assert!(answers.read(&netlink(3, 0x202, 7, &[&[0; 4][..], &text].concat())).is_ok());
    assert_eq!(answers.acknowledgement().and_then(|it| it.text.as_deref()), Some("Warning: offload is off"));
    // None if the request is refused.
    let mut answers = Answers::to(&add);
    assert!(answers.read(&answer(22, &add, true, &text)).is_err());
    assert_eq!((answers.acknowledgement(), answers.is_done()), (None, true));
}

#[test]
fn a_dump_has_several_datagrams() {
    let request = request(Verb::Dump);
    let part = netlink(36, 2, 7, &[0; 20]);
    let mut answers = Answers::to(&request);
    assert_eq!(answers.read(&[part.clone(), part.clone()].concat()).map(|found| found.len()), Ok(2));
    assert!(!answers.is_done());
    assert_eq!(answers.read(&netlink(36, 0x12, 7, &[0; 20])).map(|found| found.len()), Ok(1));
    assert!(answers.is_interrupted());
    let end = [part, netlink(3, 2, 7, &[0; 4])].concat();
    assert_eq!(answers.read(&end).map(|found| found.len()), Ok(1));
    assert!(answers.is_done());
}

#[test]
fn a_dump_can_end_with_an_error() {
    let request = request(Verb::Dump);
    let text = [&105u32.wrapping_neg().to_le_bytes()[..], &attribute(1, b"No space\0")].concat();
    let Err(AnswerError::Refused(answer)) = Answers::to(&request).read(&netlink(3, 0x202, 7, &text)) else {
        panic!("no error")
    };
    assert_eq!((answer.name(), answer.text.as_deref(), answer.offset), (Some("ENOBUFS"), Some("No space"), None));
    let plain = netlink(3, 2, 7, &105u32.wrapping_neg().to_le_bytes());
    let Err(AnswerError::Refused(answer)) = Answers::to(&request).read(&plain) else { panic!("no error") };
    assert_eq!((answer.to_string(), answer.text), ("ENOBUFS".to_string(), None));
}

#[test]
fn one_object_is_one_message() {
    let request = request(Verb::Get);
    let mut answers = Answers::to(&request);
    assert_eq!(answers.read(&netlink(36, 0, 7, &[0; 20])).map(|found| found.len()), Ok(1));
    assert!(answers.is_done());
}

#[test]
fn a_cut_message_is_broken() {
    let request = request(Verb::Add);
    let whole = answer(0, &request, true, &[]);
    assert!(matches!(Answers::to(&request).read(&whole[..whole.len() - 1]), Err(AnswerError::Broken(_))));
    let other = Messages::new(&netlink(36, 0, 7, &[0; 20])).next().map(|it| it.map(|it| Answer::of(&it, &request)));
    assert!(matches!(other, Some(Ok(None))));
    assert!(matches!(Netlink::parse(&request), Ok((Netlink { payload: Payload::Tc(_), .. }, []))));
}

#[cfg(feature = "serde")]
#[test]
fn a_refusal_has_its_place() {
    use conjareho::{DecodeError, Located, locate_action, locate_tc};
    let request = request(Verb::Add);
    let mut bytes = request[16..].to_vec();
    assert_eq!(locate_tc(&bytes), None);
    // The length of the second option.
    bytes[48] = 7;
    let error = DecodeError::WrongLength { expected: 4, got: 3 };
    let path = "/attributes/1/Options/1/FqCodel/Flows".to_string();
    assert_eq!(locate_tc(&bytes), Some(Located { error: error.clone(), offset: 52, path }));
    assert_eq!(conjareho::ParseableBytes::parse(&bytes), Err::<TcMessage, _>(error));
    let short = locate_action(&[0; 3]).expect("a fault");
    assert_eq!((short.offset, &*short.path), (0, "/header"));
    assert_eq!(short.to_string(), "buffer of 3 bytes, 4 needed, offset 0, path /header");
}
