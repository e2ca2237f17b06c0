//! Lines, written and read.

use serde_json::json;

use super::{Fault, Header, Line, Member, Origin, Seconds, TypeName, with_message};
use crate::nla_frames::DecodeError;
use crate::tc_capture::{MessageType, Time};

fn known() -> Line {
    let time = Seconds(Time { seconds: 1_764_028_801, nanoseconds: 250_000_000 });
    let origin = Origin { time: time.into(), packet: 3.into(), packet_type: Member::Missing };
    Line::from(
        origin,
        Header { kind: TypeName("RTM_NEWQDISC").into(), flags: 2.into(), seq: 1.into(), portid: Member::Missing },
    )
}

#[test]
fn members_are_written_in_their_order() {
    let line = known().read(true, true, false);
    let json = with_message(&line, MessageType::Action, &[0; 4]).expect("there is memory");
    let begin = r#"{"time":"1764028801.250000000","packet":3,"type":"RTM_NEWQDISC","flags":2,"seq":1,"fits":true,"settled":true,"canonical":false,"message":{"#;
    assert!(json.starts_with(begin) && json.ends_with("}}"), "{json}");
    let line =
        known().refused(Fault::new(&DecodeError::WrongLength { expected: 4, got: 2 }, 20, "/attributes/0".into()));
    let json = serde_json::to_string(&line).expect("it is JSON");
    assert!(
        json.ends_with(r#""seq":1,"refused":"WrongLength","expected":4,"got":2,"offset":20,"path":"/attributes/0"}"#),
        "{json}"
    );
}

#[test]
fn what_is_written_is_read() {
    let line = known().refused(Fault::new(&DecodeError::FrameTooLong { length: 9, left: 8 }, 24, String::new()));
    let json = serde_json::to_value(&line).expect("it is JSON");
    let read = Line::of(&json).expect("it is an object");
    assert_eq!(serde_json::to_value(&read).expect("it is JSON"), json);
    assert_eq!(read.stray(), None);
    assert_eq!(read.header.kind, Member::Right(TypeName("RTM_NEWQDISC")));
}

#[test]
fn what_is_no_member_or_no_value_is_named() {
    let stray = |json: serde_json::Value| Line::of(&json).expect("it is an object").stray().map(String::from);
    assert_eq!(stray(json!({"message": {}, "seq": 1})), None);
    assert_eq!(stray(json!({"message": {}, "sequence": 1, "colour": 2})).as_deref(), Some("colour"));
    assert_eq!(stray(json!({"message": {}, "path": "/", "got": 1, "zone": 1})).as_deref(), Some("got"));
    assert_eq!(stray(json!({"message": {}, "path": "/", "refused": "NotUtf8"})), None);
    let wrong = Line::of(
        &json!({"flags": 65_536, "seq": -1, "portid": null, "packet": 1.0, "type": "RTM_NEWLINK", "fits": 1, "time": "1.5"}),
    );
    let Line { origin, header, fits, .. } = wrong.expect("it is an object");
    assert_eq!(
        (header.flags, header.seq, header.portid),
        (Member::Wrong(json!(65_536)), Member::Wrong(json!(-1)), Member::Wrong(json!(null)))
    );
    assert_eq!((origin.packet, fits), (Member::Wrong(json!(1.0)), Member::Wrong(json!(1))));
    assert!(matches!((origin.time, header.kind), (Member::Wrong(_), Member::Wrong(_))));
    assert!(Line::of(&json!([])).is_err());
}
