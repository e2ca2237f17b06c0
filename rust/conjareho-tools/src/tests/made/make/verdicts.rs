//! Verdicts that lines state, the codec's verdicts, and the messages that are made.

use crate::user::prelude::*;

use crate::make::messages::Making;
use crate::tests::made::make::runs::{bare, makes, makes_line};
use crate::user::Fail;

// A canonical message.
static CANONICAL_TEXTS: (&str, &str) = (
    r#"{"header":{"family":"Unspec","index":2,"handle":"1:","parent":"root","info":0},"attributes":[{"Kind":"u32"}]}"#,
    "000000000200000000000100ffffffff000000000800010075333200",
);

// One with a number out of its range, flags of another `nla_type`, and padding that isn't zeros.
static LOOSE_TEXTS: (&str, &str) = (
    r#"{"header":{"family":"Unspec","index":2,"handle":"1:","parent":"root","info":0},"attributes":[{"Kind":"flower"},{"Options":[{"Flower":{"MplsBos":3,"pad":"000001","word":32836}}]}]}"#,
    "000000000200000000000100ffffffff000000000b000100666c6f77657200000c0002000500448003000001",
);

// The same as it is settled.
static SETTLED: &str = "000000000200000000000100ffffffff000000000b000100666c6f77657200000c0002000500440001000000";

// One that the codec refuses: a chain of two bytes.
static REFUSED_TEXTS: (&str, &str) = (
    r#"{"header":{"family":"Unspec","index":2,"handle":"1:","parent":"root","info":0},"attributes":[{"Chain":{"raw":"0700"}}]}"#,
    "000000000200000000000100ffffffff0000000006000b0007000000",
);

// Which of them is in a line.
#[derive(Clone, Copy)]
enum Message {
    Canonical,
    Loose,
    Refused,
}

const CANONICAL: Message = Message::Canonical;

const LOOSE: Message = Message::Loose;

const REFUSED: Message = Message::Refused;

// Its JSON, and its bytes in hex.
fn texts_of(message: Message) -> (&'static str, &'static str) {
    match message {
        Message::Canonical => CANONICAL_TEXTS,
        Message::Loose => LOOSE_TEXTS,
        Message::Refused => REFUSED_TEXTS,
    }
}

// What is made of a line with these members beside a message, and what is said: of a line that is made, nothing or a notice.
struct Cell {
    says: &'static str,
    message: Message,
    making: Making,
    makes: Makes,
    said: &'static str,
}

// The bytes that the message shows, those that settling makes of the loose one, or none.
#[derive(Clone, Copy)]
enum Makes {
    Given,
    Settled,
    Nothing,
}

const CHECKED: Making = Making::Checked;

const SETTLE: Making = Making::Settled;

const AS_GIVEN: Making = Making::AsGiven;

const NOTICES: &str = "/attributes/1/Options/0/Flower/MplsBos: found 3, settled to 1
tcmake: line 1: /attributes/1/Options/0/Flower/pad: found \"000001\", dropped
tcmake: line 1: /attributes/1/Options/0/Flower/word: found 32836, dropped";

#[rustfmt::skip]
static CELLS: [Cell; 27] = [
    // `refused` and its numbers
    Cell { says: r#""refused":"WrongLength","expected":4,"got":2,"#, message: REFUSED, making: CHECKED, makes: Makes::Given, said: "" },
    Cell { says: r#""refused":"WrongLength","expected":4,"got":2,"offset":24,"path":"/attributes/0/Chain","#, message: REFUSED, making: CHECKED,
        makes: Makes::Given, said: "" },
    Cell { says: r#""refused":"WrongLength","expected":4,"got":3,"#, message: REFUSED, making: CHECKED, makes: Makes::Nothing,
        said: "/refused: found WrongLength, value of 3 bytes, 4 expected; wanted WrongLength, value of 2 bytes, 4 expected" },
    Cell { says: r#""refused":"NotUtf8","#, message: REFUSED, making: CHECKED, makes: Makes::Nothing,
        said: "/refused: found NotUtf8, text is not UTF-8; wanted WrongLength, value of 2 bytes, 4 expected" },
    Cell { says: r#""refused":"WrongLength","expected":4,"#, message: REFUSED, making: CHECKED, makes: Makes::Nothing,
        said: "/got: found nothing, wanted a number of bytes" },
    Cell { says: r#""refused":"Wrong","#, message: REFUSED, making: CHECKED, makes: Makes::Nothing,
        said: "/refused: found \"Wrong\", wanted BufferTooSmall, FrameHeaderShort, FrameTooLong, FrameTooShort, WrongLength, NotUtf8, SelectorShort, XstatsShort, MissingKind or DuplicateKind" },
    Cell { says: r#""refused":"NotUtf8","#, message: CANONICAL, making: CHECKED, makes: Makes::Nothing,
        said: "/refused: found NotUtf8, wanted none of a message that the codec reads" },
    Cell { says: r#""refused":"WrongLength","expected":4,"got":2,"#, message: REFUSED, making: SETTLE, makes: Makes::Nothing,
        said: "this line reports a refused message; there is nothing to make" },
    Cell { says: r#""refused":"WrongLength","expected":4,"got":2,"#, message: REFUSED, making: AS_GIVEN, makes: Makes::Given, said: "" },
    Cell { says: r#""refused":"NotUtf8","#, message: CANONICAL, making: AS_GIVEN, makes: Makes::Given, said: "" },
    // `fits`, `settled`, `canonical`
    Cell { says: r#""fits":true,"settled":true,"canonical":true,"#, message: CANONICAL, making: CHECKED, makes: Makes::Given, said: "" },
    Cell { says: r#""fits":true,"settled":false,"canonical":false,"#, message: LOOSE, making: CHECKED, makes: Makes::Given, said: "" },
    Cell { says: r#""fits":true,"#, message: LOOSE, making: CHECKED, makes: Makes::Given, said: "" },
    Cell { says: r#""canonical":true,"#, message: LOOSE, making: CHECKED, makes: Makes::Nothing, said: "/canonical: found true, wanted false" },
    Cell { says: r#""settled":true,"#, message: LOOSE, making: CHECKED, makes: Makes::Nothing, said: "/settled: found true, wanted false" },
    Cell { says: r#""fits":false,"canonical":true,"#, message: CANONICAL, making: CHECKED, makes: Makes::Nothing, said: "/fits: found false, wanted true" },
    Cell { says: r#""fits":1,"#, message: CANONICAL, making: CHECKED, makes: Makes::Nothing, said: "/fits: found 1, wanted true or false" },
    Cell { says: r#""fits":true,"#, message: REFUSED, making: CHECKED, makes: Makes::Nothing,
        said: "/attributes/0/Chain: found a message that the codec refuses, value of 2 bytes, 4 expected" },
    Cell { says: r#""canonical":true,"#, message: LOOSE, making: SETTLE, makes: Makes::Settled, said: NOTICES },
    Cell { says: r#""fits":true,"#, message: REFUSED, making: SETTLE, makes: Makes::Nothing,
        said: "/attributes/0/Chain: found a message that the codec refuses, value of 2 bytes, 4 expected" },
    Cell { says: r#""canonical":true,"#, message: LOOSE, making: AS_GIVEN, makes: Makes::Given, said: "" },
    // none of them
    Cell { says: "", message: CANONICAL, making: CHECKED, makes: Makes::Given, said: "" },
    Cell { says: "", message: LOOSE, making: CHECKED, makes: Makes::Nothing, said: "/attributes/1/Options/0/Flower/MplsBos: found 3, wanted 1" },
    Cell { says: "", message: REFUSED, making: CHECKED, makes: Makes::Nothing,
        said: "/attributes/0/Chain: found a message that the codec refuses, value of 2 bytes, 4 expected" },
    Cell { says: "", message: CANONICAL, making: SETTLE, makes: Makes::Given, said: "" },
    Cell { says: "", message: REFUSED, making: SETTLE, makes: Makes::Nothing,
        said: "/attributes/0/Chain: found a message that the codec refuses, value of 2 bytes, 4 expected" },
    Cell { says: "", message: REFUSED, making: AS_GIVEN, makes: Makes::Given, said: "" },
];

// True if a cell's line makes the wanted bytes, and the wanted complaint.
fn is_so(cell: &Cell) -> Result<bool, AllocError> {
    let (says, (json, given)) = (cell.says, texts_of(cell.message));
    let digits = match cell.makes {
        Makes::Given => given,
        Makes::Settled => SETTLED,
        Makes::Nothing => "",
    };
    let line = crate::user::formatted(format_args!("{{\"type\":\"RTM_NEWQDISC\",{says}\"message\":{json}}}"))?;
    Ok(makes_line(&bare(cell.making), line.as_str(), digits, cell.said))
}

#[test]
fn each_cell_of_the_table() -> Result<(), Fail> {
    for (number, cell) in CELLS.iter().enumerate() {
        assert!(is_so(cell)?, "cell {number}: {} {:?}", cell.says, cell.making);
    }
    Ok(())
}

static RAW: &str = r#"{"refused":"BufferTooSmall","len":1,"needed":4,"message":{"raw":"00"}}
{"raw":"00"}
{"type":"RTM_NEWACTION","refused":"BufferTooSmall","len":1,"needed":4,"message":{"raw":"00"}}
"#;

// A message that is raw has to have a type.
#[test]
fn raw_messages() {
    let said = "tcmake: line 1: /type: found nothing, wanted a message type, since the message is raw
tcmake: line 2: /type: found nothing, wanted a message type, since the message is raw
";
    assert!(makes(&bare(Making::Checked), RAW.as_bytes(), 1, b"00\n", said));
}

static LOOSE_LINES: &str = r#"{"type":"RTM_NEWQDISC","message":{"header":{"family":"Unspec","index":2,"handle":"1:","parent":"root","info":0},"attributes":[{"Kind":"flower"},{"Options":[{"Flower":{"MplsBos":2}}]}]}}
{"type":"RTM_NEWACTION","message":{"header":{"family":"Unspec"},"attributes":[{"RootExtWarnMsg":"a\u0000"}]}}
"#;

static SETTLED_LINES: &str = "000000000200000000000100ffffffff000000000b000100666c6f77657200000c0002000500440000000000
000000000500050061000000
";

// A number out of its range is masked (2 of one bit is 0), and a warning loses the NULs at its end alone.
#[test]
fn settled_messages() {
    let (lines, want) = (LOOSE_LINES.as_bytes(), SETTLED_LINES.as_bytes());
    let said = "tcmake: line 1: /attributes/1/Options/0/Flower/MplsBos: found 2, settled to 0
tcmake: line 2: /attributes/0/RootExtWarnMsg: found \"a\\u0000\", settled to \"a\"
";
    assert!(makes(&bare(Making::Settled), lines, 0, want, said));
}
