//! Known differences, each with its reason. `docs/DIFFERENCES.md` has the same.

/// What one crate made of some bytes: the text of the value, its length, and the bytes that it is written as; or why it was refused.
pub type Made = Result<Value, String>;

/// A value that was read: its text, its length, and its bytes unless writing it panicked.
#[derive(PartialEq)]
pub struct Value {
    pub text: String,
    pub len: usize,
    pub bytes: Option<Vec<u8>>,
}

/// What becomes of messages: no difference, or a known one.
pub const REASONS: [&str; 7] = [
    "the same",
    "options of an unknown kind, which the original writes into another TCA_OPTIONS",
    "names of address families",
    "statistics of fq_codel have a length of 40 or 28",
    "a selector with too few or too many keys",
    "writing panics on a value that doesn't fit",
    "refused by both",
];

/// The text of our value as the original writes it.
fn as_theirs(text: &str) -> String {
    let text = text.replace("DefaultNla { word: ", "DefaultNla { kind: ");
    let (mut out, mut rest) = (String::new(), text.as_str());
    while let Some(at) = rest.find("OptionsRaw(") {
        let held = &rest[at + "OptionsRaw(".len()..];
        let end = held.find("] })").map_or(held.len(), |end| end + 3);
        out += &format!("{}Options([Other({})]", &rest[..at], &held[..end]);
        rest = &held[end..];
    }
    out + rest
}

/// The text without the name of an address family.
fn without_family(text: &str) -> String {
    let (before, family) = text.split_once("family: ").unwrap_or((text, ""));
    let after = family.find([',', '}']).map_or("", |end| &family[end..]);
    format!("{before}{after}")
}

/// Whether theirs are our bytes with so many more headers of attributes, each around one of our attributes.
fn has_more_headers(ours: &[u8], theirs: &[u8], count: usize) -> bool {
    if count == 0 {
        return ours == theirs;
    }
    let at = ours.iter().zip(theirs).take_while(|(ours, theirs)| ours == theirs).count();
    let length = |bytes: &[u8]| bytes.get(at..)?.first_chunk().map(|bytes| u16::from_le_bytes(*bytes));
    let holds = |(ours, theirs): (u16, u16)| u32::from(ours).next_multiple_of(4) + 4 == u32::from(theirs);
    length(ours).zip(length(theirs)).is_some_and(holds)
        && theirs.get(at + 4..).is_some_and(|rest| has_more_headers(&ours[at..], rest, count - 1))
}

/// What became of a message, as a place in [`REASONS`]; nothing if it differs for another reason.
pub fn reason(ours: &Made, theirs: &Made) -> Option<usize> {
    let (ours, theirs) = match (ours, theirs) {
        (Ok(ours), Ok(theirs)) => (ours, theirs),
        (Err(_), Err(_)) => return Some(6),
        _ => return None,
    };
    let text = as_theirs(&ours.text);
    if without_family(&text) != without_family(&theirs.text) {
        return None;
    }
    let is_family = text != theirs.text;
    let has_selector = text.contains("Selector(");
    let (Some(bytes), Some(their_bytes)) = (&ours.bytes, &theirs.bytes) else {
        return Some(if has_selector { 4 } else { 5 });
    };
    // The original puts options of an unknown kind into another TCA_OPTIONS.
    let raw = ours.text.matches("OptionsRaw(").count();
    if raw > 0 && has_more_headers(bytes, their_bytes, raw) {
        return Some(1);
    }
    if bytes != their_bytes || ours.len != theirs.len {
        let has_stats = text.contains("FqCodel(") && ours.len < theirs.len;
        return if has_selector {
            Some(4)
        } else if has_stats {
            Some(3)
        } else {
            None
        };
    }
    Some(if is_family { 2 } else { 0 })
}
