//! Captures that are cut, and that are changed.

use crate::user::prelude::*;

use crate::show::program::options::OutputFormat;
use crate::tests::data::{FORMATS, Format};
use crate::tests::shown::show::runs::{FORMS, all_in, file_of_first, is_clean, is_front, shown};
use crate::user::Fail;

// What a run says of a place where a capture is cut, up to the numbers.
fn note_of(form: OutputFormat) -> &'static [u8] {
    match form {
        OutputFormat::Lines(_) | OutputFormat::Outline => b"byte ",
        OutputFormat::Json => b"{\"note\":\"truncated: ",
    }
}

// True of an answer to messages, and at most a note on a cut after it.
fn is_answer_and_cut(form: OutputFormat, written: &[u8], answer: &[u8]) -> bool {
    match written.split_at_checked(answer.len()) {
        Some((front, rest)) => front == answer && (rest.is_empty() || is_front(note_of(form), rest)),
        None => false,
    }
}

// True if of the front of a file an answer is shown, and a note where it is cut.
fn is_answered(form: OutputFormat, front: &[u8], answer: &[u8]) -> bool {
    let run = shown(&all_in(form), front);
    let is_cut = run.written.len() > answer.len();
    is_answer_and_cut(form, &run.written, answer) && run.status == u8::from(is_cut)
}

// True if wherever a file is cut the answer to its first message is shown, if that is whole, and a note.
fn are_answered(form: OutputFormat, file: &[u8], first: usize, answer: &[u8]) -> bool {
    for end in (4..file.len()).step_by(11) {
        let (front, _) = file.split_at(end);
        let answer: &[u8] = if end < first { &[] } else { answer };
        if !is_answered(form, front, answer) {
            return false;
        }
    }
    true
}

// The same, where so many bytes are those of the first message.
fn is_cut_anywhere(form: OutputFormat, file: &[u8], first: usize) -> bool {
    let (front, _) = file.split_at(first.min(file.len()));
    let answer = shown(&all_in(form), front).written;
    !answer.is_empty() && are_answered(form, file, first, &answer)
}

// The same of a file of two messages in a format.
fn is_format_cut(form: OutputFormat, format: Format, is_big: bool) -> Result<bool, Fail> {
    let first = file_of_first(1, format, is_big)?.len();
    let file = file_of_first(2, format, is_big)?;
    Ok(is_cut_anywhere(form, &file, first))
}

#[test]
fn each_cut() -> Result<(), Fail> {
    for (format, is_big) in FORMATS {
        for form in FORMS {
            assert!(is_format_cut(form, format, is_big)?, "{format:?}");
        }
    }
    Ok(())
}

fn change(file: &mut [u8], at: usize, mask: u8) {
    if let Some(place) = file.get_mut(at) {
        *place ^= mask;
    }
}

// Whether a run over a file with a changed byte ends with one of the statuses of such, and writes no control bytes.
fn ends(form: OutputFormat, file: &mut [u8], at: usize, mask: u8) -> bool {
    change(file, at, mask);
    let run = shown(&all_in(form), file);
    change(file, at, mask);
    run.status <= 2 && is_clean(form, &run.written)
}

// The same of each fifth byte.
fn each_ends(file: &mut [u8]) -> bool {
    for at in (0..file.len()).step_by(5) {
        if !ends(OutputFormat::Outline, file, at, 0x1a) || !ends(OutputFormat::Json, file, at, 0x80) {
            return false;
        }
    }
    true
}

// The same of a file of a message in a format.
fn is_format_changed(format: Format, is_big: bool) -> Result<bool, Fail> {
    let mut file = file_of_first(1, format, is_big)?;
    Ok(each_ends(&mut file))
}

#[test]
fn each_byte_changed() -> Result<(), Fail> {
    for (format, is_big) in FORMATS {
        assert!(is_format_changed(format, is_big)?, "{format:?}");
    }
    Ok(())
}
