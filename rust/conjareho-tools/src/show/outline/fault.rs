//! The line of a fault.

use crate::user::prelude::*;

use crate::nla_frames::DecodeError;
use crate::show::outline::page::Page;
use crate::tc_faults::Fault;

// Writes a fault's name, its numbers, its offset and its path.
pub(crate) fn show(fault: &Fault, page: &mut Page) -> Result<(), AllocError> {
    page.text("refused ")?;
    page.text(fault.error.name())?;
    show_numbers(page, &fault.error)?;
    page.text(" offset ")?;
    page.number(fault.offset as u64)?;
    page.text(" path ")?;
    let mut path = String::new();
    fault.path.put(&mut path)?;
    page.text(path.as_str())
}

// Writes the numbers of a fault, each after its name.
fn show_numbers(page: &mut Page, error: &DecodeError) -> Result<(), AllocError> {
    match error {
        DecodeError::BufferTooSmall { len, needed } | DecodeError::SelectorShort { len, needed } => {
            show_counts(page, " len ", *len, " needed ", *needed)
        }
        DecodeError::FrameHeaderShort { left } => show_count(page, " left ", *left),
        DecodeError::FrameTooLong { length, left } => show_counts(page, " length ", *length, " left ", *left),
        DecodeError::FrameTooShort { length } => show_count(page, " length ", *length),
        DecodeError::WrongLength { expected, got } => show_counts(page, " expected ", *expected, " got ", *got),
        DecodeError::XstatsShort { len } => show_count(page, " len ", *len),
        DecodeError::NotUtf8 | DecodeError::MissingKind | DecodeError::DuplicateKind | DecodeError::OutOfMemory => {
            Ok(())
        }
    }
}

fn show_count(page: &mut Page, name: &str, n: usize) -> Result<(), AllocError> {
    page.text(name)?;
    page.number(n as u64)
}

fn show_counts(page: &mut Page, name: &str, n: usize, other: &str, m: usize) -> Result<(), AllocError> {
    show_count(page, name, n)?;
    show_count(page, other, m)
}
