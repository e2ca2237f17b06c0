//! Remarks on lines.

use std::fmt;

/// The input of a line.
#[derive(Clone, Copy, PartialEq, Eq, Debug)]
pub enum Source {
    /// The lines of what is wanted.
    Wanted,
    /// The lines of what there is now.
    Now,
}

/// The type of a remark.
#[derive(Clone, Copy, PartialEq, Eq, Debug)]
pub enum RemarkKind {
    /// Something is wrong.
    Complaint,
    /// Nothing is wrong, but something is to be known.
    Notice,
    /// No request is needed.
    Made,
}

/// A remark on a line.
pub struct Remark {
    pub source: Source,
    /// The number of the line, from 1. 0 of an input without lines.
    pub number: u64,
    pub kind: RemarkKind,
    pub text: String,
}

/// Says what is wrong with a line.
pub fn complain(source: Source, number: u64, complaint: &impl fmt::Display, remarks: &mut Vec<Remark>) {
    remarks.push(Remark { source, number, kind: RemarkKind::Complaint, text: complaint.to_string() });
}

/// True if something is wrong.
#[must_use]
pub fn has_complaint(remarks: &[Remark]) -> bool {
    remarks.iter().any(|remark| remark.kind == RemarkKind::Complaint)
}
