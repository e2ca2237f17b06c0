//! The way to a byte of a message, through the attributes that contain it.

use crate::user::prelude::*;

use crate::forms_attributes::attributes_shown::{Frame, front, kind_in, own_kind};
use crate::forms_json::{Field, Form, Part, Tables};
use crate::forms_kinds::TcTables;
use crate::paths::path::{Path, put_place};

// The way to a byte.
pub(crate) struct Way<'a> {
    // The path, the form and the kind of the innermost list that contains the byte.
    path: Path,
    list: Form,
    kind: &'a str,
    // How many attributes of the list come before the byte.
    passed: u64,
    // The rest of the list, and how many bytes of it come before the byte.
    left: &'a [u8],
    before: usize,
    // True if the frame at the byte is at fault: malformed, or with a wrong value.
    to_fault: bool,
}

// A step on the way.
#[derive(Clone, Copy)]
pub(crate) enum Next {
    // An attribute begins at the byte.
    Here,
    // None does.
    Nowhere,
    On,
}

fn kind_after<'a>(list: Form, kind: &'a str, frame: &Frame<'a>) -> &'a str {
    match list {
        Form::InForce(_) => match kind_in(true, frame) {
            Some(own) => own,
            None => kind,
        },
        _ => kind,
    }
}

fn kind_within<'a>(list: Form, kind: &'a str, bytes: &'a [u8]) -> &'a str {
    match list {
        Form::Own(_) => own_kind(bytes),
        _ => kind,
    }
}

// True for a kind, also if it isn't UTF-8.
fn is_kind(list: Form, frame: &Frame<'_>) -> bool {
    matches!(list, Form::InForce(_) | Form::Own(_)) && frame.word % 0x4000 == 1
}

fn is_list(form: Form) -> bool {
    matches!(form, Form::List(_) | Form::InForce(_) | Form::Own(_) | Form::Indexed(_))
}

// From the path of an attribute in a list of this form to that of the list in it.
fn enter_list(path: &mut Path, list: Form) -> Result<(), AllocError> {
    if matches!(list, Form::Indexed(_)) {
        path.pointer.try_push_str("/attributes")?;
    }
    Ok(())
}

impl<'a> Way<'a> {
    // One step: into the attribute at the front of the rest, or past it.
    fn next(&mut self) -> Result<Next, AllocError> {
        match front(self.left) {
            Some((frame, after)) => {
                self.kind = kind_after(self.list, self.kind, &frame);
                self.pass(&frame, after)
            }
            None => self.stop(),
        }
    }

    // Without an attribute at the front of the rest.
    fn stop(&mut self) -> Result<Next, AllocError> {
        if self.to_fault && self.before == 0 {
            self.path.count(self.passed)?;
            return Ok(Next::Here);
        }
        Ok(Next::Nowhere)
    }

    fn pass(&mut self, frame: &Frame<'a>, after: &'a [u8]) -> Result<Next, AllocError> {
        if self.before == 0 {
            self.end_at(frame)?;
            return Ok(Next::Here);
        }
        if self.before < 4 {
            return Ok(Next::Nowhere);
        }
        let within = self.before - 4;
        if within < frame.value.len() {
            let form = put_place(&mut self.path, self.kind, self.passed, frame, self.list)?;
            return self.enter(form, frame.value, within);
        }
        let beyond = within - frame.value.len();
        if beyond < frame.pad.len() {
            return Ok(Next::Nowhere);
        }
        self.passed += 1;
        self.left = after;
        self.before = beyond - frame.pad.len();
        Ok(Next::On)
    }

    // At the attribute at the front of the rest.
    fn end_at(&mut self, frame: &Frame<'a>) -> Result<(), AllocError> {
        if self.to_fault && is_kind(self.list, frame) {
            self.path.number(self.passed)?;
            return self.path.call("Kind");
        }
        put_place(&mut self.path, self.kind, self.passed, frame, self.list)?;
        Ok(())
    }

    // Into a value of this form, with the path of its attribute.
    fn enter(&mut self, form: Form, value: &'a [u8], before: usize) -> Result<Next, AllocError> {
        if !is_list(form) {
            return Ok(Next::Nowhere);
        }
        enter_list(&mut self.path, self.list)?;
        self.kind = kind_within(form, self.kind, value);
        self.list = form;
        self.passed = 0;
        self.left = value;
        self.before = before;
        Ok(Next::On)
    }
}

// The path at the end of the way, of at most so many steps.
fn along(start: Way<'_>, most: usize) -> Result<Option<Path>, AllocError> {
    let mut way = start;
    for _step in 0..most {
        match way.next()? {
            Next::Here => {
                let Way { path, .. } = way;
                return Ok(Some(path));
            }
            Next::Nowhere => return Ok(None),
            Next::On => {}
        }
    }
    Ok(None)
}

// The form of the attributes among fields.
fn attributes_in(fields: &[Field<'static>]) -> Form {
    match fields.split_first() {
        Some((field, _)) if field.name == "attributes" => field.form,
        Some((_, others)) => attributes_in(others),
        None => Form::Hex,
    }
}

// The form of the attributes in a message of this form.
fn list_of(form: Form) -> Form {
    match form {
        Form::Record(place) => match TcTables.part(place) {
            Part::Fields(fields) => attributes_in(fields),
            _ => Form::Hex,
        },
        _ => Form::Hex,
    }
}

// The bytes after a header.
fn after_header(bytes: &[u8], header: usize) -> &[u8] {
    if bytes.len() < header {
        return &[];
    }
    let (_, left) = bytes.split_at(header);
    left
}

fn path_to_list() -> Result<Path, AllocError> {
    let mut pointer = String::new();
    pointer.try_push_str("/attributes")?;
    Ok(Path { names: String::new(), pointer })
}

// The way to a byte of a message, after its header.
fn way_in(to_fault: bool, form: Form, header: usize, bytes: &[u8], offset: usize) -> Result<Way<'_>, AllocError> {
    Ok(Way {
        path: path_to_list()?,
        list: list_of(form),
        kind: "",
        passed: 0,
        left: after_header(bytes, header),
        before: offset - header,
        to_fault,
    })
}

/// The path of the attribute that begins at an offset in a message of this form (`TC_MESSAGE` or `ACTION_MESSAGE` of `forms_kinds`), after a header of this
/// length. `None` if no attribute begins there. It takes time in proportion to the attributes before it.
///
/// # Errors
///
/// A [`AllocError`].
pub fn path_in(form: Form, header: usize, bytes: &[u8], offset: usize) -> Result<Option<Path>, AllocError> {
    if offset < header {
        return Ok(None);
    }
    let way = way_in(false, form, header, bytes, offset)?;
    along(way, bytes.len())
}

/// The path of the frame at fault that begins at an offset, like [`path_in`]: a malformed frame has its number in its list.
///
/// # Errors
///
/// A [`AllocError`].
pub fn fault_path_in(form: Form, header: usize, bytes: &[u8], offset: usize) -> Result<Option<Path>, AllocError> {
    if offset < header {
        return Ok(None);
    }
    let way = way_in(true, form, header, bytes, offset)?;
    along(way, bytes.len())
}
