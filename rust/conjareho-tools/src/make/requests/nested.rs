//! `NLA_F_NESTED` on what holds attributes: some kinds of Linux (ets, gate, ct, mpls) refuse a request without it, and all others ignore it.

use crate::forms_kinds::{ACTION_MESSAGE, TC_MESSAGE, TcTables};
use crate::forms_values::{Form, Part, Row, Tables};
use crate::nla_frames::{DefaultNla, NLA_F_NESTED, Nla};
use crate::plan::configs::frames::{framed, frames_of, name_in, type_of};
use crate::tc_capture::MessageType;
use crate::user::prelude::AllocError;

/// `TCA_KIND` and `TCA_ACT_KIND`, which set the kind of a list.
const KIND: u16 = 1;

/// How deep lists are looked at.
const DEPTH: u8 = 16;

/// The message of a request with the flag on each nest that the tables know.
///
/// # Errors
///
/// An [`AllocError`].
pub(crate) fn nested(holds: MessageType, message: &[u8]) -> Result<Vec<u8>, AllocError> {
    // After `struct tcamsg`, and after `struct tcmsg`.
    let (header, form) = match holds {
        MessageType::Action => (4, ACTION_MESSAGE),
        _ => (20, TC_MESSAGE),
    };
    let (Some((front, list)), Some(form)) = (message.split_at_checked(header), last_of(form)) else {
        return Ok(message.to_vec());
    };
    match list_flagged(form, list, DEPTH)? {
        Some(list) => Ok([front, &list].concat()),
        None => Ok(message.to_vec()),
    }
}

// The form of what is after the header of a message.
fn last_of(form: Form) -> Option<Form> {
    let Form::Record(place) = form else { return None };
    match TcTables.part(place) {
        Part::Fields(fields) => fields.last().map(|field| field.form),
        _ => None,
    }
}

// A list of attributes with the flag on each nest; `None` if the form is no list, or the bytes aren't attributes.
fn list_flagged(form: Form, bytes: &[u8], depth: u8) -> Result<Option<Vec<u8>>, AllocError> {
    let (Form::List(place) | Form::InForce(place) | Form::Own(place) | Form::Indexed(place)) = form else {
        return Ok(None);
    };
    let frames = frames_of(bytes)?;
    if depth == 0 || framed(&frames)? != bytes {
        return Ok(None);
    }
    let mut kind = String::new();
    let mut made = Vec::with_capacity(frames.len());
    for frame in &frames {
        if type_of(frame) == KIND && matches!(form, Form::InForce(_) | Form::Own(_)) {
            kind = String::from_utf8_lossy(&name_in(frame.value())?).into_owned();
        }
        let own = match (form, TcTables.part(place)) {
            (Form::Indexed(_), Part::One(form)) => Some(form),
            _ => row_of(place, &kind, type_of(frame)).map(|row| row.form),
        };
        let value = own.map_or(Ok(None), |form| list_flagged(form, frame.value(), depth.saturating_sub(1)))?;
        made.push(value.map_or_else(|| frame.clone(), |value| DefaultNla::new(type_of(frame) | NLA_F_NESTED, value)));
    }
    framed(&made).map(Some)
}

// The row of an attribute of a list: that of the kind, or that of every kind.
fn row_of(place: usize, kind: &str, attribute: u16) -> Option<&'static Row<'static>> {
    let rows = |place| match TcTables.part(place) {
        Part::Rows(_, rows) => rows,
        _ => &[],
    };
    let found = |rows: &'static [Row<'static>]| rows.iter().find(|row| row.word & !NLA_F_NESTED == attribute);
    match TcTables.part(place) {
        Part::Rows(_, own) => found(own),
        Part::Kinds(common, others, kinds) => {
            let own = kinds.iter().find(|it| it.kind == kind).map_or(others, |it| it.rows);
            found(rows(own)).or_else(|| found(rows(common)))
        }
        _ => None,
    }
}

#[cfg(test)]
mod tests {
    use super::*;
    use crate::netlink::attributes::put;

    fn list(attributes: &[(u16, &[u8])]) -> Vec<u8> {
        let mut bytes = Vec::new();
        attributes.iter().for_each(|(kind, value)| put(&mut bytes, *kind, value));
        bytes
    }

    // tc qdisc add dev lo root ets bands 2 quanta 2000 1000, as iproute2 sends it: each nest has the flag.
    #[test]
    fn ets_has_the_flag_on_each_nest() {
        let message = |flag: u16| {
            let band = |n: u32| n.to_ne_bytes();
            let quanta = list(&[(4, &band(2000)), (4, &band(1000))]);
            let options = list(&[(1, &[2]), (3 | flag, &quanta)]);
            [vec![0; 20], list(&[(1, b"ets\0"), (2 | flag, &options)])].concat()
        };
        assert_eq!(nested(MessageType::Tc, &message(0)), Ok(message(NLA_F_NESTED)));
        assert_eq!(nested(MessageType::Tc, &message(NLA_F_NESTED)), Ok(message(NLA_F_NESTED)));
    }

    // The entries of gate, in an action by itself and in a filter.
    #[test]
    fn gate_has_the_flag_on_each_nest() {
        let action = |flag: u16| {
            let entry = list(&[(1, &[0; 4]), (2, &[]), (3, &[1; 4])]);
            let entries = list(&[(1 | flag, &entry)]);
            let options = list(&[(2, &[0; 20]), (5 | flag, &entries)]);
            list(&[(1 | flag, &list(&[(1, b"gate\0"), (2 | flag, &options)]))])
        };
        let by_itself = |flag: u16| [vec![0; 4], list(&[(1 | flag, &action(flag))])].concat();
        assert_eq!(nested(MessageType::Action, &by_itself(0)), Ok(by_itself(NLA_F_NESTED)));
        let filter = |flag: u16| {
            let options = list(&[(2 | flag, &action(flag))]);
            [vec![0; 20], list(&[(1, b"matchall\0"), (2 | flag, &options)])].concat()
        };
        assert_eq!(nested(MessageType::Tc, &filter(0)), Ok(filter(NLA_F_NESTED)));
    }

    #[test]
    fn what_isnt_known_stays() {
        let unknown = [vec![0; 20], list(&[(1, b"none\0"), (2, &list(&[(1, &[1])]))])].concat();
        assert_eq!(nested(MessageType::Tc, &unknown), Ok(unknown.clone()));
        let broken = [vec![0; 20], vec![9, 0, 1]].concat();
        assert_eq!(nested(MessageType::Tc, &broken), Ok(broken.clone()));
        assert_eq!(nested(MessageType::Tc, &[1, 2]), Ok(vec![1, 2]));
    }
}
