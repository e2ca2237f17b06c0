//! The day of an input.

use crate::user::prelude::*;

use crate::host::io::Read;
use crate::read::input::{Input, MOST_PIECE};
use crate::streams::Stop;
use crate::tc_capture::{Capture, Time};

/// The time of the first packet that has one, in the first MiB of a capture, and the bytes that were read.
pub(crate) fn first_time<R: Read>(reader: &mut R) -> Result<(Input, Option<Time>), Stop> {
    let mut input = Input::begin(reader)?;
    let time = time_in(&mut input, reader)?;
    Ok((input, time))
}

// Reads until a packet has a time.
fn time_in<R: Read>(input: &mut Input, reader: &mut R) -> Result<Option<Time>, Stop> {
    'parts: while input.rest().len() < MOST_PIECE {
        if let Some(time) = time_of(input.rest()) {
            return Ok(Some(time));
        }
        if !input.more(reader)? {
            return Ok(None);
        }
    }
    Ok(time_of(input.rest()))
}

// The first time in the whole pieces at the front of a capture.
fn time_of(bytes: &[u8]) -> Option<Time> {
    let mut capture = Capture::of_first(bytes.split_at(bytes.len().min(4)).0)?;
    let mut rest = bytes;
    for _ in 0..bytes.len() {
        let Ok(piece) = capture.next(rest) else {
            return None;
        };
        if let Ok(Some(packet)) = &piece.packet {
            if packet.time.is_some() {
                return packet.time;
            }
        }
        rest = rest.split_at(piece.used.min(rest.len())).1;
    }
    None
}
