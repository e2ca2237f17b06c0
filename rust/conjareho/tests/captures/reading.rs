//! Reading a whole file.

use conjareho::capture::{Capture, CaptureError, Contents, Messages, Packet, Time};

/// A packet of netlink as it was read.
pub struct Found<'a> {
    pub time: Option<Time>,
    pub is_whole: bool,
    pub messages: &'a [u8],
}

/// What was read of a file, where that ended, and how. A hole is a piece that is whole and can't be read.
#[derive(Default)]
pub struct Read<'a> {
    pub packets: Vec<Found<'a>>,
    pub at: usize,
    pub fault: Option<CaptureError>,
    pub holes: Vec<(usize, CaptureError)>,
}

fn found(packet: Packet<'_>) -> Option<Found<'_>> {
    match packet.contents() {
        Ok(Contents::Route { messages, .. }) => Some(Found { time: packet.time, is_whole: packet.is_whole, messages }),
        _ => None,
    }
}

/// Reads a file to its end, or to the first fault.
pub fn read(file: &[u8]) -> Read<'_> {
    let mut read = Read::default();
    let Some(mut capture) = Capture::of_first(file) else {
        return Read { fault: Some(CaptureError::NotPcap), ..read };
    };
    while read.at < file.len() {
        match capture.next(&file[read.at..]) {
            Ok(piece) => {
                match piece.packet {
                    Ok(packet) => read.packets.extend(packet.and_then(found)),
                    Err(fault) => read.holes.push((read.at, fault)),
                }
                read.at += piece.used;
            }
            Err(fault) => {
                read.fault = Some(fault);
                break;
            }
        }
    }
    read
}

/// The fault at the front of a file.
pub fn fault_of(file: &[u8]) -> Option<CaptureError> {
    match Capture::of_first(file) {
        Some(mut capture) => capture.next(file).err(),
        None => Some(CaptureError::NotPcap),
    }
}

/// The types and sequence numbers of messages, and the fault after the last one. After a fault there is nothing.
pub fn messages_in(bytes: &[u8]) -> (Vec<(u16, u32)>, Option<CaptureError>) {
    let mut kinds = Vec::new();
    let mut messages = Messages::new(bytes);
    for message in messages.by_ref() {
        match message {
            Ok(message) => kinds.push((message.kind, message.sequence)),
            Err(fault) => {
                assert!(messages.next().is_none());
                return (kinds, Some(fault));
            }
        }
    }
    (kinds, None)
}
