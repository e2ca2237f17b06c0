//! Captures, printed packet by packet.

use crate::user::prelude::*;

use crate::host::io::{Read, Write};
use crate::read::input::{Gap, Input, next_piece, read_on};
use crate::show::json::{Message, Notice, Origin, Reply, link_in};
use crate::show::output::attributes::learn_name;
use crate::show::output::counts::Packets;
use crate::show::output::printer::Printer;
use crate::streams::Stop;
use crate::tc_capture::{Capture, CaptureError, Contents, Messages, NetlinkMessage, Packet, Piece, Res};

/// Prints the messages of a capture, from its next piece to its end.
///
/// # Errors
///
/// A [`Stop`].
pub fn show_capture<R: Read, W: crate::host::io::Write>(
    printer: &mut Printer<'_>,
    packets: &mut Packets,
    input: &mut Input,
    mut capture: Capture,
    reader: &mut R,
    writer: &mut W,
) -> Result<(), Stop> {
    for _ in 0..u64::MAX {
        let goes_on = show_piece(printer, packets, input, &mut capture, reader, writer)?;
        if !goes_on {
            return Ok(());
        }
    }
    Err(Stop::Read)
}

// Prints the next piece of a capture. Returns false at the end of the capture.
fn show_piece<R: Read, W: crate::host::io::Write>(
    printer: &mut Printer<'_>,
    packets: &mut Packets,
    input: &mut Input,
    capture: &mut Capture,
    reader: &mut R,
    writer: &mut W,
) -> Result<bool, Stop> {
    let at = input.offset();
    match next_piece(capture, input) {
        Ok(piece) => {
            printer.put_piece(packets, &piece, at)?;
            let used = piece.used;
            input.use_up(used);
            printer.write_much(writer)?;
            Ok(true)
        }
        Err(fault) => goes_on(printer, input, fault, reader, writer),
    }
}

// Reads more if the bytes that were read don't hold a piece, or skips a piece that is too long. Returns false at the end of the capture.
fn goes_on<R: Read, W: crate::host::io::Write>(
    printer: &mut Printer<'_>,
    input: &mut Input,
    fault: CaptureError,
    reader: &mut R,
    writer: &mut W,
) -> Result<bool, Stop> {
    let at = input.offset();
    printer.write(writer)?;
    let gap = read_on(input, fault, reader)?;
    printer.put_gap(gap, at)?;
    Ok(is_passed(gap))
}

// The end of a dump (`linux/netlink.h`).
const NLMSG_DONE: u16 = 3;

// True if the capture goes on after the gap.
fn is_passed(gap: Gap) -> bool {
    match gap {
        Gap::More | Gap::Skipped(_) => true,
        Gap::Broken(_) | Gap::Cut(_) | Gap::End => false,
    }
}

// True if all messages of a packet can be read.
fn are_read(bytes: &[u8]) -> bool {
    let mut messages = Messages::new(bytes);
    'each: while let Some(next) = messages.next() {
        if next.is_err() {
            return false;
        }
    }
    true
}

// The packet type, unless it is the usual one (`PACKET_OUTGOING`).
fn other_than_outgoing(packet_type: Option<u16>) -> Option<u16> {
    match packet_type {
        Some(4) | None => None,
        Some(other) => Some(other),
    }
}

impl<'a> Printer<'a> {
    /// Counts and prints a place without a message.
    pub(crate) fn put_hole(&mut self, notice: Notice, at: u64) -> Result<(), AllocError> {
        self.counts.count(&notice);
        self.put_notice(notice, at)
    }

    // Prints a gap in a capture.
    fn put_gap(&mut self, gap: Gap, at: u64) -> Result<(), AllocError> {
        match gap {
            Gap::More | Gap::End => Ok(()),
            Gap::Skipped(length) => self.put_hole(Notice::Skipped(length as u64), at),
            Gap::Broken(fault) => self.put_hole(Notice::Broken(fault), at),
            Gap::Cut(fault) => self.put_hole(Notice::Cut(fault), at),
        }
    }

    fn put_piece(&mut self, packets: &mut Packets, piece: &Piece<'_>, at: u64) -> Result<(), AllocError> {
        match &piece.packet {
            Ok(Some(packet)) => self.put_packet(packets, packet, at.saturating_add(packet.at as u64)),
            Ok(None) => Ok(()),
            Err(fault) => self.put_hole(Notice::Broken(*fault), at),
        }
    }

    // Prints the messages of a packet whose bytes begin at this offset of the input.
    fn put_packet(&mut self, packets: &mut Packets, packet: &Packet<'_>, at: u64) -> Result<(), AllocError> {
        let number = packets.count(packet);
        let held = packet.contents();
        packets.meet(&held);
        self.put_contents(number, packet, &held, at)
    }

    fn put_contents(
        &mut self,
        number: Option<u64>,
        packet: &Packet<'_>,
        contents: &Res<Contents<'_>>,
        at: u64,
    ) -> Result<(), AllocError> {
        match contents {
            Ok(Contents::Route { packet_type, messages }) => {
                self.put_route(number, packet, *packet_type, *messages, at)
            }
            Ok(contents) => {
                self.count_foreign(contents);
                Ok(())
            }
            Err(fault) => self.put_end(*fault, packet.is_whole, at),
        }
    }

    // Prints the route netlink messages of a packet, and where it is cut.
    fn put_route(
        &mut self,
        number: Option<u64>,
        packet: &Packet<'_>,
        packet_type: Option<u16>,
        messages: &[u8],
        at: u64,
    ) -> Result<(), AllocError> {
        let origin = Origin { time: packet.time, packet: number, packet_type: other_than_outgoing(packet_type) };
        let end = at.saturating_add(packet.bytes.len() as u64);
        let begin = end.saturating_sub(messages.len() as u64);
        self.put_messages(origin, messages, packet.is_whole, begin)?;
        self.put_cut(packet.is_whole, messages, end)
    }

    // Prints that the capture holds only the first bytes of a packet, unless a message in them is cut, which is printed with the messages.
    fn put_cut(&mut self, is_whole: bool, messages: &[u8], at: u64) -> Result<(), AllocError> {
        if is_whole {
            return Ok(());
        }
        if !are_read(messages) {
            return Ok(());
        }
        self.put_hole(Notice::Snapped, at)
    }

    // Counts a packet without route netlink messages.
    fn count_foreign(&mut self, contents: &Contents<'_>) {
        match contents {
            Contents::Route { .. } => {}
            Contents::Family(_) => {
                self.counts.other_families = self.counts.other_families.saturating_add(1);
            }
            Contents::LinkType(_) => {
                self.counts.other_links = self.counts.other_links.saturating_add(1);
            }
        }
    }

    /// Prints the netlink messages in bytes at this offset of the input.
    pub(crate) fn put_messages(
        &mut self,
        origin: Origin,
        bytes: &[u8],
        is_whole: bool,
        at: u64,
    ) -> Result<(), AllocError> {
        let mut messages = Messages::new(bytes);
        let mut before = 0u64;
        'each: while let Some(next) = messages.next() {
            self.put_next(origin, &next, is_whole, at.saturating_add(before))?;
            before = bytes.len().saturating_sub(messages.bytes_left()) as u64;
        }
        Ok(())
    }

    // Prints the next message of a packet, or why the messages end early.
    fn put_next(
        &mut self,
        origin: Origin,
        next: &Res<NetlinkMessage<'_>>,
        is_whole: bool,
        at: u64,
    ) -> Result<(), AllocError> {
        match next {
            Ok(message) => self.put_netlink(origin, message),
            Err(fault) => self.put_end(*fault, is_whole, at),
        }
    }

    fn put_netlink(&mut self, origin: Origin, message: &NetlinkMessage<'_>) -> Result<(), AllocError> {
        match Message::in_netlink(origin, message) {
            Some(found) => self.put_message(&found),
            None => self.put_other(origin, message),
        }
    }

    // Prints an answer of the kernel to a traffic control request, or handles another netlink message.
    fn put_other(&mut self, origin: Origin, message: &NetlinkMessage<'_>) -> Result<(), AllocError> {
        match Reply::in_netlink(origin, message) {
            Some(reply) => self.put_reply(&reply),
            None => self.put_alone(origin, message),
        }
    }

    // Prints the end of a dump, or counts another netlink message.
    fn put_alone(&mut self, origin: Origin, message: &NetlinkMessage<'_>) -> Result<(), AllocError> {
        if message.kind == NLMSG_DONE {
            return self.put_done(origin, message);
        }
        self.counts.others = self.counts.others.saturating_add(1);
        self.learn(message)
    }

    // Keeps the name of an interface, if the message has one, and that the kernel speaks.
    fn learn(&mut self, message: &NetlinkMessage<'_>) -> Result<(), AllocError> {
        match link_in(message) {
            Some((index, name)) => {
                self.requests.note_name();
                learn_name(&mut self.links, index, name)
            }
            None => Ok(()),
        }
    }

    // Prints why the messages of a packet end early: it is cut, or broken.
    fn put_end(&mut self, fault: CaptureError, is_whole: bool, at: u64) -> Result<(), AllocError> {
        match fault {
            CaptureError::Short { .. } if !is_whole => self.put_hole(Notice::Cut(fault), at),
            _ => self.put_hole(Notice::Broken(fault), at),
        }
    }
}
