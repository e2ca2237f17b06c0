//! Messages that are to be written.

use std::io::Write;

use super::encoding::{Encoding, FILE_HEADER, MOST_MESSAGES, Unwritable, packet_header, pad, with_header};
use super::netlink::{NetlinkHeader, PacketOf};
use crate::streams::{Stop, write_all};

// A digit of hex.
fn digit(half: u8) -> u8 {
    const DIGITS: &[u8; 16] = b"0123456789abcdef";
    DIGITS.get(usize::from(half)).copied().unwrap_or_default()
}

/// Messages that aren't written yet.
pub struct Output {
    encoding: Encoding,
    // The packet that takes the next message if it is its own, and its messages with their netlink headers. None before the first.
    packet: Option<(PacketOf, Vec<u8>)>,
    // What is to be written.
    bytes: Vec<u8>,
}

impl Output {
    /// An output without messages.
    #[must_use]
    pub fn new(encoding: Encoding) -> Output {
        let bytes = if encoding == Encoding::Capture { FILE_HEADER.to_vec() } else { Vec::new() };
        Output { encoding, packet: None, bytes }
    }

    /// Appends a message.
    ///
    /// # Errors
    ///
    /// The message can't be written so.
    pub fn put(&mut self, given: &NetlinkHeader, bytes: &[u8]) -> Result<(), Unwritable> {
        match self.encoding {
            Encoding::Bare => self.put_hex(bytes),
            Encoding::Hex => self.put_hex(&with_header(given, bytes)?),
            Encoding::Stream => {
                let mut whole = with_header(given, bytes)?;
                pad(&mut whole);
                self.bytes.extend(whole);
            }
            Encoding::Capture => self.put_in_packet(given, with_header(given, bytes)?)?,
        }
        Ok(())
    }

    fn put_hex(&mut self, bytes: &[u8]) {
        self.bytes.reserve(bytes.len().saturating_mul(2));
        for byte in bytes {
            self.bytes.extend([digit(byte >> 4), digit(byte & 15)]);
        }
        self.bytes.push(b'\n');
    }

    // Appends a message to its packet. If that is a new one, the packet before it ends.
    fn put_in_packet(&mut self, given: &NetlinkHeader, whole: Vec<u8>) -> Result<(), Unwritable> {
        // A packet that can't be ended isn't begun.
        packet_header(given.packet.time, whole.len(), given.packet.packet_type)?;
        if whole.len() > MOST_MESSAGES {
            return Err(Unwritable::TooLong);
        }
        if let Some((packet, messages)) = &mut self.packet {
            let len = messages.len().next_multiple_of(4);
            if packet.is_same(&given.packet) && len.saturating_add(whole.len()) <= MOST_MESSAGES {
                pad(messages);
                messages.extend(whole);
                return Ok(());
            }
        }
        self.end();
        self.packet = Some((given.packet, whole));
        Ok(())
    }

    /// Ends the packet, if any.
    pub fn end(&mut self) {
        if let Some((packet, messages)) = self.packet.take() {
            // Each message was looked at when it was put.
            if let Ok(header) = packet_header(packet.time, messages.len(), packet.packet_type) {
                self.bytes.extend(header);
                self.bytes.extend(messages);
            }
        }
    }

    /// Writes all so far, but for a packet that isn't ended.
    ///
    /// # Errors
    ///
    /// As [`write_all`].
    pub fn write<W: Write>(&mut self, writer: &mut W) -> Result<(), Stop> {
        let outcome = write_all(writer, &self.bytes);
        self.bytes.clear();
        outcome
    }
}
