//! A run over an input.

use std::io::{Read, Write};

use crate::read::input::Input;
use crate::show::output::{Options, Packets, Printer, is_hex_text, show_capture, show_lines};
use crate::streams::{Ended as End, Reader, Stop, Writer, shown_reason};
use crate::tc_capture::Capture;

/// How a run ended.
#[derive(Clone, Copy)]
pub struct Ended {
    /// Why it ended before the end of its input, if it did.
    pub outcome: Result<(), Stop>,
    /// True if a message was refused, or the input is broken or cut.
    pub has_refused: bool,
    /// Counts of the capture's packets.
    pub packets: Packets,
}

impl Ended {
    /// An end before anything was read.
    #[must_use]
    pub fn early(stop: Stop) -> Ended {
        Ended { outcome: Err(stop), ..Ended::well() }
    }

    /// The end of a run that has nothing to read.
    #[must_use]
    pub fn well() -> Ended {
        Ended { outcome: Ok(()), has_refused: false, packets: Packets::new() }
    }

    /// True if nothing more can be written, or no memory is left.
    #[must_use]
    pub fn stops_output(&self) -> bool {
        matches!(self.outcome, Err(Stop::Closed | Stop::Write | Stop::NoMemory))
    }

    /// The exit status.
    #[must_use]
    pub fn status(&self) -> u8 {
        End { outcome: self.outcome, has_refused: self.has_refused }.status()
    }

    /// The end of two runs: the one with the larger status, the first if it is the same.
    #[must_use]
    pub fn or_worse(self, other: Ended) -> Ended {
        if other.status() > self.status() { other } else { self }
    }
}

/// Prints the messages of an input, and the summary. Text is written before each read, and at the end.
pub fn run<R: Read, W: Write>(options: &Options<'_>, reader: &mut Reader<R>, writer: &mut Writer<W>) -> Ended {
    let mut printer = Printer::new(options);
    let mut packets = Packets::new();
    let shown = show(&mut printer, &mut packets, reader, writer).and_then(|()| {
        printer.put_summary()?;
        if packets.are_foreign() { Err(Stop::NoRoute) } else { Ok(()) }
    });
    let outcome = match shown {
        Ok(()) => printer.write(writer),
        // Nothing is written of an input that is no capture and no hex.
        Err(Stop::NoCapture) => Err(Stop::NoCapture),
        Err(stop) => {
            let _ = printer.write(writer);
            Err(stop)
        }
    };
    let outcome = outcome.map_err(|stop| shown_reason(reader, writer, stop));
    Ended { outcome, has_refused: printer.counts.has_refused(), packets }
}

/// Prints the messages of the next of several inputs, and no summary.
pub fn run_next<R: Read, W: Write>(printer: &mut Printer<'_>, reader: &mut Reader<R>, writer: &mut Writer<W>) -> Ended {
    let mut packets = Packets::new();
    let shown = show(printer, &mut packets, reader, writer).and_then(|()| printer.write(writer));
    let outcome = shown.and_then(|()| if packets.are_foreign() { Err(Stop::NoRoute) } else { Ok(()) });
    let outcome = outcome.map_err(|stop| shown_reason(reader, writer, stop));
    Ended { outcome, has_refused: printer.counts.has_refused(), packets }
}

// Prints the messages of a capture, or of lines of hex.
fn show<R: Read, W: Write>(
    printer: &mut Printer<'_>,
    packets: &mut Packets,
    reader: &mut R,
    writer: &mut W,
) -> Result<(), Stop> {
    let mut input = Input::begin(reader)?;
    match Capture::of_first(input.first()) {
        Some(capture) => show_capture(printer, packets, &mut input, capture, reader, writer),
        None if is_hex_text(input.first()) => show_lines(printer, &mut input, reader, writer),
        None => Err(Stop::NoCapture),
    }
}
