//! The parts of an outline that aren't attributes: time, netlink header.

use crate::user::prelude::*;

use crate::line::Seconds;
use crate::show::json::message::{Message, NetlinkHeader, Origin};
use crate::show::outline::Page;
use crate::tc_capture::MessageType;
use core::str;

/// The text on a page.
#[must_use]
pub fn text_of(page: &Page) -> &str {
    core::str::from_utf8(page.bytes()).unwrap_or("")
}

/// Writes a blank and the word, unless it is empty.
///
/// # Errors
///
/// A [`AllocError`].
pub fn show_word(page: &mut Page, word: &str) -> Result<(), AllocError> {
    if word.is_empty() {
        return Ok(());
    }
    page.blank()?;
    page.text(word)
}

/// Writes the time and the netlink header that the line of a message begins with.
///
/// # Errors
///
/// A [`AllocError`].
pub fn begin_message(page: &mut Page, found: &Message<'_>) -> Result<(), AllocError> {
    show_time_of(page, &found.origin)?;
    show_netlink(page, found)
}

/// Writes the netlink header of a message: type, flags in words, sequence number, and the port unless it is 0. For a message
/// without a netlink header, `tc` or `action`.
///
/// # Errors
///
/// A [`AllocError`].
pub fn show_netlink(page: &mut Page, found: &Message<'_>) -> Result<(), AllocError> {
    match &found.header {
        Some(header) => {
            page.text(header.name)?;
            show_numbers(page, header)
        }
        None => page.text(match found.holds {
            MessageType::Tc => "tc",
            MessageType::Action => "action",
        }),
    }
}

/// Writes the flags, the sequence number and the port of a netlink header.
///
/// # Errors
///
/// A [`AllocError`].
pub fn show_numbers(page: &mut Page, header: &NetlinkHeader) -> Result<(), AllocError> {
    show_flags(page, header)?;
    page.text(" seq ")?;
    page.number(u64::from(header.sequence))?;
    if header.port == 0 {
        return Ok(());
    }
    page.text(" port ")?;
    page.number(u64::from(header.port))
}

// Writes flags in words, and the bits that have no word in hex.
fn show_flags(page: &mut Page, header: &NetlinkHeader) -> Result<(), AllocError> {
    let mut rest = header.flags;
    for words in [FLAGS.as_slice(), flags_of(header.name)] {
        for (bit, word) in words {
            if header.flags & bit != 0 {
                page.blank()?;
                page.text(word)?;
                rest &= !bit;
            }
        }
    }
    if rest == 0 {
        return Ok(());
    }
    page.text(" 0x")?;
    for shift in [12u16, 8, 4, 0] {
        page.hex_digit(rest >> shift)?;
    }
    Ok(())
}

// Flags of every netlink message (`NLM_F_REQUEST` to `NLM_F_DUMP_FILTERED`, `linux/netlink.h`).
const FLAGS: [(u16, &str); 6] =
    [(0x01, "request"), (0x02, "multi"), (0x04, "ack"), (0x08, "echo"), (0x10, "dump_intr"), (0x20, "dump_filtered")];

// Flags of `RTM_NEW*`, `RTM_GET*` and `RTM_DEL*` messages, of `RTM_DELACTION` (`NLM_F_ROOT` flushes) and of `NLMSG_ERROR`.
const MAKING: [(u16, &str); 4] = [(0x400, "create"), (0x200, "excl"), (0x100, "replace"), (0x800, "append")];

const ASKING: [(u16, &str); 3] = [(0x100, "root"), (0x200, "match"), (0x400, "atomic")];

const DELETING: [(u16, &str); 2] = [(0x100, "nonrec"), (0x200, "bulk")];

const FLUSHING: [(u16, &str); 1] = [(0x100, "root")];

const ANSWERING: [(u16, &str); 2] = [(0x100, "capped"), (0x200, "ack_tlvs")];

fn flags_of(name: &str) -> &'static [(u16, &'static str)] {
    if name == "NLMSG_ERROR" {
        &ANSWERING
    } else if name == "RTM_DELACTION" {
        &FLUSHING
    } else if name.starts_with("RTM_NEW") {
        &MAKING
    } else if name.starts_with("RTM_GET") {
        &ASKING
    } else {
        &DELETING
    }
}

/// Writes the time of a packet and a blank, if the time is known.
///
/// # Errors
///
/// A [`AllocError`].
pub fn show_time_of(page: &mut Page, origin: &Origin) -> Result<(), AllocError> {
    if let Some(time) = &origin.time {
        page.text(&Seconds(*time).to_string())?;
        page.blank()?;
    }
    Ok(())
}
