//! Counts of a run: of its messages, of a capture's packets, and the summary by type, kind and fault.

use crate::user::prelude::*;

use ::serde::Serialize;

use crate::show::json::{Notice, show_word};
use crate::show::outline::Page;
use crate::tc_capture::{Contents, Link, Packet, Res};
use core::fmt;

/// Counts of a run, each at most `u64::MAX`.
#[derive(Clone, Copy, Default, Serialize)]
pub struct Counts {
    /// Messages that were printed, refused ones too.
    pub(crate) shown: u64,
    /// Answers of the kernel that were printed.
    pub(crate) answers: u64,
    /// Messages that the codec refused.
    pub(crate) refused: u64,
    /// Traffic control messages, and answers to them, that the filter left out.
    pub(crate) left_out: u64,
    /// Other netlink messages.
    pub(crate) others: u64,
    /// Packets of a link type other than netlink's.
    pub(crate) other_links: u64,
    /// Packets of a netlink family other than route netlink.
    pub(crate) other_families: u64,
    /// Packets that the capture holds in part, and a capture that ends within a piece.
    pub(crate) cut: u64,
    /// Packets and lines over the limit.
    pub(crate) skipped: u64,
    /// Places where a capture, a packet or a line can't be read.
    pub(crate) broken: u64,
}

impl Counts {
    /// Counts a place without a message.
    pub(crate) fn count(&mut self, notice: &Notice) {
        match notice {
            Notice::Cut(_) | Notice::Snapped => self.cut = self.cut.saturating_add(1),
            Notice::Skipped(_) => self.skipped = self.skipped.saturating_add(1),
            Notice::Broken(_) | Notice::NoHex => self.broken = self.broken.saturating_add(1),
        }
    }

    /// Counts a refused message.
    pub(crate) fn count_refused(&mut self) {
        self.refused = self.refused.saturating_add(1);
    }

    /// True if something was refused, broken or cut.
    #[must_use]
    pub fn has_refused(&self) -> bool {
        self.refused != 0 || self.broken != 0 || self.cut != 0
    }
}

/// Counts of a capture's packets, and what the first foreign ones hold.
#[derive(Clone, Copy, Default)]
pub struct Packets {
    /// Packets so far.
    pub count: u64,
    /// There are packets of route netlink.
    has_route: bool,
    /// The first link type other than netlink's.
    link: Option<u32>,
    /// The first netlink family other than route netlink.
    family: Option<u16>,
}

impl Packets {
    /// No packets yet.
    #[must_use]
    pub fn new() -> Packets {
        Packets::default()
    }

    /// Counts a packet and returns its number (from 1), or `None` for a stream, which has no packets.
    pub(crate) fn count(&mut self, packet: &Packet<'_>) -> Option<u64> {
        if matches!(packet.link, Link::Plain) {
            return None;
        }
        self.count = self.count.saturating_add(1);
        Some(self.count)
    }

    /// Counts the contents of a packet.
    pub(crate) fn meet(&mut self, contents: &Res<Contents<'_>>) {
        match contents {
            Ok(Contents::Route { .. }) => self.has_route = true,
            Ok(Contents::Family(number)) => {
                self.family.get_or_insert(*number);
            }
            Ok(Contents::LinkType(number)) => {
                self.link.get_or_insert(*number);
            }
            Err(_) => {}
        }
    }

    /// True if there are packets of another link type or netlink family, and none of route netlink.
    #[must_use]
    pub fn are_foreign(&self) -> bool {
        !self.has_route && (self.link.is_some() || self.family.is_some())
    }
}

/// The complaint about a capture without route netlink.
impl fmt::Display for Packets {
    fn fmt(&self, f: &mut fmt::Formatter<'_>) -> fmt::Result {
        write!(f, "no route netlink in {} packets", self.count)?;
        if let Some(link) = self.link {
            write!(f, ", but link type {link}")?;
        }
        if let Some(family) = self.family {
            write!(f, ", but netlink family {family}")?;
        }
        Ok(())
    }
}

// The most rows; other types and kinds share one more row.
const MOST_ROWS: usize = 256;

// The longest kind that has a row of its own, in bytes of its text.
const MOST_KIND: usize = 64;

/// A row: messages of a type and a kind.
#[derive(Serialize)]
pub(crate) struct Count {
    /// Name of the message type. Empty for the shared row, and without a netlink header.
    #[serde(rename = "type")]
    rtm: &'static str,
    /// The kind as outlines have it.
    kind: String,
    count: u64,
}

/// A row: messages that are refused for a fault.
#[derive(Serialize)]
pub(crate) struct FaultCount {
    name: &'static str,
    count: u64,
}

/// The summary of a run.
#[derive(Serialize)]
pub(crate) struct Summary {
    messages: Vec<Count>,
    faults: Vec<FaultCount>,
}

/// The JSON line of a summary.
#[derive(Serialize)]
pub(crate) struct SummaryLine<'a> {
    pub(crate) summary: &'a Summary,
    pub(crate) all: &'a Counts,
}

impl Summary {
    pub(crate) fn new() -> Summary {
        Summary { messages: Vec::new(), faults: Vec::new() }
    }

    /// Counts a message of this type and kind.
    pub(crate) fn count_message(&mut self, rtm: &'static str, kind: &str) -> Result<(), AllocError> {
        if self.is_counted(rtm, kind) {
            return Ok(());
        }
        if self.messages.len() < MOST_ROWS && kind.len() <= MOST_KIND {
            return self.add(rtm, kind);
        }
        self.count_other()
    }

    // Counts a message in the shared row.
    fn count_other(&mut self) -> Result<(), AllocError> {
        if self.is_counted("", "others") {
            return Ok(());
        }
        self.add("", "others")
    }

    // Counts a message in the row of its type and kind; false if there is no such row.
    fn is_counted(&mut self, rtm: &str, kind: &str) -> bool {
        for row in &mut self.messages {
            if row.rtm == rtm && row.kind.as_str() == kind {
                row.count = row.count.saturating_add(1);
                return true;
            }
        }
        false
    }

    // Adds a row with one message.
    fn add(&mut self, rtm: &'static str, kind: &str) -> Result<(), AllocError> {
        let kind = fallible::text(kind)?;
        Ok(self.messages.try_push(Count { rtm, kind, count: 1 })?)
    }

    /// Counts a fault.
    pub(crate) fn count_fault(&mut self, name: &'static str) -> Result<(), AllocError> {
        for row in &mut self.faults {
            if row.name == name {
                row.count = row.count.saturating_add(1);
                return Ok(());
            }
        }
        Ok(self.faults.try_push(FaultCount { name, count: 1 })?)
    }

    /// Writes the summary as lines.
    pub(crate) fn show(&self, all: &Counts, page: &mut Page) -> Result<(), AllocError> {
        page.text("summary")?;
        for row in &self.messages {
            show_row(page, row.rtm, row.kind.as_str(), row.count)?;
        }
        for row in &self.faults {
            show_row(page, "refused", row.name, row.count)?;
        }
        show_counts(page, all)
    }
}

fn show_row(page: &mut Page, first: &str, second: &str, count: u64) -> Result<(), AllocError> {
    page.begin(1)?;
    page.number(count)?;
    show_word(page, first)?;
    show_word(page, second)
}

fn show_counts(page: &mut Page, all: &Counts) -> Result<(), AllocError> {
    for (name, count) in [
        ("messages", all.shown),
        ("answers", all.answers),
        ("refused", all.refused),
        ("left out", all.left_out),
        ("other netlink messages", all.others),
        ("packets of other link types", all.other_links),
        ("packets of other netlink families", all.other_families),
        ("cut", all.cut),
        ("skipped", all.skipped),
        ("broken", all.broken),
    ] {
        show_row(page, name, "", count)?;
    }
    page.end()
}
