//! Prints messages, notices and the summary.

use crate::user::prelude::*;

use crate::host::io::Write;
use crate::show::columns::LinkNames;
use crate::show::json::{Message, Notice, NoticeLine, json_of, safe_text, text_of};
use crate::show::lines::Requests;
use crate::show::outline::{Layout, Page};
use crate::show::output::counts::{Counts, Summary, SummaryLine};
use crate::show::output::first_lines::FirstLines;
use crate::show::output::options::{Options, OutputFormat};
use crate::show::output::output::Output;
use crate::streams::Stop;
use std::collections::BTreeMap;

// The output is written once it holds this many bytes.
const MOST_KEPT: usize = 65_536;

/// Prints messages, and counts them.
pub struct Printer<'a> {
    pub(crate) options: &'a Options<'a>,
    /// The last page, whose memory the next one takes.
    pub(crate) page: Option<Page>,
    /// Text that isn't written yet.
    pub(crate) output: Output,
    pub counts: Counts,
    /// The last name of each interface that the kernel named so far.
    pub(crate) links: LinkNames,
    /// Messages so far, which tell who speaks.
    pub(crate) requests: Requests,
    /// Offset in the input of the current dump, in bytes.
    pub(crate) dump_at: u64,
    summary: Summary,
}

/// The layout of pages in this format.
pub(crate) fn layout_of(form: OutputFormat) -> Layout {
    match form {
        OutputFormat::Outline => Layout::Lines,
        OutputFormat::Lines(_) | OutputFormat::Json => Layout::OneLine,
    }
}

/// Whether lines of objects have statistics. `None` for another format.
pub(crate) fn statistics_in(form: OutputFormat) -> Option<bool> {
    match form {
        OutputFormat::Lines(statistics) => Some(statistics),
        _ => None,
    }
}

/// An empty page in this layout, in the memory of the last one.
pub(crate) fn page_after(last: &mut Option<Page>, layout: Layout) -> Page {
    match last.take() {
        Some(page) => {
            let mut page = page;
            page.restart(layout);
            page
        }
        None => Page::new(layout),
    }
}

impl<'a> Printer<'a> {
    #[must_use]
    pub fn new(options: &'a Options<'a>) -> Printer<'a> {
        Printer {
            options,
            page: None,
            output: Output::new(is_json(options.format)),
            counts: Counts::default(),
            links: BTreeMap::new(),
            requests: Requests::new(),
            dump_at: 0,
            summary: Summary::new(),
        }
    }

    /// Begins another input: forgets the text that isn't written, and the names of interfaces and the requests in the input before.
    pub fn restart(&mut self) {
        self.output.clear();
        self.links = BTreeMap::new();
        self.requests = Requests::new();
        self.dump_at = 0;
    }

    /// Prints the name of an input on a line before its messages, as `head` does. Nothing in JSON.
    ///
    /// # Errors
    ///
    /// A [`AllocError`].
    pub fn put_name(&mut self, name: &str) -> Result<(), AllocError> {
        if self.output.is_json() {
            return Ok(());
        }
        let mut page = page_after(&mut self.page, Layout::OneLine);
        show_name(&mut page, name)?;
        self.put_page_line(page)
    }

    /// Moves a page to the output, as a paragraph or a line.
    pub(crate) fn put_page(&mut self, page: Page) -> Result<(), AllocError> {
        let format = self.options.format;
        self.put_page_line(page)?;
        match format {
            OutputFormat::Outline => self.output.line_feed(),
            OutputFormat::Lines(_) | OutputFormat::Json => Ok(()),
        }
    }

    // Moves a page to the output, with one line feed.
    fn put_page_line(&mut self, page: Page) -> Result<(), AllocError> {
        self.output.page(&page)?;
        self.page = Some(page);
        self.output.line_feed()
    }

    /// Appends a line of JSON to the output, with control characters escaped.
    ///
    /// # Panics
    ///
    /// It may, unless this holds, which the proved sources ask of callers:
    ///
    /// - `self.old.output.is_json ≡ true`
    pub(crate) fn put_json(&mut self, json: String) -> Result<(), AllocError> {
        let safe = safe_text(json)?;
        self.output.json(safe.as_bytes())?;
        self.output.line_feed()
    }

    /// Prints a notice about an offset of the input.
    pub(crate) fn put_notice(&mut self, notice: Notice, at: u64) -> Result<(), AllocError> {
        let words = notice.text()?;
        self.put_notice_text(words.as_str(), at)
    }

    fn put_notice_text(&mut self, words: &str, at: u64) -> Result<(), AllocError> {
        if self.output.is_json() {
            let line = json_of(&NoticeLine { note: words, at })?;
            return self.put_json(line);
        }
        let mut page = page_after(&mut self.page, layout_of(self.options.format));
        show_notice(&mut page, words, at)?;
        self.put_page(page)
    }

    /// Counts a message in the summary's row with this type and text, if there is a summary.
    pub(crate) fn count_row(&mut self, name: &'static str, text: &str) -> Result<(), AllocError> {
        if !self.options.has_summary {
            return Ok(());
        }
        self.summary.count_message(name, text)
    }

    /// Counts a message in the summary, if there is one.
    pub(crate) fn count_message(&mut self, found: &Message<'_>) -> Result<(), AllocError> {
        if !self.options.has_summary {
            return Ok(());
        }
        let page = kind_page(found)?;
        self.summary.count_message(found.name(), text_of(&page))
    }

    /// Counts a refused message, if this is the name of a fault.
    pub(crate) fn count_fault(&mut self, name: Option<&'static str>) -> Result<(), AllocError> {
        let name = match name {
            Some(name) => name,
            None => return Ok(()),
        };
        self.counts.count_refused();
        if self.options.has_summary {
            self.summary.count_fault(name)?;
        }
        Ok(())
    }

    /// Prints the summary, if the options ask for it.
    ///
    /// # Errors
    ///
    /// A [`AllocError`].
    pub fn put_summary(&mut self) -> Result<(), AllocError> {
        if !self.options.has_summary {
            return Ok(());
        }
        let all = self.counts;
        if self.output.is_json() {
            let line = summary_json(&self.summary, &all)?;
            return self.put_json(line);
        }
        let page = summary_page(&self.summary, &all)?;
        self.output.page(&page)?;
        self.output.line_feed()
    }

    /// Writes the output, unless no line of the text was hex so far.
    pub(crate) fn write_lines<W: crate::host::io::Write>(
        &mut self,
        first: &FirstLines,
        writer: &mut W,
    ) -> Result<(), Stop> {
        if first.are_without_hex() {
            return Ok(());
        }
        self.write(writer)
    }

    /// Writes the output if it holds at least 64 KiB.
    pub(crate) fn write_much<W: crate::host::io::Write>(&mut self, writer: &mut W) -> Result<(), Stop> {
        if self.output.len() < MOST_KEPT {
            return Ok(());
        }
        self.write(writer)
    }

    /// Writes the output.
    ///
    /// # Errors
    ///
    /// A [`Stop`].
    pub fn write<W: crate::host::io::Write>(&mut self, writer: &mut W) -> Result<(), Stop> {
        self.output.write(writer)
    }
}

fn is_json(form: OutputFormat) -> bool {
    match form {
        OutputFormat::Lines(_) | OutputFormat::Outline => false,
        OutputFormat::Json => true,
    }
}

// Writes the name of an input on a page.
fn show_name(page: &mut Page, name: &str) -> Result<(), AllocError> {
    page.text("==> ")?;
    page.text(name)?;
    page.text(" <==")
}

// Writes a notice on a page, with its offset.
fn show_notice(page: &mut Page, words: &str, at: u64) -> Result<(), AllocError> {
    page.text("byte ")?;
    page.number(at)?;
    page.text(": ")?;
    page.text(words)
}

// A page with the kind of a message; empty if it has none.
fn kind_page(found: &Message<'_>) -> Result<Page, AllocError> {
    let mut page = Page::new(Layout::OneLine);
    let kind = found.kind();
    if !kind.is_empty() {
        page.quoted(kind)?;
    }
    Ok(page)
}

fn summary_page(summary: &Summary, all: &Counts) -> Result<Page, AllocError> {
    let mut page = Page::new(Layout::Lines);
    summary.show(all, &mut page)?;
    Ok(page)
}

fn summary_json(summary: &Summary, all: &Counts) -> Result<String, AllocError> {
    json_of(&SummaryLine { summary, all })
}
