//! Messages that the filter matches, printed.

use crate::user::prelude::*;

use crate::read::select::Message as Properties;
use crate::read::select::header::interface_in;
use crate::show::attributes::Columns;
use crate::show::columns::LinkNames;
use crate::line::is_refused;
use crate::show::json::{Message, NetlinkHeader, begin_message, line_of};
use crate::show::lines::lines_of_message;
use crate::show::output::attributes::{columns_of, show_attributes};
use crate::show::output::options::Options;
use crate::show::output::printer::{Printer, layout_of, page_after, statistics_in};

// The properties of a message that filters look at, with this name of its interface.
fn properties_of<'p>(found: &'p Message<'_>, name: Option<&'p str>) -> Properties<'p> {
    Properties {
        time: found.origin.time,
        rtm: type_in(&found.header),
        holds: found.holds,
        payload: found.payload,
        name,
    }
}

fn type_in(header: &Option<NetlinkHeader>) -> Option<u16> {
    match header {
        Some(header) => Some(header.kind),
        None => None,
    }
}

// True if the filter matches a message, with the names of interfaces that are known.
fn is_matched<'x>(options: &Options<'x>, links: &'x LinkNames, found: &'x Message<'x>) -> bool {
    let columns = columns_of(options, links, found);
    match interface_in(found.holds, found.payload) {
        Some(number) => {
            let name = columns.interface(u64::from(number));
            options.filter.matches(&properties_of(found, name))
        }
        None => options.filter.matches(&properties_of(found, None)),
    }
}

impl<'a> Printer<'a> {
    /// True if the filter matches the message.
    pub(crate) fn takes(&self, found: &Message<'_>) -> Result<bool, AllocError> {
        if !self.matches_request(found) {
            return Ok(false);
        }
        if !self.options.filter.refused {
            return Ok(true);
        }
        let refused = is_refused(found.holds, found.payload)?;
        Ok(self.options.filter.matches_verdict(refused))
    }

    /// True if the filter matches the message, whether or not the codec refuses it. It decides about answers to the message.
    pub(crate) fn matches_request(&self, found: &Message<'_>) -> bool {
        let filter = self.options.filter;
        if filter.names.is_empty() {
            return filter.matches(&properties_of(found, None));
        }
        is_matched(self.options, &self.links, found)
    }
}

impl<'a> Printer<'a> {
    /// Prints a message if the filter matches it, and keeps a request.
    pub(crate) fn put_message(&mut self, found: &Message<'_>) -> Result<(), AllocError> {
        self.put_matched(found)?;
        self.requests.note(found)
    }

    // Prints a message if the filter matches it.
    fn put_matched(&mut self, found: &Message<'_>) -> Result<(), AllocError> {
        let taken = self.takes(found)?;
        if !taken {
            self.counts.left_out = self.counts.left_out.saturating_add(1);
            return Ok(());
        }
        self.counts.shown = self.counts.shown.saturating_add(1);
        self.show_message(found)
    }

    fn show_message(&mut self, found: &Message<'_>) -> Result<(), AllocError> {
        self.count_message(found)?;
        if self.output.is_json() {
            return self.put_line(found);
        }
        match statistics_in(self.options.format) {
            Some(statistics) => self.put_lines(found, statistics),
            None => self.put_outline(found),
        }
    }

    fn put_lines(&mut self, found: &Message<'_>, statistics: bool) -> Result<(), AllocError> {
        let options = self.options;
        let lines =
            lines_of_message(options.names.names, &self.links, &self.requests, statistics, options.time, found)?;
        self.output.lines(&lines.text)?;
        self.count_fault(lines.fault)
    }

    fn put_outline(&mut self, found: &Message<'_>) -> Result<(), AllocError> {
        let mut page = page_after(&mut self.page, layout_of(self.options.format));
        begin_message(&mut page, found)?;
        let name = show_attributes(self.options, &self.links, &mut page, found)?;
        self.put_page(page)?;
        self.count_fault(name)
    }

    fn put_line(&mut self, found: &Message<'_>) -> Result<(), AllocError> {
        let line = line_of(found)?;
        self.put_json(line.json)?;
        self.count_fault(line.fault)
    }
}
