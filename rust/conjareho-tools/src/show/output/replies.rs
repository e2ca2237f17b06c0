//! Answers of the kernel, printed.

use crate::user::prelude::*;

use crate::itoa::Buffer;
use crate::show::json::{Origin, Reply, put_request, reply_line, show_netlink, show_reason};
use crate::show::lines::{dump_of, lines_of_end, lines_of_reply, request_of};
use crate::show::outline::Page;
use crate::show::output::attributes::show_attributes;
use crate::show::output::options::{Options, OutputFormat};
use crate::show::output::printer::{Printer, layout_of, page_after, statistics_in};
use crate::tc_capture::NetlinkMessage;

// True if acknowledgements without a text are printed.
fn has_acks(options: &Options<'_>) -> bool {
    match options.format {
        OutputFormat::Lines(_) => options.acks,
        OutputFormat::Outline | OutputFormat::Json => false,
    }
}

impl<'a> Printer<'a> {
    /// Prints an answer if the filter matches its request, but an acknowledgement without a text only if it is asked for.
    pub(crate) fn put_reply(&mut self, reply: &Reply<'_>) -> Result<(), AllocError> {
        if !self.tells(reply) {
            self.counts.others = self.counts.others.saturating_add(1);
            return Ok(());
        }
        self.put_told(reply)
    }

    // True unless it is an acknowledgement without a text, and these aren't asked for.
    fn tells(&self, reply: &Reply<'_>) -> bool {
        !reply.is_silent() || has_acks(self.options)
    }

    // Prints an answer if the filter matches its request.
    fn put_told(&mut self, reply: &Reply<'_>) -> Result<(), AllocError> {
        if !self.takes_reply(reply) {
            self.counts.left_out = self.counts.left_out.saturating_add(1);
            return Ok(());
        }
        self.counts.answers = self.counts.answers.saturating_add(1);
        self.show_reply(reply)
    }

    // True if the filter matches the request of an answer, with the bytes that the capture has of it.
    fn takes_reply(&self, reply: &Reply<'_>) -> bool {
        self.matches_request(&request_of(&self.requests, reply))
    }

    fn show_reply(&mut self, reply: &Reply<'_>) -> Result<(), AllocError> {
        self.count_row("NLMSG_ERROR", reply.errno(&mut Buffer::new()))?;
        if self.output.is_json() {
            return self.put_reply_line(reply);
        }
        match statistics_in(self.options.format) {
            Some(statistics) => self.put_reply_lines(reply, statistics),
            None => self.put_reply_outline(reply),
        }
    }

    // Prints the error, and the lines of the request.
    fn put_reply_lines(&mut self, reply: &Reply<'_>, statistics: bool) -> Result<(), AllocError> {
        let options = self.options;
        let text = lines_of_reply(options.names.names, &self.links, &self.requests, statistics, options.time, reply)?;
        self.output.lines(&text)
    }

    /// Prints the line of the end of a dump, if lines are printed, the dump failed or was interrupted, and the filter matches its
    /// request.
    pub(crate) fn put_done(&mut self, origin: Origin, message: &NetlinkMessage<'_>) -> Result<(), AllocError> {
        match statistics_in(self.options.format) {
            Some(statistics) => self.put_done_if(origin, message, statistics),
            None => {
                self.counts.others = self.counts.others.saturating_add(1);
                Ok(())
            }
        }
    }

    fn put_done_if(
        &mut self,
        origin: Origin,
        message: &NetlinkMessage<'_>,
        statistics: bool,
    ) -> Result<(), AllocError> {
        if !self.takes_done(origin, message) {
            self.counts.others = self.counts.others.saturating_add(1);
            return Ok(());
        }
        self.counts.answers = self.counts.answers.saturating_add(1);
        self.put_done_line(origin, message, statistics)
    }

    // True if a dump failed or was interrupted, and the filter matches its request.
    fn takes_done(&self, origin: Origin, message: &NetlinkMessage<'_>) -> bool {
        match dump_of(&self.requests, origin, message) {
            Some(request) => self.matches_request(&request),
            None => false,
        }
    }

    fn put_done_line(
        &mut self,
        origin: Origin,
        message: &NetlinkMessage<'_>,
        statistics: bool,
    ) -> Result<(), AllocError> {
        let options = self.options;
        let text =
            lines_of_end(options.names.names, &self.links, &self.requests, statistics, options.time, origin, message)?;
        self.output.lines(&text)
    }

    fn put_reply_line(&mut self, reply: &Reply<'_>) -> Result<(), AllocError> {
        let line = reply_line(reply)?;
        self.put_json(line)
    }

    // Prints the line of the answer, and the request's outline, indented.
    fn put_reply_outline(&mut self, reply: &Reply<'_>) -> Result<(), AllocError> {
        let mut page = page_after(&mut self.page, layout_of(self.options.format));
        show_reason(&mut page, reply)?;
        let request = self.request_page(reply)?;
        put_request(&mut page, request)?;
        self.put_page(page)
    }

    fn request_page(&self, reply: &Reply<'_>) -> Result<Page, AllocError> {
        let mut page = Page::new(layout_of(self.options.format));
        self.show_request(reply, &mut page)?;
        Ok(page)
    }

    fn show_request(&self, reply: &Reply<'_>, page: &mut Page) -> Result<(), AllocError> {
        show_netlink(page, &reply.request)?;
        if !reply.answer.is_capped {
            show_attributes(self.options, &self.links, page, &reply.request)?;
        }
        Ok(())
    }
}
