//! The options of a run, from arguments.

use crate::user::prelude::*;

pub use crate::jiff_tz::TimeZone;
use crate::read::select::Filter;
pub use crate::show::lines::TimeFormat;
use crate::show::outline::Interfaces;
pub use crate::show::output::{Options, OutputFormat};
use crate::show::program::arguments::{Arguments, TimeChoice};

// The format that is chosen, with the time zone of local times.
fn format_in(choice: Option<TimeChoice>, zone: TimeZone<'_>) -> TimeFormat<'_> {
    match choice {
        None => TimeFormat::Clock,
        Some(TimeChoice::Local) => TimeFormat::Local(zone),
        Some(TimeChoice::Date) => TimeFormat::Date,
        Some(TimeChoice::Epoch) => TimeFormat::Epoch,
        Some(TimeChoice::Delta) => TimeFormat::Delta,
        Some(TimeChoice::Relative) => TimeFormat::Relative,
    }
}

/// The options in arguments, with the time zone of local times, this filter and these names of interfaces.
#[must_use]
pub fn options_of<'a>(
    arguments: &Arguments,
    zone: TimeZone<'a>,
    filter: Filter<'a>,
    names: &'a [(u32, &'a str)],
) -> Options<'a> {
    Options {
        format: arguments.format(),
        without_header: arguments.without_header(),
        filter,
        time: format_in(arguments.output.time, zone),
        acks: arguments.output.acks,
        all: arguments.output.all,
        names: Interfaces { names },
        has_summary: arguments.output.summary,
    }
}
