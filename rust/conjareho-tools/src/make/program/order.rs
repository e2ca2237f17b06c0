//! Requests in order: each after all that it needs.

use std::io::{BufRead, Write};

use crate::forms_json::Tables;
use crate::make::messages::Forms;
use crate::make::program::arguments::Options;
use crate::make::program::plans::{named_by, of_interfaces, plan_by};
use crate::make::requests::lines::{Lines, Reading, Source, has_complaint, read_lines};
use crate::make::requests::order::{Restored, lines_of_now, requests_by, requests_by_now};
use crate::make::requests::written::{write_remarks, write_requests};
use crate::plan::objects::KindRules;
use crate::streams::Stop;

/// Options for making requests from lines.
#[derive(Clone, Copy)]
pub struct RequestOptions<'a> {
    /// The interface of requests, instead of the dumps' own.
    pub index: Option<i32>,
    /// The kernel's present objects, as lines of JSON.
    pub now: Option<&'a [u8]>,
    /// True if requests lead from that to what is wanted, and delete and change what has to be.
    pub plans: bool,
    /// True if actions are changed that filters of other interfaces hold too.
    pub replaces_actions: bool,
    /// The interfaces that there are now, by index and name: the indices of a save become these.
    pub names: Option<&'a [(u32, &'a str)]>,
}

/// Makes the requests of all lines of an input, each after all that it needs. Fails only if the input fails or memory runs out.
///
/// # Errors
///
/// A [`Stop`].
pub fn requests_of<T: Tables, R: BufRead>(
    forms: Forms<T>,
    requests: &RequestOptions<'_>,
    reader: &mut R,
) -> Result<Restored, Stop> {
    let reading = Reading { source: Source::Wanted, index: requests.index, names: requests.names };
    let lines = read_lines(forms, reading, reader)?;
    match requests.now {
        None => requests_by(lines, None, false),
        Some(text) => {
            if requests.plans {
                requests_of_plan(forms, requests.index, text, lines)
            } else {
                requests_by_now(forms, requests.replaces_actions, text, lines)
            }
        }
    }
}

// The requests that lead from what there is now to what lines show.
fn requests_of_plan<T: Tables>(
    forms: Forms<T>,
    index: Option<i32>,
    now: &[u8],
    lines: Lines,
) -> Result<Restored, Stop> {
    let there = lines_of_now(forms, index, now)?;
    let wanted = of_interfaces(&there, lines)?;
    let keys = named_by(&there, &wanted)?;
    plan_by(&KindRules, &keys, there, wanted)
}

/// Makes the requests of all lines of an input, and writes them and what is said of the lines. `has_refused` becomes true if something is
/// wrong with a line.
pub(crate) fn restore_in_order<T: Tables, R: BufRead, W: Write>(
    forms: Forms<T>,
    options: &Options,
    requests: &RequestOptions<'_>,
    reader: &mut R,
    writer: &mut W,
    errors: &mut dyn Write,
    has_refused: &mut bool,
) -> Result<(), Stop> {
    let restored = requests_of(forms, requests, reader)?;
    *has_refused = restored.is_void || has_complaint(&restored.remarks);
    write_remarks(&restored.remarks, options.verbose, requests.plans, errors);
    if !restored.is_void {
        *has_refused |= write_requests(options.form, &restored.requests, writer, errors)?;
    }
    Ok(())
}
