//! The attributes of a message in an outline, with the names of interfaces that are known.

use crate::user::prelude::*;

use crate::show::columns::{KindColumns, LinkNames};
use crate::show::json::Message;
use crate::show::outline::{Page, outline};
use crate::show::output::options::Options;
use crate::tc_faults::Fault;

/// Keeps the name of an interface. Its last one counts.
pub(crate) fn learn_name(links: &mut LinkNames, index: u32, name: &str) -> Result<(), AllocError> {
    let name = fallible::text(name)?;
    links.insert(u64::from(index), name);
    Ok(())
}

/// The columns of a message's object, with the names of interfaces that are known.
pub(crate) fn columns_of<'a>(options: &Options<'a>, links: &'a LinkNames, found: &Message<'_>) -> KindColumns<'a> {
    KindColumns { root: found.root(), interfaces: options.names.names, links: Some(links), all: options.all }
}

fn name_of(fault: &Option<Fault>) -> Option<&'static str> {
    match fault {
        Some(fault) => Some(fault.error.name()),
        None => None,
    }
}

/// Writes the attributes of a message, and returns the name of its first fault.
pub(crate) fn show_attributes(
    options: &Options<'_>,
    links: &LinkNames,
    page: &mut Page,
    found: &Message<'_>,
) -> Result<Option<&'static str>, AllocError> {
    let columns = columns_of(options, links, found);
    let fault = outline(page, found.payload, columns)?;
    Ok(name_of(&fault))
}
