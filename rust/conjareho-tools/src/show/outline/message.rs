//! The outline of a message.

use crate::user::prelude::*;

use crate::forms_json::Form;
use crate::forms_kinds::{ACTION_MESSAGE, TC_MESSAGE, TcTables};
use crate::show::attributes::lines_of;
use crate::show::columns::{KindColumns, Root};
use crate::show::outline::fault::show;
use crate::show::outline::page::{Layout, Page};
use crate::tc_faults::{Fault, What, locate};

// The form of messages of this root.
fn form_of(root: Root) -> Form {
    match root {
        Root::Action | Root::Flush => ACTION_MESSAGE,
        _ => TC_MESSAGE,
    }
}

// The object of messages with these columns.
#[must_use]
pub fn what_of(root: Root) -> What {
    match root {
        Root::Action | Root::Flush => What::Action,
        Root::Filter | Root::U32Filter => What::Filter,
        Root::Qdisc => What::Qdisc,
        Root::Class => What::Class,
        Root::Chain => What::Chain,
    }
}

// The line that reports a fault.
fn line_of(fault: &Fault) -> Result<Page, AllocError> {
    let mut line = Page::new(Layout::Lines);
    line.begin(0)?;
    show(fault, &mut line)?;
    Ok(line)
}

/// Writes a message, the payload of a netlink message, on a page with these columns. The words of its header continue
/// the current line, and each attribute is on a line of its own. The last line of a malformed message reports its first
/// fault, which is also returned.
///
/// # Errors
///
/// A [`AllocError`].
pub fn outline(page: &mut Page, bytes: &[u8], columns: KindColumns<'_>) -> Result<Option<Fault>, AllocError> {
    match lines_of(TcTables, form_of(columns.root), columns, bytes) {
        Ok(text) => page.lines(&text)?,
        Err(_) => return Err(AllocError),
    }
    let fault = locate(bytes, what_of(columns.root));
    if let Some(fault) = &fault {
        page.lines(line_of(fault)?.bytes())?;
    }
    page.end()?;
    Ok(fault)
}
