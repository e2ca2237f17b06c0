//! Bytes as lines.

use crate::user::prelude::*;

use crate::forms_json::{Form, Tables, send_shown};
use crate::show::attributes::column::Columns;
use crate::show::attributes::error::LinesError;
use crate::show::attributes::lines::Lines;

/// Displays bytes in a form as lines, with these columns. A line begins with a line feed and two blanks per level.
///
/// # Errors
///
/// A [`LinesError`].
pub fn lines_of<T: Tables, C: Columns>(table: T, form: Form, columns: C, bytes: &[u8]) -> Result<Vec<u8>, LinesError> {
    let mut lines = Lines::new(columns, bytes.len().saturating_mul(4))?;
    send_shown(table, form, bytes, &mut lines)?;
    Ok(lines.into_text())
}
