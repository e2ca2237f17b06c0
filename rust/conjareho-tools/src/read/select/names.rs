//! Files of interface names.

use super::links::link_of_line;

/// Parses a file of interface names: on each line a number and a name, or a line of `ip -o link`. Comments begin with
/// `#`, at the front of a line or after a blank.
///
/// # Errors
///
/// The number of the first line that can't be parsed, from 1.
pub fn names_in(text: &str) -> Result<Vec<(u32, &str)>, u64> {
    let lines = (1..).zip(text.lines().map(content_of)).filter(|(_, content)| !content.is_empty());
    lines.map(|(number, content)| link_of_line(content.as_bytes()).and_then(|link| link.text()).ok_or(number)).collect()
}

// A line without its comment, and without white space around the rest. Within a name, `#` is an ordinary character.
fn content_of(line: &str) -> &str {
    if line.trim().starts_with('#') { "" } else { line.split(" #").next().unwrap_or(line).trim() }
}
