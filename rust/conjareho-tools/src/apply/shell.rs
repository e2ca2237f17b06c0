//! Words of commands that a message advises, as a shell takes them.

use std::borrow::Cow;

/// A word for a shell. Who names an interface may name it `$(id)`.
pub(crate) fn word(text: &str) -> Cow<'_, str> {
    let is_plain = |letter: char| letter.is_ascii_alphanumeric() || "_-.,:@%+=/".contains(letter);
    if !text.is_empty() && text.chars().all(is_plain) {
        Cow::Borrowed(text)
    } else {
        Cow::Owned(format!("'{}'", text.replace('\'', r"'\''")))
    }
}

#[cfg(test)]
mod tests {
    use super::word;

    #[test]
    fn quotes_what_a_shell_would_expand() {
        assert_eq!(["wan.7", "ids@x", "/a/b-c.json"].map(word), ["wan.7", "ids@x", "/a/b-c.json"]);
        assert_eq!(
            ["$(id)", "a'b", "", "a;b", "~", "#"].map(word),
            ["'$(id)'", r"'a'\''b'", "''", "'a;b'", "'~'", "'#'"]
        );
    }
}
