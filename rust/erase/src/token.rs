//! Source text as tokens, each with the space and the comments before it.

use crate::Fault;

/// A word, a number, a text, a lifetime, a `$` or `%` with its name, or one character of anything else; with the space and the
/// comments before it, and where it stands. Texts live as long as the program.
#[derive(Clone, Copy)]
pub(crate) struct Token {
    pub text: &'static str,
    pub before: &'static str,
    pub file: &'static str,
    pub line: usize,
}

impl Token {
    pub fn is(&self, text: &str) -> bool {
        self.text == text
    }

    /// True of a name, a keyword or a number.
    pub fn is_word(&self) -> bool {
        self.text.starts_with(is_word_char) && !self.text.ends_with(['"', '\'', '#'])
    }

    pub fn fault(&self, why: &str) -> Fault {
        format!("{}:{}: {why}", self.file, self.line)
    }
}

fn is_word_char(c: char) -> bool {
    c == '_' || c.is_alphanumeric()
}

fn word_len(text: &str) -> usize {
    text.find(|c| !is_word_char(c)).unwrap_or(text.len())
}

/// The tokens of a text, which begins at this line of a file.
pub(crate) fn tokens(text: &'static str, file: &'static str, mut line: usize) -> Result<Vec<Token>, Fault> {
    let (mut all, mut rest) = (Vec::new(), text);
    loop {
        let mut after = rest.trim_start();
        while after.starts_with("//") {
            after = after[after.find('\n').unwrap_or(after.len())..].trim_start();
        }
        let (before, len) = (&rest[..rest.len() - after.len()], token_len(after).filter(|_| !after.starts_with("/*")));
        line += before.matches('\n').count();
        if after.is_empty() {
            return Ok(all);
        }
        let (text, left) = after.split_at(len.ok_or(format!("{file}:{line}: a text without an end, or a /* comment"))?);
        all.push(Token { text, before, file, line });
        line += text.matches('\n').count();
        rest = left;
    }
}

/// How long the first token is.
fn token_len(text: &str) -> Option<usize> {
    let word = word_len(text);
    let (prefix, rest) = text.split_at(word);
    let quoted = rest.trim_start_matches('#');
    let hashes = rest.len() - quoted.len();
    let is_char = rest.starts_with("'\\") || rest.chars().nth(2) == Some('\'');
    match (prefix, rest.chars().next()) {
        ("r" | "br", _) if quoted.starts_with('"') => {
            let end = format!("\"{}", &rest[..hashes]);
            Some(word + hashes + 1 + quoted[1..].find(&end)? + end.len())
        }
        ("" | "b" | "c", Some('"')) => Some(word + quoted_len(rest)?),
        ("" | "b", Some('\'')) if is_char => Some(word + quoted_len(rest)?),
        ("", Some('\'')) => Some(1 + word_len(&rest[1..])),
        ("", Some('$' | '%')) => {
            let sign = 1 + usize::from(rest[1..].starts_with(['*', '-', ';', '@']));
            Some(if word_len(&rest[sign..]) > 0 { sign + word_len(&rest[sign..]) } else { 1 })
        }
        ("", first) => first.map(char::len_utf8),
        _ => Some(word),
    }
}

/// How long the first text is, with its quotes.
fn quoted_len(text: &str) -> Option<usize> {
    let (quote, mut is_escaped) = (text.chars().next(), false);
    let ends = |c| {
        let is_end = Some(c) == quote && !is_escaped;
        is_escaped = c == '\\' && !is_escaped;
        is_end
    };
    text[1..].find(ends).map(|len| len + 2)
}

/// The place after the bracket that closes the one at this place, which may be a `<`.
pub(crate) fn after_group(all: &[Token], open: usize) -> Result<usize, Fault> {
    let (opens, closes) = if all[open].is("<") { ("<", ">") } else { ("([{", ")]}") };
    let mut depth = 0;
    for at in open..all.len() {
        depth += i32::from(opens.contains(all[at].text));
        depth -= i32::from(closes.contains(all[at].text) && !(all[at].is(">") && all[at - 1].is("-")));
        if depth <= 0 {
            return Ok(at + 1);
        }
    }
    Err(all[open].fault("a bracket that nothing closes"))
}

/// The tokens as text.
pub(crate) fn text_of(all: &[Token]) -> String {
    all.iter().flat_map(|token| [token.before, token.text]).collect()
}
