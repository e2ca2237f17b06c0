//! What a `requires` asked of callers, which Rust's callers don't prove: it is documented, and checked where that is simple.

use crate::Fault;
use crate::items::functions;
use crate::pattern::rewrite;
use crate::rules::{CHECKS, DUTIES};
use crate::token::{Token, after_group, text_of, tokens};

fn words(all: &[Token]) -> String {
    text_of(all).split_whitespace().collect::<Vec<_>>().join(" ")
}

/// `required NAME: TEXT` as a message.
fn message(duty: &[Token]) -> &'static str {
    format!("{:?}", words(duty)).replace('{', "{{").replace('}', "}}").leak()
}

/// The same in Rust, where it is arithmetic over numbers and lengths of slices.
fn arithmetic(duty: &[Token]) -> Option<String> {
    let mut rust = duty[if duty[2].is(":") { 3 } else { 1 }..].to_vec();
    DUTIES.iter().for_each(|rule| rewrite(&mut rust, rule));
    let is_simple = |token: &Token| match token.text {
        "now" | "old" | "length" => false,
        "." | "(" | ")" | "<" | "=" | "+" => true,
        text => token.is_word() && text.starts_with(|c: char| c.is_ascii_digit() || c.is_ascii_lowercase()),
    };
    let is_apart = rust.windows(2).any(|pair| pair[0].is_word() && pair[1].is_word());
    (rust.iter().any(|token| token.is("<")) && rust.iter().all(is_simple) && !is_apart).then(|| words(&rust))
}

/// A `# Panics` in the comment above each function that asks for something, `(required ..)` before its body. An assertion of what
/// is simple arithmetic if it is public, and checks where a length is cut or taken for 0.
pub(crate) fn check(all: &mut Vec<Token>) -> Result<(), Fault> {
    for function in functions(all)?.iter().rev() {
        let (mut duties, mut body) = (Vec::new(), all[function.body..function.end].to_vec());
        let is_duty = |at: &usize| all[*at].is("(") && all[at + 1].is("required");
        let Some(first) = (function.close..function.body).find(is_duty) else { continue };
        let mut at = first;
        while at < function.body {
            let end = after_group(all, at)?;
            duties.push(&all[at + 1..end - 1]);
            at = end;
        }
        CHECKS.iter().for_each(|rule| rewrite(&mut body, rule));
        body.iter_mut().filter(|token| token.is("MESSAGE")).for_each(|token| token.text = message(duties[0]));
        if body[0].is("{") && function.at > 0 && all[function.at - 1].is("pub") {
            let simple = duties.iter().filter_map(|duty| Some((arithmetic(duty)?, message(duty))));
            let lines: String = simple.map(|(rust, message)| format!("\n        assert!({rust}, {message});")).collect();
            body.splice(1..1, tokens(lines.leak(), body[0].file, body[0].line)?);
        }
        let documented = document(all[function.start].before, &duties);
        all.splice(first..function.end, body);
        all[function.start].before = documented;
    }
    Ok(())
}

/// The comment above an item with these duties at its end.
fn document(comment: &'static str, duties: &[&[Token]]) -> &'static str {
    let Some(end) = comment.rfind("///").and_then(|at| comment[at..].find('\n').map(|len| at + len)) else { return comment };
    let indent = comment[end..].replace('\n', "");
    let head = ["", "# Panics", "", "It may, unless this holds, which the proved sources ask of callers:", ""].map(str::to_string);
    let asked = duties.iter().map(|duty| format!("- `{}`", words(&duty[1..])));
    let lines: String = head.into_iter().chain(asked).map(|line| format!("\n{}", format!("{indent}/// {line}").trim_end())).collect();
    format!("{}{lines}{}", &comment[..end], &comment[end..]).leak()
}
