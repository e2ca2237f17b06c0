//! What one expects of a crate beside what the sources have: `Hash` where there is `Eq`, `Clone` of errors and `#[inline]` of each
//! function, of the codec, and `#[must_use]` and `# Errors` in the documentation, of all.

use crate::Fault;
use crate::items::{Function, functions};
use crate::token::{Token, after_group, text_of, tokens};

pub(crate) fn add(all: &mut Vec<Token>, is_user: bool) -> Result<(), Fault> {
    if !is_user {
        add_derives(all)?;
        add_inline(all)?;
    }
    let is_pub = |all: &[Token], at: usize| at > 0 && all[at - 1].is("pub");
    let body = |at: usize| all[at..].iter().position(|token| token.is("{")).and_then(|len| Some(at..after_group(all, at + len).ok()?));
    let traits: Vec<_> = (0..all.len()).filter(|at| all[*at].is("trait") && is_pub(all, *at)).filter_map(body).collect();
    for function in functions(all)?.iter().rev() {
        let is_public = is_pub(all, function.at) || traits.iter().any(|body| body.contains(&function.at));
        if is_public && all[function.close].is("-") {
            add_to(all, function)?;
        }
    }
    Ok(())
}

/// Derives `Hash` for types with `Eq`, derived or written, and `Clone` for errors.
fn add_derives(all: &mut Vec<Token>) -> Result<(), Fault> {
    let after = |trait_: &str, at: usize, all: &[Token]| all[at].is(trait_) && all[at + 1].is("for");
    let named = |trait_: &str, all: &[Token]| -> Vec<&str> {
        let places = (0..all.len().saturating_sub(2)).filter(|at| after(trait_, *at, all));
        places.map(|at| all[at + 2].text).collect()
    };
    let (equals, errors, mut done) = (named("Eq", all), named("Error", all), Vec::new());
    for at in (0..all.len().saturating_sub(1)).rev().filter(|at| all[*at].is("derive")).collect::<Vec<_>>() {
        let end = after_group(all, at + 1)? - 1;
        let Some(name) = all[end..].iter().position(|token| token.is("enum") || token.is("struct")).map(|len| all[end + len + 1].text) else { continue };
        let has = |word: &str| all[at..end].iter().any(|token| token.is(word));
        let new = [("Hash", has("Eq") || equals.contains(&name)), ("Clone", errors.contains(&name))];
        // An item may have several derives.
        let is_new = |word: &str| !has(word) && !done.contains(&(name, word.to_string()));
        let words: Vec<&str> = new.into_iter().filter(|(word, is_due)| *is_due && is_new(word)).map(|(word, _)| word).collect();
        done.extend(words.iter().map(|word| (name, word.to_string())));
        let text: String = words.iter().map(|word| format!(", {word}")).collect();
        all.splice(end..end, tokens(text.leak(), all[at].file, all[at].line)?);
    }
    Ok(())
}

/// `#[inline]` on each function with a body: a user's crate then sees through the small ones (a header's field, a text without its
/// NUL) in cargo's default profile too, which has neither link-time optimization nor one unit of code a crate.
fn add_inline(all: &mut Vec<Token>) -> Result<(), Fault> {
    for function in functions(all)?.iter().rev() {
        let is_said = all[function.start..function.at].iter().any(|token| token.is("inline"));
        if all[function.body].is("{") && !is_said {
            insert_attribute("#[inline]", function.start, all)?;
        }
    }
    Ok(())
}

/// Puts an attribute before an item, after its comment.
fn insert_attribute(attribute: &'static str, start: usize, all: &mut Vec<Token>) -> Result<(), Fault> {
    let mut new = tokens(attribute, all[start].file, all[start].line)?;
    new[0].before = std::mem::replace(&mut all[start].before, "\n");
    all.splice(start..start, new);
    Ok(())
}

/// The last type of `Result < .. , E >`, or the codec's error of `Res`.
fn error_of(returned: &[Token]) -> Option<String> {
    match returned.first()?.text {
        "Res" => Some("DecodeError".to_string()),
        "Result" => returned.iter().rposition(|token| token.is(",")).map(|at| text_of(&returned[at + 1..returned.len() - 1]).trim().to_string()),
        _ => None,
    }
}

/// `#[must_use]` if this function, which returns something, has no other effect, or `# Errors` if it can fail.
fn add_to(all: &mut Vec<Token>, function: &Function) -> Result<(), Fault> {
    let (start, comment) = (function.start, all[function.start].before);
    match error_of(&all[function.close + 2..function.body]) {
        Some(error) if comment.contains("///") && !comment.contains("# Errors") => {
            let indent = comment.rsplit('\n').next().unwrap_or("");
            let link = if error.contains(':') { format!("`{error}`") } else { format!("[`{error}`]") };
            all[start].before = format!("{comment}///\n{indent}/// # Errors\n{indent}///\n{indent}/// A {link}.\n{indent}").leak();
        }
        None if !function.writes && !all[start..function.at].iter().any(|token| token.is("must_use")) => {
            insert_attribute("#[must_use]", start, all)?;
        }
        _ => {}
    }
    Ok(())
}
