//! Patterns of tokens, and what takes the place of what they match.

use crate::rules::{ARMS, CLASSES};
use crate::token::{Token, after_group, tokens};
use std::ops::Range;

/// A rule: a pattern, and what takes the place of what it matches.
///
/// In both, `$x` is one word, text or lifetime, and `$*x` the shortest run of tokens that is balanced and has no `;`; `$-x` is
/// one that has no braces either, `$;x` one that may have `;`. `%C` is one of the words of that class; `%A` is an allocator's type
/// with its bound, and `%v` its value, such as `self.alloc` or `rt.alloc()`, with its type or its own value after a `:`. In what takes
/// the place, `$@x` is the run with the rules [`ARMS`] applied.
pub(crate) type Rule = (&'static str, &'static str);

/// What a pattern's names match, by the places.
type Bound = Vec<(&'static str, Range<usize>)>;

/// How many tokens match this word of a pattern: none if they are something else.
fn len_of(word: &str, all: &[Token]) -> usize {
    let is = |at: usize, text: &str| all.get(at).is_some_and(|token| token.is(text));
    let is_in = |at: usize, class: &str| {
        let words = CLASSES.iter().find(|(name, _)| *name == class).map_or(&[][..], |(_, words)| words);
        all.get(at).is_some_and(|token| words.contains(&token.text))
    };
    match word {
        "%A" if is(1, ":") && is(2, "Allocator") && is_in(0, "%A") => 3 + 2 * usize::from(is(3, "+") || is(3, "=")),
        "%v" if is(1, ":") && is_in(2, "%A") && !is(3, ":") => 3,
        "%v" if is(1, ":") && is_in(0, "%v") => Some(len_of("%v", &all[2..])).filter(|len| *len > 0).map_or(0, |len| 2 + len),
        "%v" => {
            let mut end = usize::from(is(0, "&"));
            while is(end + 1, ".") && all[end].is_word() {
                end += 2;
            }
            let is_call = end > 1 && is(end, "alloc") && is(end + 1, "(") && is(end + 2, ")");
            let len = if is_call { 3 } else { usize::from(is_in(end, "%v")) };
            if len > 0 { end + len } else { 0 }
        }
        _ if word.len() > 1 && word.starts_with('%') => usize::from(is_in(0, word)),
        _ if word.len() > 1 && word.starts_with('$') => usize::from(all[0].is_word() || all[0].text.chars().nth(1).is_some()),
        _ => usize::from(is(0, word)),
    }
}

/// Where a match of a pattern at this place ends.
fn match_at(pattern: &[Token], all: &[Token], at: usize, bound: &mut Bound) -> Option<usize> {
    let Some((part, rest)) = pattern.split_first() else { return Some(at) };
    let never: &[&str] = match part.text.as_bytes() {
        [b'$', b'*', ..] => &[";"],
        [b'$', b'-', ..] => &[";", "{"],
        [b'$', b';', ..] => &[],
        _ => {
            let len = len_of(part.text, all.get(at..).filter(|all| !all.is_empty())?);
            bound.push((part.text, at..at + len));
            return if len > 0 { match_at(rest, all, at + len, bound) } else { None };
        }
    };
    let (mut end, mark) = (at, bound.len());
    loop {
        bound.push((part.text, at..end));
        if let Some(last) = match_at(rest, all, end, bound) {
            return Some(last);
        }
        bound.truncate(mark);
        match all.get(end)?.text {
            text if never.contains(&text) => return None,
            "(" | "[" | "{" => end = after_group(all, end).ok()?,
            ")" | "]" | "}" => return None,
            _ => end += 1,
        }
    }
}

/// Applies a rule wherever its pattern matches, and in what its runs matched.
pub(crate) fn rewrite(all: &mut Vec<Token>, rule: &Rule) {
    let parts = |text| tokens(text, "rules.rs", 1).expect("a rule of the table");
    *all = rewritten(all, &parts(rule.0), &parts(rule.1));
}

fn rewritten(all: &[Token], pattern: &[Token], result: &[Token]) -> Vec<Token> {
    let (mut out, mut at, mut comment) = (Vec::with_capacity(all.len()), 0, None);
    while at < all.len() {
        let (mut bound, start) = (Bound::new(), out.len());
        let end = match_at(pattern, all, at, &mut bound);
        if end.is_none() {
            out.push(all[at]);
        }
        for part in result.iter().filter(|_| end.is_some()) {
            let name = part.text.replacen('@', "*", 1);
            let Some((_, run)) = bound.iter().find(|(bound, _)| *bound == name && name.len() > 1 && name.starts_with(['$', '%'])) else {
                out.push(Token { file: all[at].file, line: all[at].line, ..*part });
                continue;
            };
            let mut run = rewritten(&all[run.clone()], pattern, result);
            if part.text.starts_with("$@") {
                ARMS.iter().for_each(|rule| rewrite(&mut run, rule));
            }
            if let Some(token) = run.first_mut().filter(|token| token.before.trim_matches(' ').is_empty()) {
                token.before = part.before;
            }
            out.extend(run);
        }
        // The comment above an attribute is that of the item.
        if let Some(token) = out.get_mut(start) {
            token.before = comment.take().unwrap_or(all[at].before);
        } else if all[at].is("#") {
            comment = comment.or(Some(all[at].before));
        }
        at = end.unwrap_or(at + 1);
    }
    out
}
