//! The last steps on a file: the rules, the refusal of what is left, and paths.

use crate::pattern::rewrite;
use crate::rules::{ATTRIBUTES, CORE, MACROS, MODULES, RULES, SHIMS, SHOW_CRATES, SHOW_RULES, STD, UNKNOWN, USER_RULES};
use crate::token::text_of;
use crate::{Fault, Source, additions, duties, refuse};

/// A file in Rust. Tests and programs have more rules.
pub(crate) fn finished(mut file: Source, crates: &[&str], is_user: bool) -> Result<String, Fault> {
    let all = &mut file.tokens;
    duties::check(all)?;
    let own = if SHOW_CRATES.contains(&file.path[0].as_str()) { SHOW_RULES } else { &[] };
    let (users, prelude) = if is_user { (USER_RULES, "user") } else { (&[][..], "fallible") };
    own.iter().chain(users).chain(RULES).for_each(|rule| rewrite(all, rule));
    refuse(all, UNKNOWN)?;
    additions::add(all, is_user)?;
    let own: Vec<_> = all.windows(3).filter(|words| words[0].is("mod") && words[2].is(";")).map(|words| words[1].text).collect();
    for at in (0..all.len().saturating_sub(3)).rev() {
        let (token, next) = (all[at], all[at + 3].text);
        let is = |i: usize, text: &str| all[at + i].is(text);
        let is_macro = token.is_word() && is(1, "!") && all[at + 1].before.is_empty() && matches!(all[at + 2].text, "(" | "[" | "{");
        if is(0, "#") && is(1, "[") && !ATTRIBUTES.contains(&all[at + 2].text) || is_macro && !MACROS.contains(&token.text) {
            return Err(token.fault("an attribute or a macro that isn't known"));
        }
        // A crate is a module now, `std` is `core`, and the shims are beside it.
        let is_first = at == 0 || !(token.before.is_empty() && matches!(all[at - 1].text, ":" | "."));
        if !(is_first && (is(1, ":") && is(2, ":") || at > 0 && all[at - 1].is("use"))) {
            continue;
        }
        all[at].text = match token.text {
            "std" if is_user && STD.contains(&next) => "std",
            "std" if CORE.contains(&next) => "core",
            "std" => return Err(token.fault("a module of std that isn't known")),
            "crate" if !MODULES.contains(&next) => format!("crate::{}", file.path[0]).leak(),
            name if own.contains(&name) => name,
            name if crates.contains(&name) || SHIMS.contains(&name) => format!("crate::{name}").leak(),
            name => name,
        };
    }
    Ok(format!("use crate::{prelude}::prelude::*;\n{}", text_of(all)))
}
