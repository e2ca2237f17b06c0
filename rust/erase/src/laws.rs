//! Laws, which are functions that do nothing, and their calls.

use crate::items::{drop_imports, functions};
use crate::rules::{LAW_CRATES, LOST_IMPORTS};
use crate::token::{Token, after_group};
use crate::{Fault, Source};
use std::collections::{BTreeMap, BTreeSet};

fn is_law_module(name: &str) -> bool {
    name == "laws" || name.ends_with("_laws") || LAW_CRATES.contains(&name)
}

/// Takes out laws: the modules that hold nothing else, the functions elsewhere, what imports them, and their calls. Modules and
/// functions that are omitted go with them.
pub(crate) fn drop_laws(files: &mut Vec<Source>, omitted: &[&str]) -> Result<(), Fault> {
    // The names of laws, and those of modules and other functions, with whether one of these can write.
    let (mut laws, mut others) = (BTreeSet::new(), BTreeMap::new());
    let is_of_laws = |file: &Source| file.path.iter().any(|name| is_law_module(name));
    for file in files.iter() {
        others.entry(&*file.path[file.path.len() - 1].clone().leak()).or_insert(false);
        for function in functions(&file.tokens)? {
            if function.does_nothing {
                laws.insert(function.name);
            } else if !is_of_laws(file) {
                *others.entry(function.name).or_insert(false) |= function.writes;
            }
        }
    }
    files.retain(|file| !is_of_laws(file));
    for file in files {
        let is_omitted = |name: &str| omitted.contains(&format!("{}::{name}", file.path.join("::")).as_str());
        for at in (1..file.tokens.len()).rev() {
            let Some((name, end)) = call(&file.tokens, at)?.filter(|(name, _)| laws.contains(name)) else { continue };
            // The function isn't known. Where none of its name can write, a call without a use does nothing, whichever it is.
            if others.get(name) == Some(&true) {
                return Err(file.tokens[at].fault("a call that has the name of a law, and of what can write"));
            }
            file.tokens.drain(at..end);
        }
        for function in functions(&file.tokens)?.iter().rev().filter(|function| function.does_nothing || is_omitted(function.name)) {
            file.tokens.drain(function.start..function.end);
        }
        drop_imports(&mut file.tokens, &|path| {
            let (first, last) = (path[0], path[path.len() - 1]);
            let is_law = path.len() > 1 && laws.contains(last) && !others.contains_key(last);
            is_law || path.iter().any(|part| is_law_module(part)) || LOST_IMPORTS.contains(&last) || LOST_IMPORTS.contains(&first) || is_omitted(first)
        });
    }
    Ok(())
}

/// The name of the function that is called by the statement at this place, and where that ends: `path::name::<T>(..);` or
/// `value.name(..);`, and nothing else.
fn call(all: &[Token], at: usize) -> Result<Option<(&'static str, usize)>, Fault> {
    let (mut end, mut name) = (at, "");
    if !all[at].is_word() || !matches!(all[at - 1].text, ";" | "{" | "}") {
        return Ok(None);
    }
    while end + 1 < all.len() {
        match all[end].text {
            word if all[end].is_word() && (end == at || !all[end - 1].is_word()) => name = word,
            "." | ":" => {}
            "<" if all[end - 1].is(":") => end = after_group(all, end)? - 1,
            "(" => {
                end = after_group(all, end)?;
                if all[end].is(";") {
                    return Ok(Some((name, end + 1)));
                }
                end -= 1;
            }
            _ => break,
        }
        end += 1;
    }
    Ok(None)
}
