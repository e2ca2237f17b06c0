//! Items: functions and imports.

use crate::Fault;
use crate::token::{Token, after_group};

/// A function: from its attributes and its visibility at `start` to `end`, with its `fn` at `at`, the place after its parameters at
/// `close`, and its `{` or its `;` at `body`.
pub(crate) struct Function {
    pub name: &'static str,
    pub start: usize,
    pub at: usize,
    pub close: usize,
    pub body: usize,
    pub end: usize,
    /// True if it can write to what it is given.
    pub writes: bool,
    /// True if it returns nothing and can write nothing: then a call of it does nothing.
    pub does_nothing: bool,
}

/// The functions of a file, those in others too.
pub(crate) fn functions(all: &[Token]) -> Result<Vec<Function>, Fault> {
    let mut found = Vec::new();
    for at in (0..all.len().saturating_sub(3)).filter(|at| all[*at].is("fn") && all[at + 1].is_word()) {
        let open = if all[at + 2].is("<") { after_group(all, at + 2)? } else { at + 2 };
        let close = after_group(all, open)?;
        let mut body = close;
        while !all[body].is("{") && !all[body].is(";") {
            body = if all[body].is("[") || all[body].is("(") { after_group(all, body)? } else { body + 1 };
        }
        let end = if all[body].is("{") { after_group(all, body)? } else { body + 1 };
        let writes = all[open..close].iter().any(|token| token.is("mut") || token.is("HostRuntime"));
        let does_nothing = !writes && !all[close].is("-");
        found.push(Function { name: all[at + 1].text, start: item_start(all, at), at, close, body, end, writes, does_nothing });
    }
    Ok(found)
}

/// Where the item of this keyword begins: its attributes and its visibility.
fn item_start(all: &[Token], at: usize) -> usize {
    all[..at].iter().rposition(|token| matches!(token.text, ";" | "{" | "}")).map_or(0, |end| end + 1)
}

/// Makes an import with braces one import for each name, and takes out the imports and the declarations of modules that are lost, by
/// their paths.
pub(crate) fn drop_imports(all: &mut Vec<Token>, is_lost: &dyn Fn(&[&str]) -> bool) {
    for at in (0..all.len()).rev() {
        let len = all.iter().skip(at).position(|token| token.is(";")).unwrap_or(0);
        if !all.get(at).is_some_and(|token| token.is("use") || token.is("mod") && len == 2) {
            continue;
        }
        let (start, end) = (item_start(all, at), at + len);
        let open = (at..end).find(|open| all[*open].is("{"));
        let names = open.map_or(vec![&all[end..end]], |open| all[open + 1..end - 1].split(|token| token.is(",")).collect());
        let paths = names.iter().map(|name| [&all[start..open.unwrap_or(end)], name].concat());
        let is_kept = |item: &Vec<Token>| {
            let words = item[at + 1 - start..].iter().filter(|token| token.is_word()).map(|token| token.text);
            let path: Vec<_> = words.take_while(|word| *word != "as").collect();
            item.last().is_some_and(|last| !last.is(":")) && !is_lost(&path)
        };
        let new: Vec<_> = paths.filter(is_kept).flat_map(|item| [item, vec![all[end]]].concat()).collect();
        all.splice(start..=end, new);
    }
}
