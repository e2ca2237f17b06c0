//! Rust's names for those of the kernel and of JSON.

/// Keywords that may be raw identifiers.
const KEYWORDS: &[&str] = &[
    "abstract", "as", "async", "await", "become", "box", "break", "const", "continue", "do", "dyn", "else", "enum", "extern", "false", "final", "fn", "for",
    "gen", "if", "impl", "in", "let", "loop", "macro", "match", "mod", "move", "mut", "override", "priv", "pub", "ref", "return", "static", "struct", "trait",
    "true", "try", "type", "typeof", "unsafe", "unsized", "use", "virtual", "where", "while", "yield",
];

/// `cake_tin_stats` as `CakeTinStats`.
pub(crate) fn camel(name: &str) -> String {
    let words = name.split(|c: char| !c.is_alphanumeric()).filter(|word| !word.is_empty());
    words.map(|word| word[..1].to_uppercase() + &word[1..]).collect()
}

/// `SentBytes64` as `sent_bytes64`, `Ipv4Src` as `ipv4_src`, `def_DP` as `def_dp` and `802.1Q` as `802_1q`.
pub(crate) fn snake(name: &str) -> String {
    let (mut out, mut before) = (String::new(), '_');
    let mut chars = name.chars().peekable();
    while let Some(c) = chars.next() {
        let begins_word = before.is_lowercase() || before.is_numeric() && chars.peek().is_some_and(|after| after.is_lowercase());
        if c.is_uppercase() && begins_word {
            out.push('_');
        }
        out.push(if c.is_alphanumeric() { c.to_ascii_lowercase() } else { '_' });
        before = c;
    }
    out
}

/// A name of a field, a method or a module.
pub(crate) fn ident(name: &str) -> String {
    match snake(name) {
        it if ["self", "super", "crate"].contains(&&*it) => it + "_",
        it if KEYWORDS.contains(&&*it) => format!("r#{it}"),
        it if it.starts_with(char::is_numeric) => format!("_{it}"),
        it => it,
    }
}

/// A name of a variant. `Other` is the variant that each enum has besides.
pub(crate) fn variant(name: &str) -> String {
    match camel(name) {
        it if ["Self", "Other"].contains(&&*it) => it + "_",
        it if it.starts_with(char::is_numeric) => format!("N{it}"),
        it => it,
    }
}

/// A name of a constant: `802.1Q` as `_802_1Q`.
pub(crate) fn constant(name: &str) -> String {
    let upper = snake(name).to_uppercase();
    if upper.starts_with(char::is_numeric) { format!("_{upper}") } else { upper }
}

/// The type of a block, such as `HtbOpt` for `struct tc_htb_opt`.
pub(crate) fn type_name(sort: &str, name: &str) -> String {
    match sort {
        "struct" | "choice" => camel(name.strip_prefix("tc_").unwrap_or(name)),
        "list" => camel(name) + "Attr",
        "bits" => camel(name) + "Bits",
        _ => camel(name),
    }
}
