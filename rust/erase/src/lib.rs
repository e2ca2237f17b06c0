//! Takes out of Rattle sources what Rust doesn't have: contracts, ghost items, laws and their calls, the bound `Drop`, and
//! allocators. What is left is Rust, and is not proved: it is made from sources that are.
//!
//! It takes out nothing else, and rewrites only what the tables of `rules.rs` name, by the patterns of `pattern.rs`. A form that it
//! doesn't know is a [`Fault`] with its file and line. `laws.rs` takes out laws and their calls, `duties.rs` checks and documents
//! what a `requires` asked, `finish.rs` applies the tables, and `additions.rs` adds what one expects of a crate in Rust.
#![deny(missing_docs)]

mod additions;
mod duties;
mod finish;
mod items;
mod laws;
mod pattern;
mod rules;
mod token;

use std::collections::BTreeMap;
use std::path::Path;
use std::{fs, io};
use token::Token;

/// A form that isn't known, or a file that can't be read: `FILE:LINE: WHY`.
pub type Fault = String;

/// A file of a crate.
struct Source {
    /// Its crate and the modules that it is in.
    path: Vec<String>,
    /// Its own comment, `//!`.
    docs: String,
    tokens: Vec<Token>,
}

/// What is to be erased.
#[derive(Clone, Copy)]
pub struct Crates<'a> {
    /// The folder of the crates.
    pub folder: &'a Path,
    /// The crates of the codec.
    pub codec: &'a [&'a str],
    /// Crates of programs or of tests over it.
    pub users: &'a [&'a str],
    /// Modules and functions that are left out, such as `tc_texts::address`, with what exports them.
    pub omitted: &'a [&'a str],
}

/// The erased modules of some crates, by their paths, the crate's name first: the module's own comment, and its text.
pub struct Erased(BTreeMap<Vec<String>, (String, String)>);

/// Erases crates. Each becomes a module at the root of one crate, beside the shims.
pub fn erase(from: Crates<'_>) -> Result<Erased, Fault> {
    let crates = [from.codec, from.users].concat();
    let mut files = Vec::new();
    for krate in &crates {
        read_crate(&from.folder.join(krate).join("src"), &[krate.to_string()], &mut files)?;
    }
    files.retain(|file| !from.omitted.contains(&file.path.join("::").as_str()));
    laws::drop_laws(&mut files, from.omitted)?;
    let finished = files.into_iter().map(|file| {
        let is_user = from.users.contains(&file.path[0].as_str());
        Ok((file.path.clone(), (file.docs.clone(), finish::finished(file, &crates, is_user)?)))
    });
    finished.collect::<Result<_, Fault>>().map(Erased)
}

fn read_crate(folder: &Path, path: &[String], files: &mut Vec<Source>) -> Result<(), Fault> {
    let unread = |e: io::Error| format!("{}: {e}", folder.display());
    for entry in fs::read_dir(folder).map_err(unread)?.flatten() {
        let file = entry.path();
        let stem = file.file_stem().unwrap_or_default().to_string_lossy().into_owned();
        let path = if stem == "lib" { path.to_vec() } else { [path, &[stem]].concat() };
        if file.is_dir() {
            read_crate(&file, &path, files)?;
        // The crate's own tests run on the host of Rattle.
        } else if !path.ends_with(&["tests".to_string()]) && file.extension().is_some_and(|extension| extension == "rt") {
            let stands = rules::STOOD_FOR.iter().find(|(module, _)| *module == path.join("::"));
            let text = stands.map_or_else(|| fs::read_to_string(&file), |(_, shim)| Ok(shim.to_string())).map_err(unread)?;
            let docs: String = text.lines().take_while(|line| line.starts_with("//!")).map(|line| format!("{line}\n")).collect();
            let rest = text[docs.len().min(text.len())..].to_string();
            let mut tokens = token::tokens(rest.leak(), file.display().to_string().leak(), 1 + docs.lines().count())?;
            rules::GHOSTS.iter().for_each(|rule| pattern::rewrite(&mut tokens, rule));
            refuse(&tokens, &["ghost", "requires", "ensures"])?;
            files.push(Source { path, docs: without_allocators(docs), tokens });
        }
    }
    Ok(())
}

/// A fault where one of these words is left.
fn refuse(all: &[Token], words: &[&str]) -> Result<(), Fault> {
    let left = all.iter().find(|token| words.contains(&token.text));
    left.map_or(Ok(()), |token| Err(token.fault(&format!("`{}` in a form that isn't known", token.text))))
}

/// A module's own comment, whose examples allocate as Rust does. They are no tests, since they don't say what they import.
fn without_allocators(docs: String) -> String {
    let changes = [("```rust\n", "```\n"), ("//! ```\n//! ", "//! ```ignore\n//! "), ("[in alloc; ", "["), ("]?)", "])"), ("(alloc, ", "(")];
    changes.iter().fold(docs, |docs, (from, to)| docs.replace(from, to))
}

impl Erased {
    /// All of it as nested modules, for an `include!`.
    pub fn bundle(&self) -> String {
        let crates = self.0.keys().filter(|path| path.len() == 1);
        crates.map(|path| self.nested(path, &format!("#[allow({})]\nmod", rules::LINTS))).collect()
    }

    fn nested(&self, path: &[String], keyword: &str) -> String {
        let (docs, mut text) = self.0[path].clone();
        for inner in self.0.keys().filter(|inner| inner.len() == path.len() + 1 && inner.starts_with(path)) {
            let declaration = |keyword: &str| format!("{keyword} {};", inner[path.len()]);
            let keyword = ["pub(crate) mod", "pub mod", "mod"].into_iter().find(|keyword| text.contains(&declaration(keyword))).unwrap_or("mod");
            text = text.replacen(&declaration(keyword), &self.nested(inner, keyword), 1);
        }
        format!("{}{keyword} {} {{\n{text}\n}}\n", docs.replace("//!", "///"), path[path.len() - 1])
    }

    /// All of it as files below a folder: `NAME.rs` of each crate and of each module.
    pub fn write(&self, folder: &Path) -> io::Result<()> {
        for (path, (docs, text)) in &self.0 {
            let file = folder.join(path.join("/")).with_extension("rs");
            fs::create_dir_all(file.parent().unwrap_or(folder))?;
            fs::write(file, format!("{docs}\n{text}\n"))?;
        }
        Ok(())
    }
}
