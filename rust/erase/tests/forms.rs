//! Forms, and what is left of them.

use erase::{Crates, erase};
use std::fs;

/// What is left of crates, each a name with the text of its `lib.rt` or of another file; or why nothing is.
fn left_of(test: &str, files: &[(&str, &str)]) -> Result<String, String> {
    let folder = std::env::temp_dir().join(format!("erase-{}-{test}", std::process::id()));
    for (path, text) in files {
        let file = folder.join(path);
        fs::create_dir_all(file.parent().unwrap_or(&folder)).expect("a folder");
        fs::write(file, text).expect("a file");
    }
    let mut crates: Vec<_> = files.iter().filter_map(|(path, _)| path.split('/').next()).collect();
    crates.dedup();
    let done = erase(Crates { folder: &folder, codec: &crates, users: &[], omitted: &[] });
    fs::remove_dir_all(&folder).expect("the folder is there");
    let bundle = done.map_err(|fault| fault.replace(&format!("{}/", folder.display()), ""))?.bundle();
    Ok(bundle.lines().filter(|line| !line.trim().is_empty()).map(|line| format!("{line}\n")).collect())
}

/// What is left of one file, without the `#[inline]` that each function gets.
fn left_of_one(test: &str, text: &str) -> Result<String, String> {
    Ok(inlined_of_one(test, text)?.replace("#[inline]\n", ""))
}

fn inlined_of_one(test: &str, text: &str) -> Result<String, String> {
    let all = left_of(test, &[("one/src/lib.rt", text)])?;
    let (_, inner) = all.split_once("mod one {\n").expect("the module");
    let inner = inner.strip_prefix("use crate::fallible::prelude::*;\n").expect("its prelude");
    Ok(inner.strip_suffix("}\n").expect("its end").replace("< ", "<").replace("( ", "("))
}

#[test]
fn contracts_and_ghosts_go() {
    let text = "ghost use Rattle.std.specs.Prelude.{◌≡◌};\n/// One.\n#[tactic(auto, using(crate::a::b))]\npub fn one() -> u8\n    ensures { result ≡ 1 }\n{\n    1\n}\n";
    assert_eq!(left_of_one("contracts", text).unwrap(), "/// One.\n#[must_use]\npub fn one() -> u8\n{\n    1\n}\n");
}

#[test]
fn braces_in_texts_do_not_count() {
    let text = "pub fn f() -> u8\n    ensures { codes \"}\" ≡ [] }\n{\n    g(b'{', '}', \"{\", r#\"}\"}\"#, 'a')\n}\n";
    assert_eq!(left_of_one("braces", text).unwrap(), "#[must_use]\npub fn f() -> u8\n{\n    g(b'{', '}', \"{\", r#\"}\"}\"#, 'a')\n}\n");
}

#[test]
fn allocators_go() {
    let text = "use std::alloc::{AllocError, Allocator};\npub fn f<A: Allocator + Copy, T>(alloc: A, t: &T) -> Result<Vec<T, A>, AllocError> {\n    let a = g::<A>(alloc, t)?;\n    h(alloc)\n}\n";
    let left = "pub fn f<T>(t: &T) -> Result<Vec<T>, AllocError> {\n    let a = g(t)?;\n    h()\n}\n";
    assert_eq!(left_of_one("allocators", text).unwrap(), left);
}

#[test]
fn a_law_goes_and_a_function_of_its_name_stays() {
    let laws = "pub fn message(bytes: &[u8])\n    ensures { Law bytes.now }\n{}\n";
    let build = "pub fn message(n: u8) -> u8 {\n    n\n}\n";
    let lib = "mod build;\npub use build::message;\n";
    let user = "use low_laws::message;\npub fn f(bytes: &[u8]) -> usize {\n    // A law, which does nothing.\n    message(bytes);\n    bytes.len()\n}\n";
    let files = [("low_laws/src/lib.rt", laws), ("two/src/lib.rt", lib), ("two/src/build.rt", build), ("user/src/lib.rt", user)];
    let left = left_of("laws", &files).unwrap();
    assert!(left.contains("pub use build::message;"), "{left}");
    assert!(left.contains("pub fn f(bytes: &[u8]) -> usize {\n    bytes.len()\n}"), "{left}");
    assert!(!left.contains("low_laws"), "{left}");
}

#[test]
fn a_module_hides_the_shim_of_its_name() {
    let files = [("one/src/lib.rt", "mod hex;\npub use hex::line;\n"), ("one/src/hex.rt", "pub fn line() -> u8 {\n    1\n}\n")];
    assert!(left_of("modules", &files).unwrap().contains("pub use hex::line;"));
    assert!(left_of_one("shims", "pub use hex::decode;\n").unwrap().contains("pub use crate::hex::decode;"));
}

#[test]
fn a_duty_is_checked_and_documented() {
    let text = "/// The rest.\npub fn rest(bytes: &[u8]) -> &[u8]\n    requires header { 4 ≤ length bytes.now }\n{\n    &bytes[4..]\n}\n";
    let left = left_of_one("duties", text).unwrap();
    assert!(left.contains("/// # Panics\n"), "{left}");
    assert!(left.contains("/// - `header: 4 ≤ length bytes.now`\n"), "{left}");
    assert!(left.contains("assert!(4 <= bytes.len(), \"required header: 4 ≤ length bytes.now\");"), "{left}");
}

#[test]
fn a_cut_length_panics() {
    let text = "fn put(len: usize)  -> usize\n    requires short { len ≤ 65531 }\n{\n    put_u16(1, (len + 4) as u16);\n    0\n}\n";
    let left = left_of_one("cut", text).unwrap();
    assert!(left.contains("put_u16(1, u16::try_from(len + 4).expect(\"required short: len ≤ 65531\"));"), "{left}");
}

#[test]
fn errors_are_written_out() {
    let text = "use thiserror::Error;\n#[derive(Debug, Error)]\npub enum E {\n    /// A.\n    #[error(\"a {n}\")]\n    A { n: usize },\n    #[error(\"{0}\")]\n    B(F),\n}\n";
    let left = left_of_one("errors", text).unwrap();
    assert!(left.starts_with("#[derive(Debug, Clone)]\npub enum E {\n    /// A.\n    A { n: usize },\n    B(F),}\n"), "{left}");
    assert!(left.contains("A { n } => write!(f, \"a {n}\"),"), "{left}");
    assert!(left.contains("B(it) => write!(f, \"{0}\", it),"), "{left}");
    assert!(left.contains("impl core::error::Error for E {}"), "{left}");
}

#[test]
fn what_one_expects_of_a_crate_is_added() {
    let errors = left_of_one("fails", "/// Reads it.\npub fn read(bytes: &[u8]) -> Result<u8, Fault> {\n    g(bytes)\n}\n").unwrap();
    assert_eq!(errors, "/// Reads it.\n///\n/// # Errors\n///\n/// A [`Fault`].\npub fn read(bytes: &[u8]) -> Result<u8, Fault> {\n    g(bytes)\n}\n");
    let kept = "pub fn change(bytes: &mut [u8]) -> u8 {\n    g(bytes)\n}\nfn own() -> u8 {\n    1\n}\n#[must_use]\npub fn two() -> u8 {\n    2\n}\n";
    assert_eq!(left_of_one("kept", kept).unwrap(), kept);
    let methods = "pub trait Read: Copy {\n    /// Reads it.\n    fn read(bytes: &[u8]) -> Result<u8, Fault>;\n    fn len(&self) -> usize;\n}\n";
    let documented = methods.replace("it.\n", "it.\n    ///\n    /// # Errors\n    ///\n    /// A [`Fault`].\n").replace("fn len", "#[must_use]\nfn len");
    assert_eq!(left_of_one("methods", methods).unwrap(), documented);
    let own = methods.replace("pub trait", "trait");
    assert_eq!(left_of_one("own", &own).unwrap(), own);
    let types = "#[derive(Clone, PartialEq, Eq)]\npub struct One(u8);\n#[derive(Clone)]\npub struct Two(u8);\nimpl Eq for Two {}\n#[derive(Clone)]\npub struct Three(u8);\n";
    let left = left_of_one("hash", types).unwrap();
    assert_eq!(left, types.replace("PartialEq, Eq)", "PartialEq, Eq, Hash)").replace("(Clone)]\npub struct Two", "(Clone, Hash)]\npub struct Two"));
}

#[test]
fn each_function_is_inlined_where_a_user_calls_it() {
    let text = "/// One.\nfn one(n: &mut u8) {\n    g(n)\n}\ntrait Read: Copy {\n    fn read(&mut self);\n    fn more(&mut self) {\n    g(self)\n    }\n}\n";
    let left = text.replace("fn one", "#[inline]\nfn one").replace("    fn more", "    #[inline]\nfn more");
    assert_eq!(inlined_of_one("inlined", text).unwrap(), left);
}

#[test]
fn what_is_not_known_is_an_error() {
    let file = "one/src/lib.rt";
    assert_eq!(left_of_one("ghost", "\n\nghost fn f() {}\n").unwrap_err(), format!("{file}:3: `ghost` in a form that isn't known"));
    assert_eq!(left_of_one("where", "fn f<A>(a: A)\n-> u8 where A: Allocator {}\n").unwrap_err(), format!("{file}:2: `Allocator` in a form that isn't known"));
    assert_eq!(left_of_one("std", "use std::thread::spawn;\n").unwrap_err(), format!("{file}:1: a module of std that isn't known"));
    assert_eq!(left_of_one("macro", "fn f() -> u8 {\n    other!(1)\n}\n").unwrap_err(), format!("{file}:2: an attribute or a macro that isn't known"));
    assert_eq!(left_of_one("unsafe", "fn f() -> u8 { unsafe { g() } }\n").unwrap_err(), format!("{file}:1: `unsafe` in a form that isn't known"));
}
