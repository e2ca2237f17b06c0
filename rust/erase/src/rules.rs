//! What is rewritten, as tables: everything that the eraser knows by name stands here.

use crate::pattern::Rule;

/// Crates of laws, beside those whose names end in `_laws`.
pub(crate) const LAW_CRATES: &[&str] = &["tc_meaning"];

/// Modules for which a shim stands.
pub(crate) const STOOD_FOR: &[(&str, &str)] = &[
    ("forms_text::read", "pub use crate::strict::*;"),
    ("forms_text::repeated", ""),
    ("program_io::copied", "pub(crate) use crate::host::{copied, copied_if_any};"),
    ("tc_lines::log", "pub enum Note {}"),
    ("tcshow_lib::zone", "pub(crate) use crate::zones::{SystemZone, ZoneError};"),
];

/// Classes of words: types of allocators, the names of their values, traits that only contracts name (one that isn't listed stays
/// as a trait with nothing in it), and modules of `std` for which `host` stands.
pub(crate) const CLASSES: &[(&str, &[&str])] = &[
    ("%A", &["A", "Global"]),
    ("%v", &["alloc", "_alloc"]),
    ("%M", &["Drop", "FrameMeaning", "BytesMeaning", "CanonMeaning", "Described", "AllocGlobal", "Eprint"]),
    ("%H", &["env", "fs", "io", "rt"]),
];

/// Imports of these have no use any more.
pub(crate) const LOST_IMPORTS: &[&str] = &[
    "Abort", "AllocError", "AllocFailed", "AllocGlobal", "Allocator", "BuildHasherDefault", "BytesMeaning", "CanonMeaning", "Case", "Described", "Eprint",
    "Failing", "FoldHasher", "FrameMeaning", "Global", "Log", "String", "byteorder", "thiserror",
];

/// Contracts, ghost items, and the attributes of proofs. What a `requires` asks stays before the body, for `duties.rs`.
pub(crate) const GHOSTS: &[Rule] = &[
    ("# [ cfg ( test ) ] mod tests ;", ""),
    ("ensures { $;c }", ""),
    ("ensures $n { $;c }", ""),
    ("requires { $;c }", "(required $;c)"),
    ("requires $n { $;c }", "(required $n: $;c)"),
    ("pub ghost", "ghost"),
    ("ghost use $*p ;", ""),
    ("ghost $n : { $;t } = { $;v } ;", ""),
    ("ghost $n : { $;t } ;", ""),
    ("ghost $n : { $;t } ,", ""),
    ("ghost $n : { $;t } }", "}"),
    ("ghost $n = { $;v } ;", ""),
    ("# ! [ tactic ( $;t ) ]", ""),
    ("# [ tactic ( $;t ) ]", ""),
    ("# [ cycle ( $;t ) ]", ""),
];

/// How a frame is written in Rust.
const PUT_FRAME: &str = "let (header, rest) = buffer.split_at_mut(NLA_HEADER_SIZE);
        let (word, len) = put_padded(rest, self);
        put_header(header,";
const PUT_PADDED: &str = "#[inline(always)]
fn put_padded<T: Nla>(buffer: &mut [u8], item: &T) -> (u16, usize) {
    let (word, len) = item.put_row(buffer);$;b
    (word, len)
}";
const PUT_ROW: &str = "fn put_value(&self, buffer: &mut [u8]) -> usize;

    /// Its `nla_type`, and how many bytes its value has, which it writes as `put_value` does.
    #[doc(hidden)]
    fn put_row(&self, buffer: &mut [u8]) -> (u16, usize) {
        (self.kind(), self.put_value(buffer))
    }";
const PUT_BOTH: &str = "fn put_value(&self, buffer: &mut [u8]) -> usize {
        self.put_row(buffer).1
    }

    #[inline(always)]
    fn put_row(&self, buffer: &mut [u8]) -> (u16, usize) {$;b}";

const ERROR: &str = "impl core::fmt::Display for $x {
    fn fmt(&self, f: &mut core::fmt::Formatter<'_>) -> core::fmt::Result {$;b}
}

impl core::error::Error for $x {}";
const DEFAULT: &str = "impl $x {$;a$;c}

impl Default for $x {
    fn default() -> $x {$;b}
}";

/// Rules, each applied to a whole file, one after the other.
pub(crate) const RULES: &[Rule] = &[
    // Errors: what `thiserror` derives.
    ("# [ derive ( $*d , Error $*e ) ] pub enum $x { $*v }", "#[derive($*d$*e)]\npub enum $x {$*v}\n\ntexts $x { match self { $@v } }"),
    (
        "# [ derive ( $*d , Error $*e ) ] # [ error ( $t ) ] pub struct $x { $*f }",
        "#[derive($*d$*e)]\npub struct $x {$*f}\n\ntexts $x { let $x { $@f } = self; write!(f, $t) }",
    ),
    ("texts $x { $;b }", ERROR),
    ("# [ error ( $t ) ]", ""),
    // Without an allocator a derive needs no bounds of its own, and Rust's `Default` will do.
    ("# [ derive_where ( $*x ; A ) ]", "#[derive($*x)]"),
    ("# [ derive_where ( $*x ) ]", "#[derive($*x)]"),
    ("impl < %A > $x < %A > { $;a pub fn default_in ( %v ) -> $x < %A > { $;b } $;c }", DEFAULT),
    (":: default_in (", "::default("),
    ("String::from_utf8_lossy ( %v , $*x )", "Ok(String::from_utf8_lossy($*x).into_owned())"),
    // A call from C takes slices, which in Rust aren't a pointer and a length: what exports it is written by hand.
    ("# [ unsafe ( no_mangle ) ] pub extern $t fn", "pub fn"),
    // A variant has a byte of its own, as in Rattle: that of one in another would be told by what the inner one holds.
    ("pub enum $x < %A > {", "#[repr(u8)]\npub enum $x {"),
    // Allocators: types, values, parameters and fields.
    (":: < %A >", ""),
    ("< %A >", ""),
    ("< %A ,", "<"),
    (", %A >", ">"),
    ("pub ( crate ) %v ,", ""),
    ("pub %v ,", ""),
    ("let %v = %v ;", ""),
    ("( %v , ", "("),
    ("( %v )", "()"),
    (", %v )", ")"),
    (", %v , ", ","),
    ("{ %v , ", "{"),
    // Traits that only contracts name. In Rattle, types have a size, and a method that no impl writes says so.
    ("# [ derive ( %M ) ]", ""),
    ("derive ( %M , ", "derive("),
    ("derive ( $-x , %M $-y )", "derive($-x$-y)"),
    (": %M + ", ": "),
    ("+ %M", ""),
    (": %M", ""),
    ("pub trait %M { }", ""),
    ("impl $-g %M for $-x { }", ""),
    ("trait $x {", "trait $x: Sized {"),
    ("trait $x < $t > {", "trait $x<$t>: Sized {"),
    ("trait $x < const $n : usize > {", "trait $x<const $n: usize>: Sized {"),
    ("final fn", "fn"),
    // Allocation that fails: the module `fallible` has Rust's fallible forms.
    ("impl < T > From < AllocFailed < T > > for $x { $*b }", ""),
    ("vec ! [ in %v ; $*x ; $*n ]", "fallible::filled($*x, $*n)"),
    ("Vec :: with_capacity (", "fallible::with_capacity("),
    ("Vec :: from_slice (", "fallible::copy("),
    ("String :: from_str (", "fallible::text("),
    (". push ( $*x ) ?", ".try_push($*x)?"),
    (". reserve ( $*x ) ?", ".try_grow($*x)?"),
    (". extend_from_slice (", ".try_extend("),
    (". push_reserved (", ".push("),
    // Handles have an order, and targets can be compared.
    ("# [ derive ( $*d ) ] pub struct TcHandle {", "#[derive($*d, PartialOrd, Ord)]\npub struct TcHandle {"),
    ("# [ derive ( $*d ) ] pub struct Target {", "#[derive($*d, PartialEq, Eq)]\npub struct Target {"),
    // A clone can't fail, so the one that is written by hand is derived.
    ("impl Clone for TcFilterFlowerOption { $;b }", ""),
    ("pub enum TcFilterFlowerOption {", "#[derive(Clone)]\npub enum TcFilterFlowerOption {"),
    // An error whose text is written by hand can be cloned as the others.
    ("pub enum MakeError {", "#[derive(Clone)]\npub enum MakeError {"),
    // Rust's formatter isn't generic.
    ("< W : fmt :: Write > ( $*x Formatter < W >", "($*x Formatter<'_>"),
    ("< W : Write > ( $*x Formatter < W >", "($*x Formatter<'_>"),
    ("W : Write ,", ""),
    ("Formatter < W >", "Formatter<'_>"),
    // Loops and bounds that rustc can see: over a list, and a header of four bytes before what follows it.
    ("let mut left = items ; while let [ item , after @ .. ] = left { $;b left = after ; }", "for item in items {$;b\n    }"),
    ("let word = self . kind ( ) ; let len = put_padded ( & mut buffer [ NLA_HEADER_SIZE .. ] , self ) ; put_header ( buffer ,", PUT_FRAME),
    ("fn put_padded < T : Nla > ( buffer : & mut [ u8 ] , item : & T ) -> usize { let len = item . put_value ( buffer ) ; $;b len }", PUT_PADDED),
    // A frame that tells no kind leaves the kinds found as they are.
    ("only = only . and ( kind_set_by_frame ( $*f ) ? ) ;", "if let told @ Some(_) = kind_set_by_frame($*f)? {\n            only = only.and(told);\n        }"),
    // An attribute's word and value in one step, since rustc tells its variant twice otherwise.
    ("fn put_value ( & self , buffer : & mut [ u8 ] ) -> usize ;", PUT_ROW),
    ("fn put_value $-p { self . $v ( ) . 1 . put ( buffer ) }", "fn put_row { let (word, value) = self.$v(); (word, value.put(buffer)) }"),
    ("fn put_value $-p { match self { $*a } }", "fn put_row { match self {$*a} }"),
    ("fn put_row { $;b }", PUT_BOTH),
    ("=> $x . put_value ( buffer ) ,", "=> $x.put_row(buffer),"),
    ("# [ rattlefmt :: skip ]", "#[rustfmt::skip]"),
    // Calls of std that Rust has under another name, or had later.
    ("parse_ascii ( $x . as_bytes ( ) )", "from_str($x)"),
    ("( $*x ) . is_multiple_of ( $*n )", "(($*x) % ($*n) == 0)"),
    (". cast_unsigned ( )", ".unsigned()"),
    ("$x . floor_char_boundary ( $*n )", "crate::user::char_boundary($x, $*n)"),
    ("std :: str :: from_utf8 (", "str::from_utf8("),
    ("str :: from_utf8 (", "core::str::from_utf8("),
    ("$x :: from_octets (", "$x::from("),
    (":: self ;", ";"),
    ("$x :: self as $y", "$x as $y"),
    // Numbers in bytes.
    ("LittleEndian :: $r ( $x )", "$r::from_le_bytes(*$x.first_chunk().expect(\"its bytes\"))"),
    ("BigEndian :: $r ( $x )", "$r::from_be_bytes(*$x.first_chunk().expect(\"its bytes\"))"),
    ("read_u16 ::", "u16::"),
    ("read_u32 ::", "u32::"),
    ("read_u64 ::", "u64::"),
    // A request is settled before it is copied.
    ("let copy = request . clone ( ) ? ;", "let copy = fallible::copied(request)?;"),
    // What can't fail in Rust.
    (". append ( $*x ) ?", ".append($*x)"),
    (". clone ( ) ?", ".clone()"),
];

/// Rules of programs and tests, before those above.
pub(crate) const USER_RULES: &[Rule] = &[
    ("( rt : HostRuntime )", "()"),
    ("$m ! ( rt ; $*x )", "$m!($*x)"),
    (", BuildHasherDefault < FoldHasher >", ""),
    (". insert ( $*x ) ?", ".insert($*x)"),
    (". sort_by_key ( $*f ) ?", ".sort_by_key($*f)"),
    (". repeat ( %v , $*n ) ?", ".repeat($*n)"),
    ("std :: test ::", "crate::user::"),
    ("Fail :: new ( format_args ! ( $*x ) )", "Fail::from(format!($*x))"),
    ("Fail :: new (", "Fail::from("),
    ("format ! ( in %v ; $*x )", "crate::user::formatted(format_args!($*x))"),
    (". push_str ( $*x ) ?", ".try_push_str($*x)?"),
    ("=> $x . push_str ( $*y ) ,", "=> $x.try_push_str($*y),"),
    (". to_vec ( %v )", ".try_to_vec()"),
    (". to_string ( %v )", ".try_to_string()"),
    // Over the real `serde` and `serde_json`.
    ("match $*x . push ( $*y ) {", "match $*x.try_push($*y) {"),
    (". push ( $*y ) . is_err ( )", ".try_push($*y).is_err()"),
    ("Value :: try_from_str ( %v , $*x )", "fallible::text($*x).map(Value::String)"),
    (". first_key_value ( )", ".iter().next()"),
    ("serde_json :: to_string ( %v , ", "crate::jsontext::to_string("),
    ("# [ serde ( rename = $t ) ] $f :", "$f as $t:"),
    ("# [ derive ( $*d , Serialize ) ] $-v struct $x $-g { $;f }", "crate::jsontext::sent! { #[derive($*d)] $-v struct $x $-g {$;f} }"),
    // A serializer of lines, without the log of what it was sent, and without methods for what isn't JSON.
    ("self . log = after ( $*x ) ;", ""),
    ("log : Log $*x ,", ""),
    ("# [ inline ( always ) ] fn after $-x -> Log { $;b }", ""),
    ("# [ inline ( always ) ] fn noted $-x -> Note < 't > { $;b }", ""),
    ("# [ inline ( always ) ] fn unit ( & mut self ) -> $-r { $;b }", ""),
    ("fn $x ( & mut self $*p ) -> Result < ( ) , $e > { Err ( $e :: NotJson ) }", ""),
    ("fn key_cased ( $*a , case : Case ) -> $-r { match case { Case :: AsIs => $*x , _ => { $;y } } }", "fn key($*a) -> $-r {$*x}"),
    ("fn key_cased ( $*a , case : Case ) -> $-r { match case { Case :: AsIs => { $;x } _ => $*y , } }", "fn key($*a) -> $-r {$;x}"),
    // What the shim of `arrayvec` does without.
    ("handle_text ( $*x ) . as_bytes ( )", "handle_text($*x).as_str().as_bytes()"),
    // Streams, files and arguments are those of the module `host`.
    ("std :: %H", "crate::host::%H"),
    ("std :: convert :: AsStr", "crate::host::AsStr"),
    ("Vec :: from_iter ( %v , $*x )", "crate::user::collected($*x)"),
    ("W : Write", "W: crate::host::io::Write"),
];

/// The crates of `tcshow`, which have a second allocator.
pub(crate) const SHOW_CRATES: &[&str] = &["tcshow_json", "tcshow_input", "tcshow_lib"];

/// Rules of these crates, before those of programs.
pub(crate) const SHOW_RULES: &[Rule] = &[
    ("alloc , alloc ,", "alloc,"),
    ("alloc , json ,", "alloc,"),
    ("alloc : json ,", ""),
    ("pub ( crate ) json : Global ,", ""),
    ("json : Global ,", ""),
    ("( json ,", "("),
    ("self . json ,", ""),
    ("( self . json )", "()"),
    (":: new ( json )", "::new()"),
    ("< B : Allocator >", ""),
    ("Page < B >", "Page"),
];

/// What is left of an enum's variants as the arms of a `match`, and of a struct's fields as a pattern.
pub(crate) const ARMS: &[Rule] = &[
    ("# [ error ( $t ) ] $v ( $-f ) ,", "Self::$v(it) => write!(f, $t, it),"),
    ("# [ error ( $t ) ] $v { $-f } ,", "Self::$v { $-f } => write!(f, $t),"),
    ("# [ error ( $t ) ] $v ,", "Self::$v => write!(f, $t),"),
    ("pub $f : $t ,", "$f,"),
    (": usize", ""),
];

/// What a caller's duty kept from happening, in a function that has one; `MESSAGE` names the duty.
pub(crate) const CHECKS: &[Rule] = &[
    (". unwrap_or ( 0 )", ".expect(MESSAGE)"),
    (", ( $*x ) as u8", ", u8::try_from($*x).expect(MESSAGE)"),
    (", ( $*x ) as u16", ", u16::try_from($*x).expect(MESSAGE)"),
];

/// A duty in Rust.
pub(crate) const DUTIES: &[Rule] = &[("length $x . now", "$x.len()"), ("length $x . old . $f . now", "$x.$f.len()"), ("≤", "<=")];

/// Modules of `std` that are in `core` too, and those that programs and tests use beside them.
pub(crate) const CORE: &[&str] = &["cmp", "convert", "error", "fmt", "hash", "iter", "marker", "mem", "net", "ops", "result", "slice", "str"];
pub(crate) const STD: &[&str] = &["collections", "hash", "process"];

/// Modules of the shims, beside those crates that one stands for.
pub(crate) const MODULES: &[&str] = &["fallible", "host", "jsontext", "serde", "strict", "user", "zones"];
pub(crate) const SHIMS: &[&str] = &["arrayvec", "bitflags", "hex", "itoa", "jiff_core", "jiff_tz", "memchr", "serde", "serde_json"];

/// Words that would be left of a form that no rule knows.
pub(crate) const UNKNOWN: &[&str] =
    &["Allocator", "Global", "AllocFailed", "Drop", "alloc", "_alloc", "derive_where", "final", "thiserror", "push_reserved", "parse_ascii", "unsafe"];

/// Attributes that Rust has too, and macros: of `core` and `std`, and of the sources' own.
pub(crate) const ATTRIBUTES: &[&str] = &["allow", "cfg", "default", "doc", "derive", "inline", "must_use", "repr", "rustfmt", "test"];
pub(crate) const MACROS: &[&str] = &[
    "any_of", "assert", "assert_eq", "done", "flags", "format", "format_args", "macro_rules", "matches", "name_of", "sent", "stringify", "type_of",
    "unreachable", "write",
];

/// Lints that erased modules don't meet: contracts used what is now unused, and some code is easier to prove than what clippy prefers.
pub(crate) const LINTS: &str = "dead_code, missing_docs, unused_doc_comments, unused_imports, unused_labels, unused_must_use, unused_variables, \
    clippy::complexity, clippy::perf, clippy::style, clippy::manual_unwrap_or_default, clippy::unnecessary_get_then_check, \
    clippy::derived_hash_with_manual_eq, rustdoc::broken_intra_doc_links";
