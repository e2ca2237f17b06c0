//! Examples in JSON, and `--schema`: the JSON Schema of a line. Each part of the table has one definition, named by its
//! place.

use crate::user::prelude::*;

use crate::forms_values::places::form_at;
use crate::forms_values::{Form, KindRows, Number, Part, Tables};
use crate::show::schema::texts::{
    DEEPEST, Done, Member, about, about_number, first_member, is_pad, layer_of, put, put_around, put_between,
    put_comma, put_counted, put_quoted, put_times,
};

// ---- an example

// The beginning of an example of a kind.
const EXAMPLE: &str = "example: [{\"Kind\":";

// Appends an example of a form, at most `depth` levels deep.
fn put_deep<T: Tables>(out: &mut Vec<u8>, table: T, depth: u8, form: Form) -> Done {
    match depth.checked_sub(1) {
        Some(inner) => put_inner(out, table, inner, form),
        None => put(out, "[]"),
    }
}

fn put_inner<T: Tables>(out: &mut Vec<u8>, table: T, inner: u8, form: Form) -> Done {
    match form {
        Form::Named(_, place) => match first_member(table.part(place)) {
            Some((first, _)) => put_quoted(out, first.name),
            None => put(out, "{\"Other\":1}"),
        },
        Form::Bytes(count) | Form::Pad(count) => {
            put(out, "\"")?;
            put_times(out, "00", count)?;
            put(out, "\"")
        }
        Form::Record(place) => {
            put(out, "{")?;
            put_each(out, table, Each::Example(inner), table.part(place))?;
            put(out, "}")
        }
        Form::Choice(place) => put_one(out, table, inner, place),
        Form::Array(place) => {
            put(out, "[")?;
            put_deep(out, table, inner, form_at(table, place))?;
            put(out, "]")
        }
        Form::Times(count, place) => {
            put(out, "[")?;
            put_elements(out, table, inner, count, form_at(table, place))?;
            put(out, "]")
        }
        Form::List(place) => {
            put(out, "[")?;
            put_first(out, table, inner, "", place)?;
            put(out, "]")
        }
        _ => put(out, about(form).sample),
    }
}

// Appends an example of a form so many times, with commas between.
fn put_elements<T: Tables>(out: &mut Vec<u8>, table: T, inner: u8, count: usize, form: Form) -> Done {
    let mut is_first = true;
    let mut left = count;
    while let Some(others) = left.checked_sub(1) {
        put_comma(out, is_first)?;
        put_deep(out, table, inner, form)?;
        is_first = false;
        left = others;
    }
    Ok(())
}

// Appends an object of the first member.
fn put_one<T: Tables>(out: &mut Vec<u8>, table: T, inner: u8, place: usize) -> Done {
    match first_member(table.part(place)) {
        Some((member, _)) => {
            put(out, "{")?;
            put_member(out, table, Each::Example(inner), true, member)?;
            put(out, "}")
        }
        None => put(out, "{}"),
    }
}

// Appends the first attribute of a list, in its layer and after a text; nothing for an empty list.
fn put_first<T: Tables>(out: &mut Vec<u8>, table: T, inner: u8, before: &str, place: usize) -> Done {
    let part = table.part(place);
    if first_member(part).is_none() {
        return Ok(());
    }
    put(out, before)?;
    let layer = layer_of(part);
    if layer.is_empty() {
        return put_one(out, table, inner, place);
    }
    put_between(out, "{", layer, ":")?;
    put_one(out, table, inner, place)?;
    put(out, "}")
}

/// Appends an example of a kind and the first attribute after it, from the rows at a place.
pub(crate) fn put_example<T: Tables>(out: &mut Vec<u8>, table: T, kind: &str, rows: usize) -> Done {
    put_between(out, EXAMPLE, kind, "}")?;
    put_first(out, table, DEEPEST, ",", rows)?;
    put(out, "]\n")
}

// ---- the schema

// The schema of a line, up to the definitions of messages: the members that begin a line; those of a message, of an
// answer, of a place without a message, and of the end; and the definitions that all tables share.
const LINE: &str = r##"{"$schema":"https://json-schema.org/draft/2020-12/schema",
"title":"A line of tcshow --json",
"type":"object","properties":{
"time":{"type":"string","pattern":"^[0-9]+\\.[0-9]{9}$"},
"packet":{"type":"integer","minimum":1},
"packet_type":{"type":"integer","minimum":0,"maximum":65535},
"type":{"type":"string","pattern":"^(RTM_(NEW|DEL|GET)(QDISC|TCLASS|TFILTER|ACTION|CHAIN)|NLMSG_ERROR)$"},
"flags":{"type":"integer","minimum":0,"maximum":65535},
"seq":{"type":"integer","minimum":0,"maximum":4294967295},
"portid":{"type":"integer","minimum":1,"maximum":4294967295},
"fits":{"type":"boolean"},"settled":{"type":"boolean"},"canonical":{"type":"boolean"},
"refused":{"enum":["BufferTooSmall","FrameHeaderShort","FrameTooLong","FrameTooShort","WrongLength","NotUtf8","SelectorShort","XstatsShort",
"MissingKind","DuplicateKind"]},
"len":{"type":"integer"},"needed":{"type":"integer"},"length":{"type":"integer"},"left":{"type":"integer"},"expected":{"type":"integer"},
"got":{"type":"integer"},
"offset":{"type":"integer","minimum":0},"path":{"type":"string"},
"errno":{"type":"string"},"text":{"type":"string"},
"request":{"type":"object","properties":{"type":{"type":"string"},"flags":{"type":"integer"},"seq":{"type":"integer"},
"portid":{"type":"integer"},"message":{"$ref":"#/$defs/message"}},"required":["type","flags","seq"],"additionalProperties":false},
"note":{"type":"string"},"at":{"type":"integer","minimum":0},
"summary":{"type":"object"},"all":{"type":"object","additionalProperties":{"type":"integer","minimum":0}},
"message":{"$ref":"#/$defs/message"}},
"oneOf":[{"required":["message","settled","canonical","fits"]},{"required":["message","refused","offset","path"]},{"required":["errno",
"request"]},{"required":["note","at"]},{"required":["summary","all"]}],
"additionalProperties":false,
"$defs":{"hex":{"type":"string","pattern":"^([0-9a-f]{2})*$"},
"raw":{"type":"object","properties":{"raw":{"$ref":"#/$defs/hex"}},"required":["raw"],"additionalProperties":false},
"u16":{"type":"integer","minimum":0,"maximum":65535},
"other":{"type":"object","properties":{"word":{"$ref":"#/$defs/u16"},"value":{"$ref":"#/$defs/hex"}},"required":["word","value"],
"additionalProperties":false},
"kind":{"type":"object","properties":{"Kind":{"type":"string"},"bare":{"const":true},"word":{"$ref":"#/$defs/u16"},
"pad":{"$ref":"#/$defs/hex"}},"required":["Kind"],"additionalProperties":false},
"unknown":{"type":"object","properties":{"Other":{"$ref":"#/$defs/other"},"pad":{"$ref":"#/$defs/hex"}},"required":["Other"],
"additionalProperties":false},
"handle":{"type":"string","pattern":"^(root|0:0|[1-9a-f][0-9a-f]{0,3}:([1-9a-f][0-9a-f]{0,3})?|:[1-9a-f][0-9a-f]{0,3})$"},
"mac":{"type":"string","pattern":"^[0-9a-f]{2}(:[0-9a-f]{2}){5}$"},
"ipv4":{"type":"string","pattern":"^(25[0-5]|2[0-4][0-9]|1?[0-9]?[0-9])(\\.(25[0-5]|2[0-4][0-9]|1?[0-9]?[0-9])){3}$"},
"ipv6":{"type":"string","pattern":"^[0-9a-f:.]+$"},
"message":{"anyOf":[{"$ref":"#/$defs/tc"},{"$ref":"#/$defs/action"}]}"##;

// Text before the range of an integer, and before the number of bytes in hex.
const INTEGER: &str = r##"{"type":"integer","minimum":"##;

const BYTES: &str = r##"{"type":"string","pattern":"^([0-9a-f]{2}){"##;

// Text before a schema or raw bytes, and before the elements of a list.
const RAW_OR: &str = r##"{"anyOf":[{"$ref":"#/$defs/raw"},"##;

const LIST: &str = r##"{"type":"array","items":{"anyOf":[{"$ref":"#/$defs/raw"},"##;

// A list of attributes with kinds: text before the place of its rows.
const KINDED: &str =
    r##"{"type":"array","items":{"anyOf":[{"$ref":"#/$defs/raw"},{"$ref":"#/$defs/kind"},{"$ref":"#/$defs/"##;

// Text before the members of an object, before the names of the required ones, and after them.
const OBJECT: &str = r##"{"type":"object","properties":{"##;

const REQUIRED: &str = r##"},"required":["##;

const CLOSED: &str = r##"],"additionalProperties":false}"##;

// A name, or a number without one: text before the place of the names, before the number, and after it; and after the
// last of some choices.
const NAMED: &str = r##"{"anyOf":[{"$ref":"#/$defs/"##;

const OR_OTHER: &str = r##""},{"type":"object","properties":{"Other":"##;

const OTHER_ENDS: &str = r##"}},"required":["Other"],"additionalProperties":false}]}"##;

const OTHERWISE: &str = r##"{"type":"object","properties":{"Other":{"$ref":"#/$defs/hex"}},"required":["Other"],"additionalProperties":false}]}"##;

// An attribute of any type in a list: text before its contents, and after them and the list.
const TAB: &str = r##"{"type":"object","properties":{"tab":{"$ref":"#/$defs/u16"},"pad":{"$ref":"#/$defs/hex"},"attributes":{"anyOf":[{"$ref":"#/$defs/raw"},"##;

const TAB_ENDS: &str = r##"]}},"required":["tab","attributes"],"additionalProperties":false}]}}"##;

// The members that every record and every attribute may have; and text before an attribute of a row, or another one.
const REST: &str = r##""rest":{"$ref":"#/$defs/hex"}},"required":["##;

const WORD: &str = r##""word":{"$ref":"#/$defs/u16"},"pad":{"$ref":"#/$defs/hex"}},"oneOf":["##;

const UNKNOWN: &str = r##"{"anyOf":[{"$ref":"#/$defs/unknown"}"##;

// ---- forms

// Appends a reference to the definition of a place.
fn put_reference(out: &mut Vec<u8>, place: usize) -> Done {
    put_counted(out, "{\"$ref\":\"#/$defs/", place, "\"}")
}

// Appends a name, or a number without one.
fn put_named(out: &mut Vec<u8>, of: Number, place: usize) -> Done {
    put_counted(out, NAMED, place, OR_OTHER)?;
    put_around(out, INTEGER, about_number(of).schema, OTHER_ENDS)
}

// Appends an attribute of a list, in its layer.
fn put_layered(out: &mut Vec<u8>, place: usize, layer: &str) -> Done {
    put_between(out, OBJECT, layer, ":")?;
    put_reference(out, place)?;
    put_between(out, REQUIRED, layer, CLOSED)
}

fn put_item(out: &mut Vec<u8>, place: usize, layer: &str) -> Done {
    if layer.is_empty() {
        return put_reference(out, place);
    }
    put_layered(out, place, layer)
}

// Appends a list of attributes.
fn put_list(out: &mut Vec<u8>, place: usize, layer: &str) -> Done {
    put(out, LIST)?;
    put_item(out, place, layer)?;
    put(out, "]}}")
}

// Appends the element of an array or of an attribute of any type.
fn put_element(out: &mut Vec<u8>, place: usize, part: Part<'static>) -> Done {
    match part {
        Part::One(_) | Part::Fields(_) | Part::Choices(_) => put_reference(out, place),
        Part::Names(_) => put(out, about(Form::Hex).schema),
        Part::Rows(layer, _) => put_list(out, place, layer),
        Part::Kinds(_, _, _) => put_list(out, place, ""),
    }
}

fn put_array(out: &mut Vec<u8>, place: usize, part: Part<'static>) -> Done {
    put(out, LIST)?;
    put_element(out, place, part)?;
    put(out, "]}}")
}

// Appends a list of attributes of any types.
fn put_indexed(out: &mut Vec<u8>, place: usize, part: Part<'static>) -> Done {
    put(out, LIST)?;
    put(out, TAB)?;
    put_element(out, place, part)?;
    put(out, TAB_ENDS)
}

// Appends the schema of a form, for bytes that match it.
fn put_form<T: Tables>(out: &mut Vec<u8>, table: T, form: Form) -> Done {
    match form {
        Form::Number(of) => put_around(out, INTEGER, about_number(of).schema, "}"),
        Form::Named(of, place) => put_named(out, of, place),
        Form::Bytes(count) | Form::Pad(count) => put_counted(out, BYTES, count, "}$\"}"),
        Form::Record(place) | Form::Choice(place) => put_reference(out, place),
        Form::Array(place) | Form::Times(_, place) => put_array(out, place, table.part(place)),
        Form::List(place) => put_list(out, place, layer_of(table.part(place))),
        Form::InForce(place) | Form::Own(place) => put_counted(out, KINDED, place, "\"}]}}"),
        Form::Indexed(place) => put_indexed(out, place, table.part(place)),
        _ => put(out, about(form).schema),
    }
}

// Appends the schema of a form, or raw bytes.
fn put_shown<T: Tables>(out: &mut Vec<u8>, table: T, form: Form) -> Done {
    put(out, RAW_OR)?;
    put_form(out, table, form)?;
    put(out, "]}")
}

// ---- parts

// The text of each member: an example, at most some levels deep; the schema, on its own or in an object; its name; or
// that it is required.
#[derive(Clone, Copy)]
enum Each {
    Example(u8),
    Property,
    Choice,
    Required,
    Alternative,
}

fn put_member<T: Tables>(out: &mut Vec<u8>, table: T, each: Each, is_first: bool, member: Member) -> Done {
    match each {
        Each::Example(depth) => {
            put_comma(out, is_first)?;
            put_between(out, "", member.name, ":")?;
            put_deep(out, table, depth, member.form)
        }
        Each::Property => {
            put_between(out, "", member.name, ":")?;
            put_shown(out, table, member.form)?;
            put(out, ",")
        }
        Each::Choice => {
            put_between(out, OBJECT, member.name, ":")?;
            put_shown(out, table, member.form)?;
            put_between(out, REQUIRED, member.name, CLOSED)?;
            put(out, ",")
        }
        Each::Required => {
            put_comma(out, is_first)?;
            put_quoted(out, member.name)
        }
        Each::Alternative => {
            put_comma(out, is_first)?;
            put_between(out, "{\"required\":[", member.name, "]}")
        }
    }
}

// Padding is left out if it is zero.
fn is_left_out(each: Each, form: Form) -> bool {
    matches!(each, Each::Example(_) | Each::Required) && is_pad(form)
}

fn put_each<T: Tables>(out: &mut Vec<u8>, table: T, each: Each, part: Part<'static>) -> Done {
    let mut left = part;
    let mut is_first = true;
    while let Some((member, others)) = first_member(left) {
        if !is_left_out(each, member.form) {
            put_member(out, table, each, is_first, member)?;
            is_first = false;
        }
        left = others;
    }
    Ok(())
}

// Appends an object of these members and others, some of them required.
fn put_object<T: Tables>(out: &mut Vec<u8>, table: T, part: Part<'static>, others: &str, each: Each) -> Done {
    put(out, OBJECT)?;
    put_each(out, table, Each::Property, part)?;
    put(out, others)?;
    put_each(out, table, each, part)?;
    put(out, CLOSED)
}

// Appends an attribute of one of these rows, if there are any.
fn put_row<T: Tables>(out: &mut Vec<u8>, table: T, part: Part<'static>) -> Done {
    if first_member(part).is_none() {
        return put(out, "]}");
    }
    put(out, ",")?;
    put_object(out, table, part, WORD, Each::Alternative)?;
    put(out, "]}")
}

fn put_kinds(out: &mut Vec<u8>, kinds: &[KindRows<'_>]) -> Done {
    if let Some((first, others)) = kinds.split_first() {
        put(out, ",")?;
        put_reference(out, first.rows)?;
        put_kinds(out, others)?;
    }
    Ok(())
}

fn put_part<T: Tables>(out: &mut Vec<u8>, table: T, part: Part<'static>) -> Done {
    match part {
        Part::One(form) => put_form(out, table, form),
        Part::Names(names) => {
            put(out, "{\"enum\":[")?;
            put_each(out, table, Each::Required, Part::Names(names))?;
            put(out, "]}")
        }
        Part::Kinds(every, others, kinds) => {
            put(out, "{\"anyOf\":[")?;
            put_reference(out, every)?;
            put(out, ",")?;
            put_reference(out, others)?;
            put_kinds(out, kinds)?;
            put(out, "]}")
        }
        Part::Fields(fields) => put_object(out, table, Part::Fields(fields), REST, Each::Required),
        Part::Rows(layer, rows) => {
            put(out, UNKNOWN)?;
            put_row(out, table, Part::Rows(layer, rows))
        }
        Part::Choices(choices) => {
            put(out, "{\"oneOf\":[")?;
            put_each(out, table, Each::Choice, Part::Choices(choices))?;
            put(out, OTHERWISE)
        }
    }
}

// Appends a definition for each place.
fn put_places<T: Tables>(out: &mut Vec<u8>, table: T, places: &[usize]) -> Done {
    if let Some((first, others)) = places.split_first() {
        put_counted(out, ",\n\"", *first, "\":")?;
        put_part(out, table, table.part(*first))?;
        put_places(out, table, others)?;
    }
    Ok(())
}

/// Appends the schema of a line: of the two messages with these forms, from the parts at these places of a table, which
/// must be all that forms refer to.
///
/// # Errors
///
/// A [`AllocError`].
pub fn put_schema<T: Tables>(
    table: T,
    places: &[usize],
    tc: Form,
    action: Form,
    out: &mut Vec<u8>,
) -> Result<(), AllocError> {
    put(out, LINE)?;
    put(out, ",\n\"tc\":")?;
    put_shown(out, table, tc)?;
    put(out, ",\n\"action\":")?;
    put_shown(out, table, action)?;
    put_places(out, table, places)?;
    put(out, "}}\n")
}
