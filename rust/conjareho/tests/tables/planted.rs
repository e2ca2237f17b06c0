//! Tables with one wrong part, each of which the facts have to exclude.

use crate::codec::Codec;
use crate::look::{place_in, told, type_of};
use crate::{kinds, sound};
use conjareho::forms::{
    ACTION_LIST, Choice, Field, Form, KindRows, Name, Number, PLACES, Part, Row, TC_LIST, Tables, TcTables,
};

/// The table of all kinds with another part at one place.
#[derive(Clone, Copy)]
struct Planted {
    at: usize,
    part: Part<'static>,
}

impl Tables for Planted {
    fn part(self, place: usize) -> Part<'static> {
        if place == self.at { self.part } else { TcTables.part(place) }
    }
}

/// A list in which the first item stands once more at the end.
fn repeated<T: Clone>(items: &[T]) -> Option<&'static [T]> {
    let first = items.first()?;
    Some([items, std::slice::from_ref(first)].concat().leak())
}

/// A list with one item changed.
fn with<T: Copy>(items: &[T], at: usize, item: T) -> &'static [T] {
    let mut items = items.to_vec();
    items[at] = item;
    items.leak()
}

/// A part in which something stands twice.
fn doubled(part: Part<'static>) -> Option<Part<'static>> {
    match part {
        Part::One(_) => None,
        Part::Names(names) => repeated(names).map(Part::Names),
        Part::Fields(fields) => repeated(fields).map(Part::Fields),
        Part::Rows(layer, rows) => repeated(rows).map(|rows| Part::Rows(layer, rows)),
        Part::Kinds(common, others, kinds) => repeated(kinds).map(|kinds| Part::Kinds(common, others, kinds)),
        Part::Choices(choices) => repeated(choices).map(Part::Choices),
    }
}

#[test]
fn what_stands_twice_is_found_in_every_part() {
    for at in 0..PLACES {
        if let Some(part) = doubled(TcTables.part(at)) {
            assert_ne!(sound::faults_at(Planted { at, part }, at), [""; 0], "{at}");
        }
    }
}

/// A form like another, with this place.
fn moved(form: Form, to: usize) -> Option<Form> {
    match form {
        Form::Named(number, _) => Some(Form::Named(number, to)),
        Form::Record(_) => Some(Form::Record(to)),
        Form::Array(_) => Some(Form::Array(to)),
        Form::Times(count, _) => Some(Form::Times(count, to)),
        Form::List(_) => Some(Form::List(to)),
        Form::InForce(_) => Some(Form::InForce(to)),
        Form::Own(_) => Some(Form::Own(to)),
        Form::Indexed(_) => Some(Form::Indexed(to)),
        Form::Choice(_) => Some(Form::Choice(to)),
        _ => None,
    }
}

/// No part is at this place.
const NOWHERE: usize = 1_000_000;

/// A part whose first place is nowhere.
fn misplaced(part: Part<'static>) -> Option<Part<'static>> {
    match part {
        Part::Fields(fields) => fields.iter().enumerate().find_map(|(n, it)| {
            let form = moved(it.form, NOWHERE)?;
            Some(Part::Fields(with(fields, n, Field { form, ..*it })))
        }),
        Part::Rows(layer, rows) => rows.iter().enumerate().find_map(|(n, it)| {
            let form = moved(it.form, NOWHERE)?;
            Some(Part::Rows(layer, with(rows, n, Row { form, ..*it })))
        }),
        Part::Kinds(common, others, kinds) => {
            let first = kinds.first()?;
            Some(Part::Kinds(common, others, with(kinds, 0, KindRows { rows: NOWHERE, ..*first })))
        }
        Part::Choices(choices) => choices.iter().enumerate().find_map(|(n, it)| {
            let form = moved(it.form, NOWHERE)?;
            Some(Part::Choices(with(choices, n, Choice { form, ..*it })))
        }),
        Part::One(form) => moved(form, NOWHERE).map(Part::One),
        Part::Names(_) => None,
    }
}

#[test]
fn what_is_nowhere_is_found_in_every_part() {
    for at in 0..PLACES {
        if let Some(part) = misplaced(TcTables.part(at)) {
            assert_ne!(sound::faults_at(Planted { at, part }, at), [""; 0], "{at}");
        }
    }
}

#[test]
fn reserved_names_and_kinds_among_rows_are_found() {
    let (row, field) = (Row { word: 7, name: "raw", form: Form::Hex }, Field { name: "rest", form: Form::Hex });
    let choice = Choice { name: "Other", prefix: &[0][..], len: None, form: Form::Hex };
    for part in
        [Part::Rows("", &*vec![row].leak()), Part::Fields(&*vec![field].leak()), Part::Choices(&*vec![choice].leak())]
    {
        assert_ne!(sound::faults_at(Planted { at: NOWHERE, part }, NOWHERE), [""; 0]);
    }
    let Part::Kinds(common, others, own) = TcTables.part(TC_LIST) else { panic!("a list with kinds") };
    for at in [common, others, own[0].rows] {
        let part = Part::Rows("", &*vec![Row { word: 0x8001, name: "Odd", form: Form::Hex }].leak());
        let forms = [Form::InForce(TC_LIST)];
        assert_eq!(sound::faults_of_forms(Planted { at, part }, "list", &forms).len(), 1);
    }
}

/// The places of parts for which something is so.
fn places(is_it: impl Fn(Part<'static>) -> bool) -> Vec<usize> {
    (0..PLACES).filter(|at| is_it(TcTables.part(*at))).collect()
}

/// The faults that the codec finds in a table with another part.
fn found(codec: &Codec, at: usize, part: Part<'static>) -> usize {
    let table = Planted { at, part };
    codec.faults(table).len() + kinds::faults(codec, table).len()
}

/// The place of the rows in a layer that have all attributes of a list of the codec.
fn place_of(layer: &str, attributes: &[(u16, &str)]) -> usize {
    let has = |rows: &[Row<'static>], (n, name): &(u16, &str)| {
        rows.iter().any(|it| (type_of(it.word), it.name) == (*n, *name))
    };
    let has_all = |rows: &[Row<'static>]| attributes.iter().all(|it| has(rows, it));
    let found = places(|part| matches!(part, Part::Rows(around, rows) if around == layer && has_all(rows)));
    let [place] = found[..] else { panic!("{attributes:?} are at {found:?}") };
    place
}

/// The attributes in the lines of a list, and those that may have any form.
fn attributes(codec: &Codec, list: &str) -> (Vec<(u16, &'static str)>, Vec<&'static str>) {
    let words = |line: &&'static str| line.split(' ').collect::<Vec<_>>();
    let lines: Vec<_> = codec.lines(&format!("list {list}")).iter().map(words).collect();
    let all = lines.iter().map(|it| (it[0].parse().expect("a type"), it[1])).collect();
    (all, lines.iter().filter(|it| it[2] == "any").map(|it| it[1]).collect())
}

/// Each attribute of the codec with another name, flag, type or form in the rows at a place. Returns how many there are.
fn change_each(codec: &Codec, list: &str, at: usize) -> usize {
    let (all, kept) = attributes(codec, list);
    let Part::Rows(layer, rows) = TcTables.part(at) else { panic!("no rows at {at}") };
    let mut count = 0;
    for (n, it) in rows.iter().enumerate().filter(|(_, it)| all.contains(&(type_of(it.word), it.name))) {
        let wrong = Row { form: Form::Number(Number::U64), ..*it };
        let wrong = (!kept.contains(&it.name) && (list, it.name) != ("flower_options", "ClassId")).then_some(wrong);
        let named =
            [Row { name: "Wrong", ..*it }, Row { word: it.word ^ 0x8000, ..*it }, Row { word: it.word + 200, ..*it }];
        for row in named.into_iter().chain(wrong) {
            let found = found(codec, at, Part::Rows(layer, with(rows, n, row)));
            assert_ne!(found, 0, "{list}: {} as {} {} {}", it.name, row.word, row.name, told(row.form));
        }
        count += 1;
    }
    count
}

/// But any form may be that of bytes that the codec keeps, and of the class of flower, which it writes and never reads.
#[test]
fn changed_attributes_are_found() {
    let codec = Codec::read();
    let lists = [
        ("", "action_message_attributes"),
        ("FqCodel", "fq_codel_options"),
        ("U32", "u32_options"),
        ("MatchAll", "matchall_options"),
        ("Bpf", "bpf_options"),
        ("Flower", "flower_options"),
        ("", "mpls_options"),
        ("", "lse_options"),
        ("Mirror", "mirror_options"),
        ("Nat", "nat_options"),
        ("TunnelKey", "tunnel_key_options"),
    ];
    for (layer, list) in lists {
        let (all, _) = attributes(&codec, list);
        assert_eq!(change_each(&codec, list, place_of(layer, &all)), all.len(), "{list}");
    }
    // Options and statistics are among the rows of a kind.
    for (list, place, count) in [("attributes", TC_LIST, 8), ("action_attributes", ACTION_LIST, 4)] {
        let Part::Kinds(common, ..) = TcTables.part(place) else { panic!("no kinds at {place}") };
        assert_eq!(change_each(&codec, list, common), count, "{list}");
    }
}

/// Each field of the codec's records that has a name, renamed or of another form.
#[test]
fn changed_records_are_found() {
    let codec = Codec::read();
    for (_, form) in kinds::Lists::of(TcTables).records() {
        let at = place_in(form);
        let Part::Fields(fields) = TcTables.part(at) else { panic!("no record at {at}") };
        for (n, it) in fields.iter().enumerate() {
            let wrong = Field { form: Form::Number(Number::U64Be), ..*it };
            assert_ne!(found(&codec, at, Part::Fields(with(fields, n, wrong))), 0, "{at}: the form of {}", it.name);
            // What pads has no name, and keys are found by theirs.
            if !matches!(it.form, Form::Pad(_)) {
                let wrong = Field { name: "wrong", ..*it };
                assert_ne!(found(&codec, at, Part::Fields(with(fields, n, wrong))), 0, "{at}: the name of {}", it.name);
            }
        }
    }
}

/// Each number with a name, as another number and under another name.
#[test]
fn changed_names_are_found() {
    let codec = Codec::read();
    for (list, first) in
        [("address_families", "Unix"), ("action_types", "Reclassify"), ("mirror_action_types", "EgressMirror")]
    {
        let found_at = places(|part| matches!(part, Part::Names(names) if names.iter().any(|it| it.name == first)));
        let [at] = found_at[..] else { panic!("{first} is at {found_at:?}") };
        let Part::Names(names) = TcTables.part(at) else { panic!("no names at {at}") };
        assert_eq!(names.len(), codec.lines(list).len());
        for (n, it) in names.iter().enumerate() {
            for wrong in [Name { name: "Wrong", ..*it }, Name { number: 99, ..*it }] {
                assert_ne!(
                    found(&codec, at, Part::Names(with(names, n, wrong))),
                    0,
                    "{list}: {} {}",
                    wrong.number,
                    wrong.name
                );
            }
        }
    }
}
