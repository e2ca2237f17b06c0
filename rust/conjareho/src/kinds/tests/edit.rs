//! Edits of any value at random.

use super::random::Random;
use crate::kinds::aside::Aside;
use crate::kinds::forms::{Array, Bare, Be, Code, Coded, Each, Empty, Fixed, Kind, List, Number, Pad, Text, Times, Truth};
use crate::kinds::frames::{Attr, Frames, Kinds, missing};
use crate::kinds::list::{Attrs, Indexed, type_of};
use crate::kinds::values::{Bytes, Mac};
use crate::kinds::wire::{Form, Key, Out, Place};
use alloc::boxed::Box;
use alloc::collections::VecDeque;
use alloc::vec::Vec;
use core::net::{Ipv4Addr, Ipv6Addr};

/// A form whose values are edited.
pub trait Edit: Form {
    /// Edits a part of a value, or all of it.
    fn edit(value: &mut Self::Value, at: Place<'_>, edits: &mut Edits) {
        renew::<Self>(value, at, edits);
    }
}

/// An attribute that is edited.
pub trait EditAttr: Attr {
    /// Edits a part of its value.
    fn edit_value(&mut self, at: Place<'_>, edits: &mut Edits);
    /// The bytes of a value of nothing of the type that is at this place of the table, and its type.
    fn blank_at(place: usize) -> (u16, Vec<u8>);
    /// How many types the table has.
    const TYPES: usize;
}

/// An edit, and then again to find the place where it was.
pub struct Edits {
    seed: u64,
    random: Random,
    /// True if nothing is edited, but what an edit there may drop is dropped.
    is_dropping: bool,
    /// Of each place, from the innermost: whether another type or form is there now.
    others: VecDeque<bool>,
    /// Whether padding or all that was kept may be dropped.
    pub may_drop: bool,
    /// What was edited.
    pub made: Vec<&'static str>,
}

impl Edits {
    pub fn new(seed: u64) -> Self {
        let (random, others, made) = (Random(seed | 1), VecDeque::new(), Vec::new());
        Edits { seed, random, is_dropping: false, others, may_drop: false, made }
    }

    /// The same edit to find its place, and to drop there what it may drop.
    pub fn dropping(&self) -> Self {
        Edits { is_dropping: true, others: self.others.clone(), ..Edits::new(self.seed) }
    }

    /// One of so many ways.
    pub fn way(&mut self, ways: usize) -> usize {
        self.random.below(ways)
    }

    /// Notes what an edit does.
    fn making<T>(&mut self, what: &'static str, value: T) -> T {
        self.made(what);
        value
    }

    /// The same, of an edit that gives nothing back.
    fn made(&mut self, what: &'static str) {
        self.made.push(what);
    }
}

/// Replaces a value by one that is read from random bytes.
pub fn renew<F: Form + ?Sized>(value: &mut F::Value, at: Place<'_>, edits: &mut Edits) {
    let len = F::WIDTH.unwrap_or_else(|| edits.random.below(24));
    let bytes = edits.random.bytes(len);
    if edits.is_dropping {
        return;
    }
    if let Some((new, [])) = F::read(&bytes, at) {
        edits.made.push("renewed");
        *value = new;
    }
}

macro_rules! renewed {
    ($([$($params:tt)*] $form:ty,)*) => { $(
        impl<$($params)*> Edit for $form {}
    )* };
}

renewed! {
    [] u8, [] u16, [] u32, [] u64, [] i8, [] i16, [] i32, [] i64, [] Be<u16>, [] Be<u32>, [] Be<u64>,
    [] Empty, [] Truth, [] Text, [] Bare, [] Bytes, [] Mac, [] Ipv4Addr, [] Ipv6Addr, [const N: usize] Fixed<N>, [const N: usize] Pad<N>,
    [C: Code, F: Form<Value: Number>] Coded<C, F>,
}

// Another kind would say what the attributes after it are.
impl Edit for Kind {
    fn edit(_value: &mut Self::Value, _at: Place<'_>, _edits: &mut Edits) {}
}

impl<F: Edit> Edit for Array<F> {
    fn edit(value: &mut Vec<F::Value>, at: Place<'_>, edits: &mut Edits) {
        let place = edits.random.below(value.len());
        let Some(below) = at.below() else { return };
        match (edits.random.below(3), value.get_mut(place)) {
            (0, Some(value)) => F::edit(value, below, edits),
            (1, Some(_)) if !edits.is_dropping => _ = value.remove(place),
            _ if !edits.is_dropping => value.push(F::blank()),
            _ => {}
        }
    }
}

impl<const N: usize, F: Edit> Edit for Times<N, F> {
    fn edit(value: &mut [F::Value; N], at: Place<'_>, edits: &mut Edits) {
        let place = edits.random.below(N);
        if let (Some(value), Some(below)) = (value.get_mut(place), at.below()) {
            F::edit(value, below, edits);
        }
    }
}

/// A list, as its user has it.
trait Listed {
    type Item;
    fn kept(&mut self) -> (&mut Vec<Self::Item>, &mut Option<Box<Aside>>);
    fn push(&mut self, item: Self::Item);
    fn retain_but(&mut self, place: usize);
    fn settle(&mut self);
    fn items_mut(&mut self) -> &mut [Self::Item];
}

macro_rules! listed {
    ($list:ident, $t:ident, $item:ty) => {
        impl<$t> Listed for $list<$t> {
            type Item = $item;
            fn kept(&mut self) -> (&mut Vec<$item>, &mut Option<Box<Aside>>) {
                (&mut self.items, &mut self.aside)
            }
            fn push(&mut self, item: $item) {
                $list::push(self, item);
            }
            fn retain_but(&mut self, place: usize) {
                let mut at = 0..;
                $list::retain(self, |_| at.next() != Some(place));
            }
            fn settle(&mut self) {
                $list::settle(self);
            }
            fn items_mut(&mut self) -> &mut [$item] {
                self.iter_mut().into_slice()
            }
        }
    };
}

listed! { Attrs, A, A }
listed! { Indexed, T, (u16, T) }

/// A list whose attributes are edited.
trait EditFrames: Frames<Item: Clone> + Form<Value: Listed<Item = Self::Item>> {
    /// The kind that holds for the attribute at a place.
    fn kind_at(items: &[Self::Item], place: usize, at: Place<'_>) -> Key;
    /// Edits a part of an attribute.
    fn edit_item(item: &mut Self::Item, at: Place<'_>, edits: &mut Edits);
    /// An attribute that the list may have.
    fn any(at: Place<'_>, edits: &mut Edits) -> Self::Item;
    /// Whether an attribute says what others are.
    fn sets_kind(item: &Self::Item) -> bool;
    /// The place where `set` would put an attribute.
    fn place_of(items: &[Self::Item], item: &Self::Item) -> Option<usize>;
    /// Calls `set`, if the list has it.
    fn set(list: &mut Self::Value, item: Self::Item);
}

/// What may be kept with an attribute: its type and form, and how many bytes of padding it takes.
fn measure<L: Frames>(item: Option<&L::Item>) -> (Option<impl PartialEq + use<L>>, usize) {
    let mut out = Out::default();
    item.iter().for_each(|item| L::write_frame(item, &mut out));
    let len = out.bytes.first_chunk::<2>().map_or(0, |len| u16::from_le_bytes(*len));
    (item.map(L::sort), missing(usize::from(len)))
}

/// Edits a place, and notes what may be dropped there; or drops it.
fn edit_place<L: EditFrames>(list: &mut L::Value, place: usize, edits: &mut Edits, edit: impl FnOnce(&mut L::Value, &mut Edits)) {
    let before = measure::<L>(list.kept().0.get(place));
    edit(list, edits);
    let (items, aside) = list.kept();
    if edits.is_dropping {
        let drops_all = edits.others.pop_front().unwrap_or(false);
        return drop_at(aside, place, drops_all);
    }
    let after = measure::<L>(items.get(place));
    edits.others.push_back(before.0 != after.0);
    edits.may_drop |= before != after;
}

/// Drops what may be dropped at a place: padding, or all.
fn drop_at(aside: &mut Option<Box<Aside>>, place: usize, drops_all: bool) {
    let Some(kept) = aside else { return };
    for odd in kept.odd.iter_mut().filter(|odd| odd.at == place) {
        (odd.padding, odd.missing) = (None, 0);
    }
    kept.odd.retain(|odd| odd.at != place || !drops_all);
    Aside::tidy(aside);
}

fn edit_list<L: EditFrames>(list: &mut L::Value, at: Place<'_>, edits: &mut Edits) {
    let len = list.kept().0.len();
    let (way, place, other) = (edits.random.below(10), edits.random.below(len), edits.random.below(len));
    let kind_at = |list: &mut L::Value, place| Place { kind: L::kind_at(list.kept().0, place, at), ..at };
    let here = kind_at(list, place);
    let sets_kind = list.kept().0.get(place).is_some_and(L::sets_kind);
    match way {
        0..5 => edit_place::<L>(list, place, edits, |list, edits| {
            if let Some(item) = list.items_mut().get_mut(place) {
                L::edit_item(item, here, edits);
            }
        }),
        5 => {
            let item = L::any(here, edits);
            edit_place::<L>(list, place, edits, |list, edits| match list.items_mut().get_mut(place) {
                Some(old) if !edits.is_dropping && !sets_kind && !L::sets_kind(&item) => *old = edits.making("replaced", item),
                _ => {}
            });
        }
        6 => {
            let item = L::any(kind_at(list, len), edits);
            let place = L::place_of(list.kept().0, &item).unwrap_or(usize::MAX);
            edit_place::<L>(list, place, edits, |list, edits| {
                if !edits.is_dropping && !L::sets_kind(&item) {
                    L::set(list, edits.making("set", item));
                }
            });
        }
        7 if !edits.is_dropping => {
            let item = L::any(kind_at(list, len), edits);
            if !L::sets_kind(&item) {
                list.push(edits.making("pushed", item));
            }
        }
        8 if !edits.is_dropping && !sets_kind => {
            list.retain_but(place);
            edits.made("retained");
        }
        9 if L::KINDS == Kinds::Plain && edits.random.below(2) == 0 => edit_place::<L>(list, place, edits, |list, edits| {
            edit_place::<L>(list, other, edits, |list, edits| {
                if !edits.is_dropping && len > 0 {
                    list.items_mut().swap(place, other);
                    edits.made("swapped");
                }
            });
        }),
        9 if !edits.is_dropping => {
            list.settle();
            edits.made("settled");
        }
        _ => {}
    }
}

impl<A: EditAttr + Clone> EditFrames for List<A> {
    fn kind_at(items: &[A], place: usize, at: Place<'_>) -> Key {
        let kinds = || items.iter().filter_map(Attr::kind);
        let kind = match A::KINDS {
            Kinds::Plain => return at.kind,
            Kinds::Own => kinds().next(),
            Kinds::InForce => items.iter().take(place + 1).filter_map(Attr::kind).last(),
        };
        kind.map_or(Key::NONE, |kind| Key::of(kind.as_bytes()))
    }

    fn edit_item(item: &mut A, at: Place<'_>, edits: &mut Edits) {
        item.edit_value(at, edits);
    }

    fn any(at: Place<'_>, edits: &mut Edits) -> A {
        loop {
            let (mut word, mut payload) = A::blank_at(edits.random.below(A::TYPES));
            if edits.random.below(3) == 0 {
                let len = edits.random.below(24);
                (word, payload) = (word ^ [0, 0, 0x8000, 0x20][edits.random.below(4)], edits.random.bytes(len));
            }
            let mut items = Vec::new();
            let found = A::read(word, &payload, at, &mut items);
            let is_plain = found.word == word && found.rest.is_empty();
            if let Some(item) = items.pop().filter(|_| is_plain) {
                return item;
            }
        }
    }

    fn sets_kind(item: &A) -> bool {
        A::KINDS != Kinds::Plain && type_of(item) == 1
    }

    fn place_of(items: &[A], item: &A) -> Option<usize> {
        items.iter().rposition(|it| type_of(it) == type_of(item))
    }

    fn set(list: &mut Attrs<A>, item: A) {
        // What it replaces may be under another kind.
        if A::KINDS != Kinds::InForce {
            list.set(item);
        }
    }
}

impl<A: EditAttr + Clone> Edit for List<A> {
    fn edit(value: &mut Attrs<A>, at: Place<'_>, edits: &mut Edits) {
        edit_list::<Self>(value, at, edits);
    }
}

impl<F: Edit<Value: Clone>> EditFrames for Each<F> {
    fn kind_at(_items: &[Self::Item], _place: usize, at: Place<'_>) -> Key {
        at.kind
    }

    fn edit_item((word, value): &mut Self::Item, at: Place<'_>, edits: &mut Edits) {
        if edits.random.below(4) == 0 {
            let number = edits.random.below(9) as u16;
            *word = if edits.is_dropping { *word } else { edits.making("numbered", number) };
        } else if let Some(below) = at.below() {
            F::edit(value, below, edits);
        }
    }

    fn any(at: Place<'_>, edits: &mut Edits) -> Self::Item {
        let mut value = F::blank();
        if let Some(below) = at.below() {
            renew::<F>(&mut value, below, edits);
        }
        (edits.random.below(9) as u16, value)
    }

    fn sets_kind(_item: &Self::Item) -> bool {
        false
    }

    fn place_of(_items: &[Self::Item], _item: &Self::Item) -> Option<usize> {
        None
    }

    fn set(_list: &mut Self::Value, _item: Self::Item) {}
}

impl<F: Edit<Value: Clone>> Edit for Each<F> {
    fn edit(value: &mut Self::Value, at: Place<'_>, edits: &mut Edits) {
        edit_list::<Self>(value, at, edits);
    }
}

macro_rules! record_edits {
    ($name:ident { $($field:ident ($form:ty),)* }) => {
        impl Edit for $name {
            fn edit(value: &mut Self, at: Place<'_>, edits: &mut Edits) {
                let ways: &[fn(&mut Self, Place<'_>, &mut Edits)] = &[$(|value, at, edits| <$form as Edit>::edit(&mut value.$field, at, edits)),*];
                if let (Some(way), Some(below)) = (ways.get(edits.way(ways.len())), at.below()) {
                    way(value, below, edits);
                }
            }
        }
    };
}

macro_rules! attrs_edits {
    ($name:ident { $($variant:ident $number:literal $flags:literal ($form:ty),)* }) => {
        impl EditAttr for $name {
            const TYPES: usize = <[u16]>::len(&[$($number),*]);

            #[allow(unused_variables)] // an empty list
            fn edit_value(&mut self, at: Place<'_>, edits: &mut Edits) {
                match (self, at.below()) {
                    $(($name::$variant(value), Some(below)) => <$form as Edit>::edit(value, below, edits),)*
                    _ => {}
                }
            }

            fn blank_at(place: usize) -> (u16, Vec<u8>) {
                let types: &[(u16, fn(&mut Out))] = &[$(($number | $flags, |out| <$form as Form>::write(&<$form as Form>::blank(), out))),*];
                let mut out = Out::default();
                let Some((word, write)) = types.get(place) else { return (9, Vec::new()) };
                write(&mut out);
                (*word, out.bytes)
            }
        }
    };
}

macro_rules! choice_edits {
    ($name:ident { $($variant:ident ($form:ty),)* }) => {
        impl Edit for $name {
            fn edit(value: &mut Self, at: Place<'_>, edits: &mut Edits) {
                match (value, at.below()) {
                    $(($name::$variant(value), Some(below)) => <$form as Edit>::edit(value, below, edits),)*
                    (value, _) => crate::kinds::tests::renew::<Self>(value, at, edits),
                }
            }
        }
    };
}

macro_rules! by_kind_edits {
    ($name:ident { $($variant:ident $json:literal ($form:ty),)* }) => {
        impl Edit for $name {
            fn edit(value: &mut Self, at: Place<'_>, edits: &mut Edits) {
                let renews = edits.way(4) == 0;
                match value {
                    $($name::$variant(value) if !renews => {
                        // Statistics are a level lower.
                        if let Some(below) = if $json.is_empty() { Some(at) } else { at.below() } {
                            <$form as Edit>::edit(value, below, edits);
                        }
                    })*
                    value => crate::kinds::tests::renew::<Self>(value, at, edits),
                }
            }
        }
    };
}
