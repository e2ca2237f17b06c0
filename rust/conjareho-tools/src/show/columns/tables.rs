//! The columns and the names, by their places. `kinds/columns` writes them from the tables of `kinds/`.

mod columns;
mod kernels;
mod names;

use crate::show::attributes::Column;
use crate::show::units::Name;

/// What there is at places, in their order.
pub(crate) type Table<T> = &'static [(usize, &'static [T])];

/// What a table has at a place.
pub(crate) fn at<T>(table: Table<T>, place: usize) -> &'static [T] {
    table.binary_search_by_key(&place, |it| it.0).map_or(&[], |found| table[found].1)
}

pub(crate) fn all_columns(place: usize) -> &'static [Column<'static>] {
    at(columns::COLUMNS, place)
}

pub(crate) fn all_names(place: usize) -> &'static [Name<'static>] {
    at(names::NAMES, place)
}

/// The members of a part with many columns, each with the kernel's name, which these columns lack.
pub(crate) fn kernels_at(place: usize) -> &'static [(&'static str, &'static str)] {
    at(kernels::KERNELS, place)
}
