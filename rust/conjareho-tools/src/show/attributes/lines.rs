//! A serde format that writes lines.

use crate::user::prelude::*;

use crate::serde::Serializer;
use crate::show::attributes::column::{Column, Columns};
use crate::show::attributes::error::LinesError;
use crate::show::attributes::log::Note;
use crate::show::attributes::walk::Walk;

/// A serializer that writes JSON as lines: each leaf on one line, with the name and display of its column.
pub(crate) struct Lines<C: Columns> {
    columns: C,
    walk: Walk,
    // The place of the last lookup, and its columns.
    place: usize,
    own: &'static [Column<'static>],
}

impl<C: Columns> Lines<C> {
    /// An empty text, with capacity for `room` bytes.
    pub(crate) fn new(columns: C, room: usize) -> Result<Lines<C>, LinesError> {
        let place = columns.root();
        let walk = Walk::new(place, room)?;
        Ok(Lines { columns, walk, place, own: columns.columns(place) })
    }

    pub(crate) fn into_text(self) -> Vec<u8> {
        let Lines { walk, .. } = self;
        walk.out
    }
}

impl<C: Columns> Serializer for Lines<C> {
    type Error = LinesError;

    #[inline(always)]
    fn bool(&mut self, v: bool) -> Result<(), LinesError> {
        if let Err(error) = self.walk.boolean(&self.columns, v) {
            return Err(error);
        }
        Ok(())
    }

    #[inline(always)]
    fn i64(&mut self, v: i64) -> Result<(), LinesError> {
        if let Err(error) = self.walk.signed(&self.columns, v) {
            return Err(error);
        }
        Ok(())
    }

    #[inline(always)]
    fn u64(&mut self, v: u64) -> Result<(), LinesError> {
        if let Err(error) = self.walk.unsigned(&self.columns, v) {
            return Err(error);
        }
        Ok(())
    }

    #[inline(always)]
    fn str(&mut self, v: &str) -> Result<(), LinesError> {
        if let Err(error) = self.walk.text(&self.columns, v) {
            return Err(error);
        }
        Ok(())
    }

    #[inline(always)]
    fn begin_seq(&mut self, len: Option<usize>) -> Result<(), LinesError> {
        if let Err(error) = self.walk.begin_seq(&self.columns, len) {
            return Err(error);
        }
        Ok(())
    }

    #[inline(always)]
    fn end_seq(&mut self) -> Result<(), LinesError> {
        if let Err(error) = self.walk.end_seq(&self.columns) {
            return Err(error);
        }
        Ok(())
    }

    #[inline(always)]
    fn begin_map(&mut self, len: Option<usize>) -> Result<(), LinesError> {
        if let Err(error) = self.walk.begin_map(&self.columns, len) {
            return Err(error);
        }
        Ok(())
    }

    #[inline(always)]
    fn end_map(&mut self) -> Result<(), LinesError> {
        if let Err(error) = self.walk.end_map(&self.columns) {
            return Err(error);
        }
        Ok(())
    }

    #[inline(always)]
    fn key(&mut self, name: &str) -> Result<(), LinesError> {
        self.key_as_is(name)
    }

    fn custom(&self, _message: &str) -> LinesError {
        LinesError::OutOfMemory
    }
}

impl<C: Columns> Lines<C> {
    // Looks up the column of a member's name.
    fn key_as_is(&mut self, name: &str) -> Result<(), LinesError> {
        let place = self.walk.place();
        if place != self.place {
            self.own = self.columns.columns(place);
            self.place = place;
        }
        if let Err(error) = self.walk.key(&self.columns, self.own, name) {
            return Err(error);
        }
        Ok(())
    }
}
