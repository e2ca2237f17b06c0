//! The values that differ between two outlines, each with the names that lead to it.

use crate::user::prelude::*;

use crate::streams::{Stop, write_text};
use std::collections::HashMap;

// A line of an outline: `    rate 125000 B/s (1Mbit)`.
#[derive(Clone, Copy)]
struct Line<'t> {
    // The blanks before it, two for each level.
    margin: usize,
    name: &'t str,
    // Empty if lines below it have the values.
    value: &'t str,
}

// A value, and the names that lead to it: `options/parms/rate/rate`.
struct Leaf<'t> {
    path: String,
    value: &'t str,
}

// A number for each path.
type Numbers = HashMap<String, usize>;

// The values so far, and the lines that lead to the next one.
struct Walk<'t> {
    place: Vec<Line<'t>>,
    counts: Numbers,
    leaves: Vec<Leaf<'t>>,
}

impl<'t> Walk<'t> {
    fn new() -> Walk<'t> {
        Walk { place: Vec::new(), counts: HashMap::new(), leaves: Vec::new() }
    }

    // Enters a line. The line after it tells whether it leads to others.
    fn enter(&mut self, line: Line<'t>, next: Option<&Line<'t>>) -> Result<(), AllocError> {
        let depth = depth_of(&self.place, line.margin);
        self.place.truncate(depth);
        self.place.try_push(line)?;
        if line.value.is_empty() && is_below(next, line.margin) {
            return Ok(());
        }
        let path = path_of(&self.place)?;
        self.put(path, line.value)
    }

    // The words of a header are names and values in turns: `handle 1: parent root`. Words in brackets say a value again.
    fn put_header(&mut self, header: &'t str) -> Result<(), AllocError> {
        let mut name = None;
        for word in header.split_whitespace() {
            if !word.starts_with('(') {
                name = match name {
                    Some(name) => {
                        self.put(fallible::text(name)?, word)?;
                        None
                    }
                    None => Some(word),
                };
            }
        }
        Ok(())
    }

    fn put(&mut self, path: String, value: &'t str) -> Result<(), AllocError> {
        let path = self.numbered(path)?;
        self.leaves.try_push(Leaf { path, value })?;
        Ok(())
    }

    // A path that was there before has its number after it.
    fn numbered(&mut self, path: String) -> Result<String, AllocError> {
        let before = self.counts.get(&path).copied().unwrap_or(0);
        let number = before.saturating_add(1);
        let numbered =
            if before == 0 { path.clone() } else { crate::user::formatted(format_args!("{path} ({number})"))? };
        self.counts.insert(path, number);
        Ok(numbered)
    }
}

// How many of these lines a line with this margin is below.
fn depth_of(place: &[Line<'_>], margin: usize) -> usize {
    for (depth, line) in place.iter().enumerate() {
        if line.margin >= margin {
            return depth;
        }
    }
    place.len()
}

fn is_below(line: Option<&Line<'_>>, margin: usize) -> bool {
    match line {
        Some(line) => line.margin > margin,
        None => false,
    }
}

fn path_of(place: &[Line<'_>]) -> Result<String, AllocError> {
    let mut path = String::new();
    for line in place {
        if !path.is_empty() {
            path.try_push('/')?;
        }
        path.try_push_str(line.name)?;
    }
    Ok(path)
}

// A line without its margin.
fn line_of(line: &str) -> Line<'_> {
    let text = line.trim_start();
    let margin = line.len().saturating_sub(text.len());
    let (name, value) = match text.split_once(' ') {
        Some((name, value)) => (name, value),
        None => (text, ""),
    };
    Line { margin, name, value }
}

// The values of an outline, whose first line has the header.
fn leaves_of(outline: &str) -> Result<Vec<Leaf<'_>>, AllocError> {
    let (header, rest) = match outline.split_once('\n') {
        Some((header, rest)) => (header, rest),
        None => (outline, ""),
    };
    let mut lines = Vec::new();
    for line in rest.lines() {
        lines.try_push(line_of(line))?;
    }
    let mut walk = Walk::new();
    walk.put_header(header)?;
    for (index, line) in lines.iter().enumerate() {
        walk.enter(*line, lines.get(index.saturating_add(1)))?;
    }
    Ok(walk.leaves)
}

// The places of leaves by their paths, which differ.
fn places_of(leaves: &[Leaf<'_>]) -> Result<Numbers, AllocError> {
    let mut places = HashMap::new();
    for (place, leaf) in leaves.iter().enumerate() {
        places.insert(leaf.path.clone(), place);
    }
    Ok(places)
}

/// Appends a line for each difference between two outlines: its names, the old value and the new one.
pub(crate) fn put_values(old: &str, new: &str, out: &mut Vec<u8>) -> Result<(), Stop> {
    let old = leaves_of(old)?;
    let new = leaves_of(new)?;
    let was = places_of(&old)?;
    let is = places_of(&new)?;
    for leaf in &old {
        let other = value_at(&new, &is, &leaf.path);
        if other != Some(leaf.value) {
            put_value(&leaf.path, Some(leaf.value), other, out)?;
        }
    }
    for leaf in &new {
        if was.get(&leaf.path).is_none() {
            put_value(&leaf.path, None, Some(leaf.value), out)?;
        }
    }
    Ok(())
}

fn value_at<'t>(leaves: &[Leaf<'t>], places: &Numbers, path: &String) -> Option<&'t str> {
    match places.get(path) {
        Some(place) => match leaves.get(*place) {
            Some(leaf) => Some(leaf.value),
            None => None,
        },
        None => None,
    }
}

// Appends a line, as a terminal gets it.
fn put_value(path: &str, old: Option<&str>, new: Option<&str>, out: &mut Vec<u8>) -> Result<(), Stop> {
    let old = text_of(old);
    let new = text_of(new);
    let line = crate::user::formatted(format_args!("    {path} {old} -> {new}\n"))?;
    write_text(out, line.as_str())
}

fn text_of(value: Option<&str>) -> &str {
    match value {
        Some(value) => value,
        None => "none",
    }
}
