//! The nodes of lines, and their parents.

use crate::user::prelude::*;

use crate::show::tree::forest::{preorder, reached};
use crate::show::tree::node::{Node, node_of, top_node};
use crate::show::tree::words::cut;
use std::collections::HashMap;

/// Nodes, and the place of the first one with each key.
pub(crate) struct Nodes {
    list: Vec<Node>,
    places: HashMap<Vec<u8>, usize>,
}

impl Nodes {
    fn push(&mut self, node: Node) -> Result<(), AllocError> {
        if self.places.contains_key(&node.key) {
            self.list.try_push(node)?;
            return Ok(());
        }
        let key = fallible::copy(&node.key)?;
        self.places.insert(key, self.list.len());
        self.list.try_push(node)?;
        Ok(())
    }

    // The place of the first node with a key. None for no key.
    fn find(&self, key: &Vec<u8>) -> Option<usize> {
        if key.is_empty() {
            return None;
        }
        self.places.get(key).copied()
    }

    // Adds an interface, unless it is there.
    fn add_interface(&mut self, on: &Vec<u8>) -> Result<(), AllocError> {
        if on.is_empty() || self.find(on).is_some() {
            return Ok(());
        }
        let node = top_node(on, on)?;
        self.push(node)
    }

    // Adds the node of a line, and before it that of its interface if it isn't there.
    fn add(&mut self, line: &[u8]) -> Result<(), AllocError> {
        if line.is_empty() {
            return Ok(());
        }
        let node = node_of(line)?;
        self.add_interface(&node.interface)?;
        self.push(node)
    }

    /// The text of a node.
    pub(crate) fn text_of(&self, place: usize) -> &[u8] {
        if place >= self.list.len() {
            return b"";
        }
        &self.list[place].text
    }

    // The place of the first node with a key, unless it is this one.
    fn find_other(&self, place: usize, key: &Vec<u8>) -> Option<usize> {
        let found = self.find(key);
        if found == Some(place) { None } else { found }
    }

    fn parent_of(&self, place: usize, node: &Node) -> Option<usize> {
        match self.find_other(place, &node.parent) {
            Some(parent) => Some(parent),
            None => match self.find_other(place, &node.qdisc) {
                Some(parent) => Some(parent),
                None => self.find(&node.interface),
            },
        }
    }

    // The parent of a node. Of one that no walk comes to its interface.
    fn mended_parent(&self, place: usize, node: &Node, is_reached: bool) -> Option<usize> {
        if is_reached { self.parent_of(place, node) } else { self.find(&node.interface) }
    }

    fn parents(&self) -> Result<Vec<Option<usize>>, AllocError> {
        let mut made = Vec::new();
        for (place, node) in self.list.iter().enumerate() {
            made.try_push(self.parent_of(place, node))?;
        }
        Ok(made)
    }

    /// The parent of each node. One in a circle, or below one, is below its interface.
    ///
    /// # Panics
    ///
    /// It may, unless this holds, which the proved sources ask of callers:
    ///
    /// - `IsIndex self.now`
    pub(crate) fn mended(&self) -> Result<Vec<Option<usize>>, AllocError> {
        let parents = self.parents()?;
        let order = preorder(&parents)?;
        let flags = reached(&order, self.list.len())?;
        let mut made = Vec::new();
        for (place, node) in self.list.iter().enumerate() {
            made.try_push(self.mended_parent(place, node, flags[place]))?;
        }
        Ok(made)
    }
}

/// The nodes of lines.
pub(crate) fn nodes_of(text: &[u8]) -> Result<Nodes, AllocError> {
    let mut nodes = Nodes { list: Vec::new(), places: HashMap::new() };
    let mut left = text;
    'lines: while !left.is_empty() {
        let (line, rest) = cut(left, b'\n');
        nodes.add(line)?;
        left = rest;
    }
    Ok(nodes)
}
