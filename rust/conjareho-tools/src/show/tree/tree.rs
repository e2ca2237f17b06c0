//! Lines as a tree.

use crate::user::prelude::*;

use crate::show::tree::forest::preorder;
use crate::show::tree::nodes::{Nodes, nodes_of};

fn put_margin(out: &mut Vec<u8>, depth: usize) -> Result<(), AllocError> {
    for _ in 0..depth {
        out.try_extend(b"  ")?;
    }
    Ok(())
}

fn put_visit(out: &mut Vec<u8>, nodes: &Nodes, visit: (usize, usize)) -> Result<(), AllocError> {
    put_margin(out, visit.1.min(64))?;
    out.try_extend(nodes.text_of(visit.0))?;
    out.try_extend(b"\n")
}

/// Appends lines as a tree.
///
/// # Errors
///
/// A [`AllocError`].
pub fn tree_lines(out: &mut Vec<u8>, lines: &[u8]) -> Result<(), AllocError> {
    let nodes = nodes_of(lines)?;
    let parents = nodes.mended()?;
    let order = preorder(&parents)?;
    for visit in &order {
        put_visit(out, &nodes, *visit)?;
    }
    Ok(())
}
