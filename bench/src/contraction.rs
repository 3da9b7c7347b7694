//! The contraction as a call, in plain Rust: checks, loading, the reply's tables, and the words cleared.

use crate::core::{self, Node, LARGE_END, MARK, NAMED, ROOT, SMALL_END};
use crate::{Refusal, MOST_ENTRIES, MOST_JUNCTIONS, MOST_SEGMENTS};

pub fn required(n: usize, m: usize) -> usize {
    16 * n + 8 * m + 512
}

/// The pieces of the active entries: the trees of the forest, in the order in which the entries meet them. A tree's root is entered as an
/// active node is.
fn fill_pieces(nodes: &mut [Node], active: &[u16], pieces: &mut [u16]) {
    core::clear_marks(nodes);
    let mut trees = 0;
    for (piece, &v) in pieces.iter_mut().zip(active) {
        let root = nodes[v as usize][ROOT] as usize;
        trees = core::enter(nodes, trees, root);
        *piece = (nodes[root][MARK] - 1) as u16;
    }
}

#[allow(clippy::too_many_arguments)]
pub fn contract(
    n: usize,
    m: usize,
    k: usize,
    from: &[u16],
    to: &[u16],
    names: &[u16],
    active: &[u16],
    map: &mut [u16],
    out_from: &mut [u16],
    out_to: &mut [u16],
    out_names: &mut [u16],
    pieces: &mut [u16],
    work: &mut [u32],
) -> Result<(usize, usize), Refusal> {
    if n > MOST_JUNCTIONS || m > MOST_SEGMENTS || k > MOST_ENTRIES {
        return Err(Refusal::new(1, 0));
    }
    let short = from.len() < m
        || to.len() < m
        || names.len() < m
        || active.len() < k
        || map.len() < k
        || out_from.len() < 2 * k
        || out_to.len() < 2 * k
        || out_names.len() < 2 * k
        || pieces.len() < k
        || work.len() < required(n, m);
    if short {
        return Err(Refusal::new(2, 0));
    }
    let (from, to, active, map) = (&from[..m], &to[..m], &active[..k], &mut map[..k]);
    let bad = |v: u16| v as usize >= n;
    if let Some(s) = from.iter().zip(to).position(|(&u, &v)| bad(u) || bad(v)) {
        return Err(Refusal::new(4, s));
    }
    if let Some(i) = active.iter().position(|&v| bad(v)) {
        return Err(Refusal::new(8, i));
    }

    let (nodes, halves) = core::split(work, n, m);
    core::clear_marks(nodes);
    let different = active
        .iter()
        .fold(0, |d, &v| core::enter(nodes, d, v as usize));
    let ends = from.iter().zip(to).zip(names);
    for (edge, ((&u, &v), &name)) in halves.as_chunks_mut::<2>().0.iter_mut().zip(ends) {
        core::put_edge(edge, u as u32, v as u32, name as u32);
    }
    let (count, edges) = core::reduce::<true>(nodes, halves, different);
    for (entry, &v) in map.iter_mut().zip(active) {
        *entry = nodes[v as usize][MARK] as u16;
    }
    let out = out_from.iter_mut().zip(out_to).zip(out_names);
    for (node, ((u, v), name)) in nodes[..edges].iter().zip(out) {
        *u = node[SMALL_END] as u16;
        *v = node[LARGE_END] as u16;
        *name = node[NAMED] as u16;
    }
    fill_pieces(nodes, active, pieces);
    work[..required(n, m)].fill(0);
    Ok((count, edges))
}
