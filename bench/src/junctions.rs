//! The replay by the loss of a junction in plain Rust: the checks, roads, load, windows and step are those of the replay, as in the crates `junction_*` and
//! `call_replay_junctions`; a graph is reduced to the cycles of its blocks.

use crate::blocks;
use crate::core::{Half, Node};
use crate::replay::{check, count_queries, first_part, step, top, Reduction, Window};
use crate::Refusal;

#[derive(Clone, Copy, PartialEq, Eq, Debug)]
pub struct Totals {
    pub queries: usize,
    pub open: usize,
}

pub fn required(n: usize, m: usize, t: usize) -> usize {
    1024 * t + 32 * n + 8 * m + 2048
}

struct Cycles;

impl Reduction for Cycles {
    const EDGES: usize = 8;
    const BEHIND: usize = 8;

    fn reduce(nodes: &mut [Node], halves: &mut [Half], m: usize, k: usize) -> (usize, usize) {
        blocks::reduce(nodes, halves, m, k)
    }

    /// No name is read; the first end stands for it.
    fn write_edges(
        _: &[Node],
        behind: &[Half],
        edges: usize,
        small: &mut [u32],
        large: &mut [u32],
        names: &mut [u32],
    ) {
        let out = small.iter_mut().zip(large).zip(names);
        for (edge, ((u, v), name)) in behind.as_chunks::<2>().0[..edges].iter().zip(out) {
            *u = edge[0][0];
            *v = edge[1][0];
            *name = edge[0][0];
        }
    }
}

/// The answer of a window of one event, whose graph has so many edges: 2 where the two nodes of a query are one or an edge joins them, else 1 where there is
/// an edge.
fn answer(area: &[u32], edges: usize) -> u8 {
    if area[2] != 0 {
        return 3;
    }
    let (x, y) = (area[0], area[1]);
    let joins = |(&u, &v): (&u32, &u32)| (u, v) == (x, y) || (u, v) == (y, x);
    let (small, large) = (&area[5..5 + edges], &area[13..13 + edges]);
    if x == y || small.iter().zip(large).any(joins) {
        2
    } else {
        (edges > 0) as u8
    }
}

/// Answers a window's events.
fn window(w: Window, p: usize, answers: &mut [u8], work: &mut [u32]) {
    let n = w.events;
    if n == 1 {
        answers[w.at] = answer(work, w.edges);
        return;
    }
    let c = first_part(n, p);
    let part = step::<Cycles>(w, w.at, c, work);
    window(part, p, answers, &mut work[Cycles::AREA * n..]);
    let part = step::<Cycles>(w, w.at + c, n - c, work);
    window(part, p, answers, &mut work[Cycles::AREA * n..]);
}

#[allow(clippy::too_many_arguments)]
pub fn replay(
    n: usize,
    m: usize,
    t: usize,
    p: usize,
    a: &[u16],
    b: &[u16],
    start: &[u16],
    x: &[u16],
    y: &[u16],
    answers: &mut [u8],
    work: &mut [u32],
) -> Result<Totals, Refusal> {
    let (written, words) = (answers.len(), work.len());
    let open = check(n, m, t, p, a, b, start, x, y, written, words, required)?;
    let work = &mut work[..required(n, m, t)];
    if t > 0 {
        let whole = top::<Cycles>(n, a, b, start, x, y, work);
        window(whole, p, answers, &mut work[5 * t..]);
    }
    work.fill(0);
    Ok(Totals {
        queries: count_queries(x),
        open,
    })
}
