//! Graphs for the contraction: n nodes, 2n edges, n / 4 active entries.

use crate::random::Random;

#[derive(Clone, Copy, PartialEq, Eq, Debug)]
pub enum Shape {
    /// Both ends of each edge are any nodes.
    Random,
    /// A grid of 32 columns, a sixteenth of whose edges is replaced by an edge between any nodes.
    Grid,
}

impl Shape {
    pub fn name(self) -> &'static str {
        match self {
            Shape::Random => "random",
            Shape::Grid => "grid",
        }
    }
}

pub struct Graph {
    pub n: usize,
    pub from: Vec<u16>,
    pub to: Vec<u16>,
    pub names: Vec<u16>,
    pub active: Vec<u16>,
}

const COLUMNS: usize = 32;

/// A graph of n nodes, a multiple of the columns.
pub fn graph(shape: Shape, n: usize, random: &mut Random) -> Graph {
    let (mut from, mut to) = (Vec::new(), Vec::new());
    for e in 0..2 * n {
        // Node v has an edge to the node beside it and one to the node below it; rows and columns are closed to rings.
        let v = e / 2;
        let beside = v / COLUMNS * COLUMNS + (v + 1) % COLUMNS;
        let below = (v + COLUMNS) % n;
        let near = if e % 2 == 0 { beside } else { below };
        let far = shape == Shape::Random || random.below(16) == 0;
        let (u, w) = if far {
            (random.below(n), random.below(n))
        } else {
            (v, near)
        };
        from.push(u as u16);
        to.push(w as u16);
    }
    // All different, in no order.
    let names = (0..2 * n).map(|e| (e * 40503 % 65536) as u16).collect();
    let active = (0..n / 4).map(|_| random.below(n) as u16).collect();
    Graph {
        n,
        from,
        to,
        names,
        active,
    }
}
