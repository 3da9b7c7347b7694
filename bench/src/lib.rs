//! The rivals of the proved replay, and the lists and graphs that they are timed on.

pub mod blocks;
pub mod check_number;
pub mod contraction;
pub mod core;
pub mod graphs;
pub mod junctions;
pub mod lists;
pub mod random;
pub mod replay;
pub mod roads;
pub mod search;

/// A refusal of document 01: its number and its place.
#[derive(Clone, Copy, PartialEq, Eq, Debug)]
pub struct Refusal {
    pub code: usize,
    pub place: usize,
}

impl Refusal {
    pub fn new(code: usize, place: usize) -> Self {
        Refusal { code, place }
    }
}

pub const MOST_JUNCTIONS: usize = 4096;
pub const MOST_SEGMENTS: usize = 8192;
pub const MOST_EVENTS: usize = 4096;
pub const MOST_ENTRIES: usize = 8192;

/// X of an event that opens a segment, and of one that closes it.
pub const OPENS: u16 = 65535;
pub const CLOSES: u16 = 65534;

/// The name of an event that has no answer 1.
pub const NO_NAME: u16 = 65535;

/// The segments whose entry in a starting table is 1.
pub fn open_at_start(start: &[u16]) -> impl Iterator<Item = u16> + '_ {
    (0..).zip(start).filter(|(_, &e)| e == 1).map(|(s, _)| s)
}
