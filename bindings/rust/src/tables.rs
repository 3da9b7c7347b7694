//! The calls on tables that the caller lends. Nothing is allocated, and nothing is kept after a call.
//!
//! The tables of a replay, by the loss of a road or of a junction, that are only read have exactly their sizes, m or t: slice a longer one, as `&a[..m]`. All
//! other tables may be longer than they must be. Entries past the stated sizes are ignored there, and none of them
//! changes. A refused call changes no table. A later version's call may take a table more: then its
//! struct here has a field more, and a caller who lends none does not compile.
//!
//! ```
//! use lumzhasel::tables::{answers, replay, replay_work, ReplayTables, NO_NAME, OPENS};
//!
//! let (mut table, mut names) = ([0; 5], [0; 5]);
//! let mut work = vec![0; replay_work(3, 3, 5)];
//! let totals = replay(ReplayTables {
//!     n: 3,
//!     m: 3,
//!     t: 5,
//!     p: 8,
//!     a: &[0, 1, 2],
//!     b: &[1, 2, 0],
//!     start: &[0, 0, 0],
//!     x: &[OPENS, OPENS, 0, OPENS, 0],
//!     y: &[0, 1, 2, 2, 2],
//!     answers: &mut table,
//!     names: &mut names,
//!     work: &mut work,
//! })?;
//! assert_eq!((totals.queries, totals.open, totals.kept), (2, 3, 19));
//! assert_eq!(answers(&table, 5)?, [3, 3, 1, 3, 2]);
//! // Event 2 has the answer 1, and the road to watch is road 0.
//! assert_eq!(names, [NO_NAME, NO_NAME, 0, NO_NAME, NO_NAME]);
//! # Ok::<(), lumzhasel::Error>(())
//! ```

use crate::error::{Call, Error, Reason, Refusal};
use crate::raw;
use std::sync::OnceLock;

/// The x of an event that opens the segment in its y.
pub const OPENS: u16 = 65535;
/// The x of an event that closes the segment in its y.
pub const CLOSES: u16 = 65534;

/// The answer byte of two junctions that are not joined.
pub const NOT_JOINED: u8 = 0;
/// The answer byte of two junctions that are joined and that the loss of some single road parts; in
/// [`replay_junctions`] the loss of some third junction.
pub const JOINED_ONCE: u8 = 1;
/// The answer byte of two junctions that are joined and stay so whichever single road is lost; in
/// [`replay_junctions`] whichever third junction is.
pub const JOINED_TWICE: u8 = 2;
/// The byte of an event that opens or closes.
pub const NO_QUERY: u8 = 3;

/// The name at an event of a [`replay`] that is no query with the answer 1. No road has this name.
pub const NO_NAME: u16 = 65535;

/// The least length of the work table of a [`replay`] of `t` events over `n` junctions and `m` segments.
pub const fn replay_work(n: usize, m: usize, t: usize) -> usize {
    work_of(n, m, t.saturating_mul(256))
}

/// The least length of the work table of a replay by the loss of a junction, [`replay_junctions`], likewise.
pub const fn replay_junctions_work(n: usize, m: usize, t: usize) -> usize {
    work_of(n, m, t.saturating_mul(1024))
}

// What the two have in common, and what the events take.
const fn work_of(n: usize, m: usize, events: usize) -> usize {
    events
        .saturating_add(n.saturating_mul(32))
        .saturating_add(m.saturating_mul(8))
        .saturating_add(2048)
}

/// The least length of the work table of a contraction of `n` nodes and `m` edges.
pub const fn contract_work(n: usize, m: usize) -> usize {
    n.saturating_mul(16)
        .saturating_add(m.saturating_mul(8))
        .saturating_add(512)
}

/// What an event is: the kinds of the table of events, in its order, and none for an x of no row.
#[derive(Clone, Copy, Debug, PartialEq, Eq, Hash)]
pub enum Kind {
    /// The x is a junction, 0 to n - 1: a query of x and y.
    Query,
    /// The x is [`OPENS`]: the segment in y opens.
    Opens,
    /// The x is [`CLOSES`]: the segment in y closes.
    Closes,
    /// The x is none of these. A replay refuses such an event by [`Reason::Event`].
    None,
}

impl Kind {
    // By the number that the archive has for it.
    fn from_number(number: u32) -> Kind {
        match number {
            0 => Kind::Query,
            1 => Kind::Opens,
            2 => Kind::Closes,
            3 => Kind::None,
            // The call is proved to return one of the four.
            number => unreachable!("{number} is the number of no kind"),
        }
    }
}

/// Sizes within the limits.
#[derive(Clone, Copy, Debug, PartialEq, Eq, Hash)]
#[non_exhaustive]
pub struct Sizes {
    /// Junctions or nodes.
    pub n: usize,
    /// Segments or edges.
    pub m: usize,
    /// Events.
    pub t: usize,
    /// Active entries.
    pub k: usize,
}

/// What an accepted [`replay`] returns.
#[derive(Clone, Copy, Debug, PartialEq, Eq, Hash)]
#[non_exhaustive]
pub struct Totals {
    /// The queries in the list.
    pub queries: usize,
    /// The segments that are open at its end.
    pub open: usize,
    /// The nodes of the small graphs, summed over all windows.
    pub kept: usize,
}

/// What an accepted replay by the loss of a junction, [`replay_junctions`], returns.
#[derive(Clone, Copy, Debug, PartialEq, Eq, Hash)]
#[non_exhaustive]
pub struct JunctionTotals {
    /// The queries in the list.
    pub queries: usize,
    /// The segments that are open at its end.
    pub open: usize,
}

/// What an accepted contraction returns.
#[derive(Clone, Copy, Debug, PartialEq, Eq, Hash)]
#[non_exhaustive]
pub struct Contracted {
    /// The nodes of the small graph.
    pub nodes: usize,
    /// Its edges: the entries that were written to each edge table.
    pub edges: usize,
}

/// What a [`replay`] is lent: `t` events over `n` junctions and `m` segments, with the share `p`, 4 to 12. Segment s
/// joins `a[s]` and `b[s]`, both ways; all segments with the same two ends, in either order, are one road, which is
/// open while any of them is. Event i is a query of the junctions `x[i]` and `y[i]`, or opens ([`OPENS`] in `x[i]`) or
/// closes ([`CLOSES`]) the segment `y[i]`.
#[derive(Debug)]
pub struct ReplayTables<'a> {
    /// The junctions.
    pub n: usize,
    /// The segments.
    pub m: usize,
    /// The events.
    pub t: usize,
    /// The share of a window's first part, in sixteenths. It changes `kept` and no answer.
    pub p: usize,
    /// One end of each segment, exactly m.
    pub a: &'a [u16],
    /// The other end of each segment, exactly m.
    pub b: &'a [u16],
    /// For each segment 1 where it is open at the start and 0 where it is closed, exactly m.
    pub start: &'a [u16],
    /// The first number of each event, exactly t.
    pub x: &'a [u16],
    /// The second number of each event, exactly t.
    pub y: &'a [u16],
    /// At least t. An accepted replay fills the first t: [`NOT_JOINED`], [`JOINED_ONCE`], [`JOINED_TWICE`] or [`NO_QUERY`].
    pub answers: &'a mut [u8],
    /// At least t. An accepted replay fills the first t: at a query with the answer [`JOINED_ONCE`] the smallest name of an
    /// open road whose loss parts the two junctions, else [`NO_NAME`]. A road's name is its smallest segment, open or not.
    pub names: &'a mut [u16],
    /// At least [`replay_work`]. An accepted replay leaves 0 over that length.
    pub work: &'a mut [u32],
}

/// What a replay by the loss of a junction, [`replay_junctions`], is lent: a [`ReplayTables`] without names, and with a
/// longer work table. The network and the events are the same.
#[derive(Debug)]
pub struct ReplayJunctionsTables<'a> {
    /// The junctions.
    pub n: usize,
    /// The segments.
    pub m: usize,
    /// The events.
    pub t: usize,
    /// The share of a window's first part, in sixteenths. It changes no answer and no number.
    pub p: usize,
    /// One end of each segment, exactly m.
    pub a: &'a [u16],
    /// The other end of each segment, exactly m.
    pub b: &'a [u16],
    /// For each segment 1 where it is open at the start and 0 where it is closed, exactly m.
    pub start: &'a [u16],
    /// The first number of each event, exactly t.
    pub x: &'a [u16],
    /// The second number of each event, exactly t.
    pub y: &'a [u16],
    /// At least t. An accepted replay fills the first t: [`NOT_JOINED`], [`JOINED_ONCE`], [`JOINED_TWICE`] or [`NO_QUERY`].
    pub answers: &'a mut [u8],
    /// At least [`replay_junctions_work`]. An accepted replay leaves 0 over that length.
    pub work: &'a mut [u32],
}

/// What a contraction is lent: the graph of `n` nodes and `m` edges, edge s between `from[s]` and `to[s]`, and `k`
/// active entries. An edge may join a node to itself, parallel edges count each (they stand for different roads), and
/// active entries may repeat.
#[derive(Debug)]
pub struct ContractTables<'a> {
    /// The nodes.
    pub n: usize,
    /// The edges.
    pub m: usize,
    /// The active entries.
    pub k: usize,
    /// One end of each edge, at least m.
    pub from: &'a [u16],
    /// The other end of each edge, at least m.
    pub to: &'a [u16],
    /// The name of each edge, at least m: any numbers.
    pub names: &'a [u16],
    /// The active nodes, at least k.
    pub active: &'a [u16],
    /// At least k. An accepted contraction fills the first k: the new number of each active entry.
    pub map: &'a mut [u16],
    /// At least 2k. An accepted contraction writes the smaller end of each edge, ascending by it, then by the larger.
    pub out_from: &'a mut [u16],
    /// At least 2k. An accepted contraction writes the larger end of each edge.
    pub out_to: &'a mut [u16],
    /// At least 2k. An accepted contraction writes the name of each edge: the smallest along the route that it stands for.
    pub out_names: &'a mut [u16],
    /// At least k. An accepted contraction fills the first k: the number of each active entry's connected piece.
    pub pieces: &'a mut [u16],
    /// At least [`contract_work`]. An accepted contraction leaves 0 over that length.
    pub work: &'a mut [u32],
}

fn fits(archive: u32) -> Result<(), Error> {
    if archive == crate::VERSION {
        return Ok(());
    }
    Err(Error::Version { archive })
}

// The archive is asked once.
fn check_version() -> Result<(), Error> {
    static ARCHIVE: OnceLock<u32> = OnceLock::new();
    fits(*ARCHIVE.get_or_init(raw::version))
}

// The reply of a call by its code and its place, where 0 is accepted.
fn reply<T>(call: Call, code: usize, place: usize, accepted: T) -> Result<T, Error> {
    if code == 0 {
        return Ok(accepted);
    }
    let reason = Reason::from_code(code);
    Err(Error::Refused(Refusal { call, reason, place }))
}

/// The kind of an event, from its `x` and the number of junctions alone, as the replay itself decides it. It is that
/// of the row of the table of events whose first column holds `x`; with at most 4,096 junctions that is one row at most.
/// With more than 65,534 a number may be of two rows, and the query comes first.
///
/// ```
/// use lumzhasel::tables::{kind_of, Kind};
///
/// let kinds = [2, 3, 65533, 65534, 65535].map(|x| kind_of(x, 3).unwrap());
/// assert_eq!(kinds, [Kind::Query, Kind::None, Kind::None, Kind::Closes, Kind::Opens]);
/// ```
///
/// # Errors
///
/// [`Error::Version`] alone.
pub fn kind_of(x: u16, n: usize) -> Result<Kind, Error> {
    check_version()?;
    Ok(Kind::from_number(raw::kind_of(x, n)))
}

/// Checks sizes: `n` junctions, `m` segments and `t` events of a replay (`k` is 0), or `n` nodes, `m`
/// edges and `k` active entries of a contraction (`t` is 0). The other calls make this check themselves.
///
/// # Errors
///
/// [`Reason::Sizes`] at place 0.
pub fn check_sizes(n: usize, m: usize, t: usize, k: usize) -> Result<Sizes, Error> {
    sizes_of(Call::Sizes, n, m, t, k)
}

// The same for a call that is to be made, which the refusal then names.
pub(crate) fn sizes_of(call: Call, n: usize, m: usize, t: usize, k: usize) -> Result<Sizes, Error> {
    check_version()?;
    let r = raw::sizes(n, m, t, k);
    let (n, m, t, k) = (r.n, r.m, r.t, r.k);
    reply(call, r.code, r.place, Sizes { n, m, t, k })
}

/// The table's own first `t` bytes, or its empty part where `t` is larger than the table.
///
/// # Errors
///
/// [`Error::Version`] alone.
pub fn answers(table: &[u8], t: usize) -> Result<&[u8], Error> {
    check_version()?;
    Ok(&table[..raw::answers(table, t)])
}

/// A number to compare answers by voice: the check number of the table's first `t` bytes. It starts at 1, and each
/// byte a turns h into 31h + a + 1, reduced modulo 4,294,967,296.
///
/// Equal bytes have equal numbers, and two tables that differ in one of the first `t` bytes alone have different ones.
/// Tables that differ in more of them may share a number: equal numbers do not show that the bytes are equal.
///
/// ```
/// use lumzhasel::tables::check_number;
///
/// assert_eq!(check_number(&[3, 3, 1, 3, 2], 5)?, 32444448);
/// assert_eq!(check_number(&[3, 3, 1, 3, 2], 0)?, 1);
/// // Two tables that share a number.
/// assert_eq!(check_number(&[0, 31], 2)?, check_number(&[1, 0], 2)?);
/// # Ok::<(), lumzhasel::Error>(())
/// ```
///
/// # Errors
///
/// [`Reason::Sizes`] where `t` is above 4,096, then [`Reason::Short`] where the table is shorter than `t`, at place 0.
pub fn check_number(table: &[u8], t: usize) -> Result<u32, Error> {
    check_version()?;
    let r = raw::check_number(table, t);
    reply(Call::CheckNumber, r.code, r.place, r.number)
}

/// Contracts a graph to its active entries. The new nodes are numbered from 0: those that hold an active node in
/// order of first appearance in `active`, then the others by their smallest node. Connected pieces are numbered from
/// 0 in order of first appearance in `active`. An edge has the smallest name of an edge given whose loss parts the nodes
/// that its two ends stand for. What is not said to be written does not change.
///
/// Two active entries have different numbers in `pieces` exactly where their nodes are not joined, in the graph given
/// and, by `map`, in the small one. A caller who has added no edge since then reads [`NOT_JOINED`] there:
///
/// ```
/// use lumzhasel::tables::{contract, contract_work, ContractTables};
///
/// // Two edges that no other joins, and their ends by turns.
/// let (mut map, mut names, mut pieces) = ([0; 4], [0; 8], [0; 4]);
/// contract(ContractTables {
///     n: 4,
///     m: 2,
///     k: 4,
///     from: &[0, 1],
///     to: &[2, 3],
///     names: &[70, 30],
///     active: &[3, 0, 1, 2],
///     map: &mut map,
///     out_from: &mut [0; 8],
///     out_to: &mut [0; 8],
///     out_names: &mut names,
///     pieces: &mut pieces,
///     work: &mut vec![0; contract_work(4, 2)],
/// })?;
/// assert_eq!((map, pieces), ([0, 1, 2, 3], [0, 1, 0, 1]));
/// // The edges are 0-2, which was 1-3, and 1-3, which was 0-2.
/// assert_eq!(names[..2], [30, 70]);
/// # Ok::<(), lumzhasel::Error>(())
/// ```
///
/// # Errors
///
/// [`Reason::Sizes`], [`Reason::Short`], [`Reason::End`] and [`Reason::Entry`], in this order.
pub fn contract(lent: ContractTables<'_>) -> Result<Contracted, Error> {
    check_version()?;
    let r = raw::contract(lent);
    let (nodes, edges) = (r.nodes, r.edges);
    reply(Call::Contract, r.code, r.place, Contracted { nodes, edges })
}

/// Replays a list by the loss of a road. What is not said to be written does not change.
///
/// # Errors
///
/// [`Reason::Sizes`], [`Reason::Short`], [`Reason::Long`], [`Reason::Share`], [`Reason::End`] and [`Reason::Start`], in
/// this order; then the first event that shows [`Reason::Event`], [`Reason::OpenTwice`] or [`Reason::NotOpen`].
pub fn replay(lent: ReplayTables<'_>) -> Result<Totals, Error> {
    check_version()?;
    let r = raw::replay(lent);
    let (queries, open, kept) = (r.queries, r.open, r.kept);
    reply(Call::Replay, r.code, r.place, Totals { queries, open, kept })
}

/// Replays a list by the loss of a junction, as a flooded crossing shuts every road that meets there. An answer is
/// [`NOT_JOINED`] where [`replay`] has it, [`JOINED_ONCE`] where the two are joined and the loss of some third junction
/// parts them, and else [`JOINED_TWICE`]: so also of a junction with itself, and of two junctions that an open road
/// joins. What is not said to be written does not change.
///
/// ```
/// use lumzhasel::tables::{replay_junctions, replay_junctions_work, ReplayJunctionsTables};
///
/// // The row 0, 1, 2: its ends hang on junction 1, and two neighbours on no third.
/// let mut answers = [0; 2];
/// let totals = replay_junctions(ReplayJunctionsTables {
///     n: 3,
///     m: 2,
///     t: 2,
///     p: 8,
///     a: &[0, 1],
///     b: &[1, 2],
///     start: &[1, 1],
///     x: &[0, 0],
///     y: &[2, 1],
///     answers: &mut answers,
///     work: &mut vec![0; replay_junctions_work(3, 2, 2)],
/// })?;
/// assert_eq!((totals.queries, totals.open), (2, 2));
/// assert_eq!(answers, [1, 2]);
/// # Ok::<(), lumzhasel::Error>(())
/// ```
///
/// # Errors
///
/// Those of [`replay`], in its order.
pub fn replay_junctions(lent: ReplayJunctionsTables<'_>) -> Result<JunctionTotals, Error> {
    check_version()?;
    let r = raw::replay_junctions(lent);
    let (queries, open) = (r.queries, r.open);
    reply(Call::ReplayJunctions, r.code, r.place, JunctionTotals { queries, open })
}

#[cfg(test)]
mod tests {
    use super::*;

    #[test]
    fn an_archive_of_another_version() {
        assert_eq!(fits(crate::VERSION), Ok(()));
        for archive in [0, 1, crate::VERSION + 1, u32::MAX] {
            let error = fits(archive).unwrap_err();
            assert_eq!(error, Error::Version { archive });
            assert_eq!(error.refusal(), None);
            let ours = crate::VERSION;
            let words = format!("the archive has version {archive} of the calls, this package is for version {ours}");
            assert_eq!(error.to_string(), words);
        }
    }

    #[test]
    fn a_code_that_is_new() {
        let refused = reply(Call::Replay, 14, 5, ()).unwrap_err().refusal().unwrap();
        assert_eq!((refused.reason, refused.place), (Reason::Other(14), 5));
        assert_eq!(reply(Call::Replay, 0, 0, 7), Ok(7));
    }
}
