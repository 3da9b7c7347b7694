//! Safe calls of the proved replay of road networks.
//!
//! One network and one list of openings, closures and queries make a replay. It says of two junctions
//! at each query: 0 not joined, 1 joined by a way that the loss of one road breaks, 2 joined whichever
//! single road is lost. Its sibling says the same by the loss of a junction, and the contraction that it
//! rests on is a call of its own.
//!
//! ```
//! use lumzhasel::{Answer, List, Network};
//!
//! // Three junctions in a triangle of segments that open one after the other.
//! let network = Network::with_segments(3, [(0, 1), (1, 2), (2, 0)]);
//! let mut list = List::new();
//! list.open(0).open(1).query(0, 2).open(2).query(0, 2);
//!
//! let replayed = network.replay(&list)?;
//! let answers: Vec<(usize, Answer)> = replayed.queries().collect();
//! assert_eq!(answers, [(2, Answer::JoinedOnce), (4, Answer::JoinedTwice)]);
//! assert_eq!((replayed.totals.open, replayed.totals.kept), (3, 19));
//! # Ok::<(), lumzhasel::Error>(())
//! ```
//!
//! Segments are closed at the start, but for those that the network is told of:
//!
//! ```
//! # use lumzhasel::{Answer, List, Network};
//! let network = Network::with_segments(3, [(0, 1), (1, 2), (2, 0)]).with_open(0..3);
//! let mut list = List::new();
//! list.query(0, 2).close(2).query(0, 2);
//!
//! let replayed = network.replay(&list)?;
//! let answers: Vec<(usize, Answer)> = replayed.queries().collect();
//! assert_eq!(answers, [(0, Answer::JoinedTwice), (2, Answer::JoinedOnce)]);
//! # Ok::<(), lumzhasel::Error>(())
//! ```
//!
//! All segments with the same two ends, in either order, are one road, which is open while any of them is.
//! So the two carriageways of a road are no second way:
//!
//! ```
//! # use lumzhasel::{Answer, List, Network};
//! let network = Network::with_segments(2, [(0, 1), (1, 0)]).with_open([0, 1]);
//! let mut list = List::new();
//! list.query(0, 1).close(0).query(0, 1).close(1).query(0, 1);
//!
//! let replayed = network.replay(&list)?;
//! let answers: Vec<Answer> = replayed.queries().map(|(_, answer)| answer).collect();
//! assert_eq!(answers, [Answer::JoinedOnce, Answer::JoinedOnce, Answer::NotJoined]);
//! # Ok::<(), lumzhasel::Error>(())
//! ```
//!
//! An answer 1 hangs on roads whose loss parts the two junctions. The replay names the smallest of them, so that
//! planners know what to watch. A road's name is its smallest segment, open or not:
//!
//! ```
//! # use lumzhasel::{List, Network};
//! // Junctions 0 to 3 in a row. Segments 1 and 3 are one road, of which only the second is open.
//! let network = Network::with_segments(4, [(2, 3), (0, 1), (1, 2), (1, 0)]).with_open([0, 2, 3]);
//! let mut list = List::new();
//! list.query(0, 3).query(2, 0).query(1, 1);
//!
//! let replayed = network.replay(&list)?;
//! assert_eq!(replayed.names, [Some(0), Some(1), None]);
//! let watched: Vec<(usize, usize)> = replayed.watched().collect();
//! assert_eq!(watched, [(0, 0), (1, 1)]);
//! # Ok::<(), lumzhasel::Error>(())
//! ```
//!
//! A flooded crossing shuts every road that meets there. [`Network::replay_junctions`] answers the same list by the loss
//! of a third junction. Two rings that share a crossing are joined whichever single road is lost, and part where the
//! crossing is, until a road past it opens:
//!
//! ```
//! # use lumzhasel::{Answer, List, Network};
//! // The rings 0, 1, 2 and 2, 3, 4, and a road from 1 to 3.
//! let roads = [(0, 1), (1, 2), (2, 0), (2, 3), (3, 4), (4, 2), (1, 3)];
//! let network = Network::with_segments(5, roads).with_open(0..6);
//! let mut list = List::new();
//! list.query(0, 4).open(6).query(0, 4);
//!
//! let by_roads: Vec<Answer> = network.replay(&list)?.queries().map(|(_, answer)| answer).collect();
//! assert_eq!(by_roads, [Answer::JoinedTwice, Answer::JoinedTwice]);
//! let flooded = network.replay_junctions(&list)?;
//! let by_junctions: Vec<(usize, Answer)> = flooded.queries().collect();
//! assert_eq!(by_junctions, [(0, Answer::JoinedOnce), (2, Answer::JoinedTwice)]);
//! assert_eq!((flooded.totals.queries, flooded.totals.open), (2, 7));
//! # Ok::<(), lumzhasel::Error>(())
//! ```
//!
//! The edges of a contraction carry names too: an edge of the small graph has the smallest along the route that it
//! stands for. Segments have their numbers as names, or those that [`Network::contract_named`] is given:
//!
//! ```
//! # use lumzhasel::Network;
//! let row = Network::with_segments(4, [(2, 3), (0, 1), (1, 2)]);
//!
//! let small = row.contract(&[0, 2])?;
//! assert_eq!((small.edges, small.names), (vec![(0, 1)], vec![1]));
//! let small = row.contract_named(&[0, 2], &[30, 20, 10])?;
//! assert_eq!(small.names, [10]);
//! # Ok::<(), lumzhasel::Error>(())
//! ```
//!
//! A contraction numbers the connected pieces that its active junctions lie in, so that unjoined areas can
//! be drawn in different colours without a search:
//!
//! ```
//! # use lumzhasel::Network;
//! // Junctions 0, 2 and 4 hang together, and so do 1 and 3.
//! let network = Network::with_segments(5, [(0, 2), (2, 4), (1, 3)]);
//!
//! let small = network.contract(&[4, 1, 0, 3])?;
//! assert_eq!(small.pieces, [0, 1, 0, 1]);
//! assert_eq!(small.piece_count(), 2);
//! # Ok::<(), lumzhasel::Error>(())
//! ```
//!
//! Two offices with the same list compare their answers by voice: each reads the check number of the first so many
//! events. Where the numbers of the first t agree and those of one more do not, the answers to event t differ:
//!
//! ```
//! # use lumzhasel::{tables, List, Network};
//! let network = Network::with_segments(3, [(0, 1), (1, 2), (2, 0)]);
//! let mut list = List::new();
//! list.open(0).open(1).query(0, 2).open(2).query(0, 2);
//! let ours = network.replay(&list)?;
//! // The other office's bytes, with another answer to event 2.
//! let theirs = [3, 3, 2, 3, 2];
//!
//! assert_eq!(ours.check_number(5)?, 32444448);
//! assert_eq!(tables::check_number(&theirs, 5)?, 32445409);
//! assert_eq!(ours.check_number(2)?, tables::check_number(&theirs, 2)?);
//! assert_ne!(ours.check_number(3)?, tables::check_number(&theirs, 3)?);
//! # Ok::<(), lumzhasel::Error>(())
//! ```
//!
//! There are two layers. The one above has [`Network`], [`List`] and [`Event`] as values, and results
//! that own what they hold; it makes the tables of each call. The module [`tables`] has the calls as
//! they are: the caller lends every table, and nothing is allocated.
//!
//! What each call returns and leaves in its tables is proved, for all inputs, in the crate
//! `call_exports` of the repository, of which this package links the archive: run
//! `bindings/archive` at the repository's top first, or name the archive's folder in the
//! variable `LUMZHASEL_ARCHIVE_DIR`. The package itself is not proved. It hands slices on as pointers
//! and lengths, in one module, and names the refusals.
//!
//! Before its first call it asks the archive for the version of its calls ([`version`]). Where that is
//! not [`VERSION`], no other call is made, and each function returns [`Error::Version`].
//!
//! A call takes stack: a thread with 64 KB is enough for every call. Replays of 4,096 events, by the loss of
//! a road and by that of a junction, ran on one with 48 KB for the shares 4, 5, 8 and 12, and a contraction
//! at the full sizes on one with 16 KB. This is measured (bench/stack) and not proved; a thread of
//! `std::thread` has 2 MB by default.
#![deny(missing_docs)]
#![deny(unsafe_code)]

#[cfg(all(archive_missing, not(doc)))]
compile_error!(
    "the archive libcall_exports.a is not there: run `bindings/archive` at the repository's top, or name its \
     folder in the variable LUMZHASEL_ARCHIVE_DIR"
);

mod error;
mod raw;
pub mod tables;
mod values;

pub use error::{Call, Error, Reason, Refusal};
pub use tables::{Contracted, JunctionTotals, Kind, Sizes, Totals};
pub use values::{Answer, Event, List, Network, Replayed, ReplayedJunctions, SmallGraph};

/// The most junctions of a replay, and nodes of a contraction.
pub const MOST_JUNCTIONS: usize = 4096;
/// The most segments of a replay, and edges of a contraction.
pub const MOST_SEGMENTS: usize = 8192;
/// The most events of a replay.
pub const MOST_EVENTS: usize = 4096;
/// The most active entries of a contraction.
pub const MOST_ENTRIES: usize = 8192;

/// The version of the calls that this package was written for.
pub const VERSION: u32 = 10;

/// The version of the calls in the archive.
pub fn version() -> u32 {
    raw::version()
}
