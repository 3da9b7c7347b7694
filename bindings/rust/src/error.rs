//! Why a call has no result.

use std::error;
use std::fmt;

/// Why a call is refused. Of several reasons the first counts, in the order in which they stand here;
/// of the events, the first that shows one, and [`Reason::Event`] before the others at one event.
#[derive(Clone, Copy, Debug, PartialEq, Eq, Hash)]
#[non_exhaustive]
pub enum Reason {
    /// 1: more than 4,096 junctions or nodes, 8,192 segments or edges, 4,096 events or 8,192 active entries.
    Sizes,
    /// 2: a table is shorter than its least length.
    Short,
    /// 12: a table of a replay that is only read is longer than its size.
    Long,
    /// 3: the share is below 4 or above 12.
    Share,
    /// 4: the first segment or edge, the place, with an end that is no junction or node.
    End,
    /// 11: the first segment, the place, whose starting entry is neither 0 nor 1.
    Start,
    /// 5: the event at the place names no junction, segment or kind of event.
    Event,
    /// 6: the event at the place opens an open segment.
    OpenTwice,
    /// 7: the event at the place closes a closed segment.
    NotOpen,
    /// 8: the first active entry, the place, that is no node.
    Entry,
    /// A number that this package has no name for.
    Other(usize),
}

impl Reason {
    /// The number of the reason in the table of refusals.
    pub const fn code(self) -> usize {
        match self {
            Reason::Sizes => 1,
            Reason::Short => 2,
            Reason::Share => 3,
            Reason::End => 4,
            Reason::Event => 5,
            Reason::OpenTwice => 6,
            Reason::NotOpen => 7,
            Reason::Entry => 8,
            Reason::Start => 11,
            Reason::Long => 12,
            Reason::Other(code) => code,
        }
    }

    pub(crate) const fn from_code(code: usize) -> Reason {
        match code {
            1 => Reason::Sizes,
            2 => Reason::Short,
            3 => Reason::Share,
            4 => Reason::End,
            5 => Reason::Event,
            6 => Reason::OpenTwice,
            7 => Reason::NotOpen,
            8 => Reason::Entry,
            11 => Reason::Start,
            12 => Reason::Long,
            code => Reason::Other(code),
        }
    }
}

impl fmt::Display for Reason {
    /// In the words of the header's `lum_refusal_text`.
    fn fmt(&self, f: &mut fmt::Formatter<'_>) -> fmt::Result {
        f.write_str(match self {
            Reason::Sizes => "a size is over its limit",
            Reason::Short => "a table is too short",
            Reason::Long => "a table is longer than its size",
            Reason::Share => "the share is not 4 to 12",
            Reason::End => "an end of the segment or edge is no junction or node",
            Reason::Start => "the segment's starting entry is neither 0 nor 1",
            Reason::Event => "the event names no junction, segment or kind of event",
            Reason::OpenTwice => "the event opens an open segment",
            Reason::NotOpen => "the event closes a closed segment",
            Reason::Entry => "the active entry is no node",
            Reason::Other(_) => "this version has no name for the reason",
        })
    }
}

/// The call that is refused, by which its words are chosen: a replay, of either kind, has segments and junctions, a contraction edges
/// and nodes.
#[derive(Clone, Copy, Debug, PartialEq, Eq, Hash)]
#[non_exhaustive]
pub enum Call {
    /// [`tables::check_sizes`](crate::tables::check_sizes).
    Sizes,
    /// [`tables::check_number`](crate::tables::check_number).
    CheckNumber,
    /// [`tables::contract`](crate::tables::contract), and the calls of [`Network`](crate::Network) over it.
    Contract,
    /// [`tables::replay`](crate::tables::replay), and [`Network::replay`](crate::Network::replay) over it.
    Replay,
    /// [`tables::replay_junctions`](crate::tables::replay_junctions), and
    /// [`Network::replay_junctions`](crate::Network::replay_junctions) over it.
    ReplayJunctions,
}

/// A refused call: the reason and its place, which is 0 where the reason names none. No table was changed.
#[derive(Clone, Copy, Debug, PartialEq, Eq, Hash)]
pub struct Refusal {
    /// The call.
    pub call: Call,
    /// Why it is refused.
    pub reason: Reason,
    /// The segment, edge, event or active entry, counted from 0.
    pub place: usize,
}

impl fmt::Display for Refusal {
    /// In the words of the program `replay`, and then the reason in those of the call.
    fn fmt(&self, f: &mut fmt::Formatter<'_>) -> fmt::Result {
        write!(f, "refused {} at {}: ", self.reason.code(), self.place)?;
        match (self.reason, self.call) {
            (Reason::End, Call::Replay | Call::ReplayJunctions) => f.write_str("an end of the segment is no junction"),
            (Reason::End, Call::Contract) => f.write_str("an end of the edge is no node"),
            (reason, _) => reason.fmt(f),
        }
    }
}

impl error::Error for Refusal {}

/// Why a call has no result.
#[derive(Clone, Copy, Debug, PartialEq, Eq, Hash)]
#[non_exhaustive]
pub enum Error {
    /// The call is refused.
    Refused(Refusal),
    /// The archive has other calls than this package was written for, and none was made.
    Version {
        /// The version of the archive's calls.
        archive: u32,
    },
}

impl Error {
    /// The refusal, where it is one.
    pub fn refusal(self) -> Option<Refusal> {
        match self {
            Error::Refused(refusal) => Some(refusal),
            Error::Version { .. } => None,
        }
    }
}

impl From<Refusal> for Error {
    fn from(refusal: Refusal) -> Error {
        Error::Refused(refusal)
    }
}

impl fmt::Display for Error {
    fn fmt(&self, f: &mut fmt::Formatter<'_>) -> fmt::Result {
        match self {
            Error::Refused(refusal) => refusal.fmt(f),
            Error::Version { archive } => write!(
                f,
                "the archive has version {archive} of the calls, this package is for version {}",
                crate::VERSION
            ),
        }
    }
}

impl error::Error for Error {
    fn source(&self) -> Option<&(dyn error::Error + 'static)> {
        match self {
            Error::Refused(refusal) => Some(refusal),
            Error::Version { .. } => None,
        }
    }
}

#[cfg(test)]
mod tests {
    use super::*;

    #[test]
    fn each_number_is_a_reason() {
        for code in 0..100 {
            assert_eq!(Reason::from_code(code).code(), code);
        }
        assert_eq!(Reason::from_code(8), Reason::Entry);
        assert_eq!(Reason::from_code(9), Reason::Other(9));
        assert_eq!(Reason::from_code(11), Reason::Start);
        assert_eq!(Reason::from_code(12), Reason::Long);
        assert_eq!(Reason::from_code(usize::MAX).code(), usize::MAX);
    }

    #[test]
    fn a_number_that_is_new_is_said() {
        let refused = refusal(Call::Replay, Reason::from_code(13));
        assert_eq!(
            refused.to_string(),
            "refused 13 at 3: this version has no name for the reason"
        );
        assert_eq!(Error::from(refused).refusal(), Some(refused));
    }

    fn refusal(call: Call, reason: Reason) -> Refusal {
        Refusal { call, reason, place: 3 }
    }

    #[test]
    fn a_contraction_has_edges() {
        let words = |call, reason| refusal(call, reason).to_string();
        for replay in [Call::Replay, Call::ReplayJunctions] {
            assert_eq!(
                words(replay, Reason::End),
                "refused 4 at 3: an end of the segment is no junction"
            );
        }
        assert_eq!(
            words(Call::Contract, Reason::End),
            "refused 4 at 3: an end of the edge is no node"
        );
        assert_eq!(
            words(Call::Contract, Reason::Entry),
            "refused 8 at 3: the active entry is no node"
        );
        assert_eq!(
            words(Call::Sizes, Reason::Sizes),
            "refused 1 at 3: a size is over its limit"
        );
    }
}
