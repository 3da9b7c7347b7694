//! Networks, lists and results as values. Each call makes the tables that it lends.

use crate::error::{Call, Error};
use crate::tables::{self, ContractTables, JunctionTotals, ReplayJunctionsTables, ReplayTables, Totals, CLOSES, OPENS};

/// Junctions and the segments between them; or nodes and edges, for a contraction. Both are numbered from 0.
///
/// A segment may join a junction to itself, and several may join the same two: in a replay all segments with the same
/// two ends, in either order, are one road, which is open while any of them is. Ends are not checked before a call is
/// made: one that is no junction is refused then. A segment is closed at the start of a replay, unless the network says
/// that it is open.
#[derive(Clone, Debug, Default, PartialEq, Eq, Hash)]
pub struct Network {
    junctions: usize,
    segments: Vec<(usize, usize)>,
    // For each segment whether it is open at the start.
    start: Vec<bool>,
}

impl Network {
    /// A network without segments.
    pub fn new(junctions: usize) -> Network {
        Network::with_segments(junctions, [])
    }

    /// A network with these segments, by their two ends.
    pub fn with_segments(junctions: usize, segments: impl IntoIterator<Item = (usize, usize)>) -> Network {
        let segments = Vec::from_iter(segments);
        Network {
            junctions,
            start: vec![false; segments.len()],
            segments,
        }
    }

    /// The same network with these segments open at the start, and all others closed.
    ///
    /// # Panics
    ///
    /// Where the network has no such segment.
    pub fn with_open(mut self, segments: impl IntoIterator<Item = usize>) -> Network {
        self.start.fill(false);
        for s in segments {
            self.open_at_start(s);
        }
        self
    }

    /// Adds a segment, and says its number.
    pub fn add_segment(&mut self, u: usize, v: usize) -> usize {
        self.segments.push((u, v));
        self.start.push(false);
        self.segments.len() - 1
    }

    /// The segment is open at the start.
    ///
    /// # Panics
    ///
    /// Where the network has no such segment.
    pub fn open_at_start(&mut self, segment: usize) -> &mut Network {
        let open = self.start.get_mut(segment);
        *open.unwrap_or_else(|| panic!("the network has no segment {segment}")) = true;
        self
    }

    /// The number of junctions.
    pub fn junctions(&self) -> usize {
        self.junctions
    }

    /// The segments, by their two ends.
    pub fn segments(&self) -> &[(usize, usize)] {
        &self.segments
    }

    /// For each segment whether it is open at the start.
    pub fn start(&self) -> &[bool] {
        &self.start
    }

    // The two tables of the segments' ends.
    fn ends(&self) -> (Vec<u16>, Vec<u16>) {
        self.segments.iter().map(|&(u, v)| (entry(u), entry(v))).unzip()
    }

    // The entries of the tables that a replay only reads.
    fn entries(&self, list: &List) -> Entries {
        let (a, b) = self.ends();
        let start = self.start.iter().map(|&open| open.into()).collect();
        let (x, y) = list.events.iter().map(|e| e.entries()).unzip();
        Entries { a, b, start, x, y }
    }

    /// Replays a list over the network, by the loss of a road.
    ///
    /// # Errors
    ///
    /// [`Reason::Sizes`](crate::Reason::Sizes), [`Reason::Share`](crate::Reason::Share) and
    /// [`Reason::End`](crate::Reason::End), in this order; then the first event that shows
    /// [`Reason::Event`](crate::Reason::Event), [`Reason::OpenTwice`](crate::Reason::OpenTwice) or
    /// [`Reason::NotOpen`](crate::Reason::NotOpen).
    pub fn replay(&self, list: &List) -> Result<Replayed, Error> {
        let (n, m, t) = (self.junctions, self.segments.len(), list.events.len());
        // Before any table is made, which must have a length within reason.
        tables::sizes_of(Call::Replay, n, m, t, 0)?;
        let Entries { a, b, start, x, y } = self.entries(list);
        let (mut answers, mut names) = (vec![0; t], vec![0; t]);
        let totals = tables::replay(ReplayTables {
            n,
            m,
            t,
            p: list.share,
            a: &a,
            b: &b,
            start: &start,
            x: &x,
            y: &y,
            answers: &mut answers,
            names: &mut names,
            work: &mut vec![0; tables::replay_work(n, m, t)],
        })?;
        let road = |name: u16| (name != tables::NO_NAME).then_some(name.into());
        let names = names.into_iter().map(road);
        Ok(Replayed {
            totals,
            answers: answers_of(&answers)?,
            names: names.collect(),
        })
    }

    /// Replays a list over the network, by the loss of a junction: a flooded crossing, which shuts every road that meets
    /// there. An answer is [`JoinedOnce`](Answer::JoinedOnce) where the loss of some third junction parts the two. A
    /// junction with itself, and two junctions that an open road joins, are [`JoinedTwice`](Answer::JoinedTwice).
    ///
    /// ```
    /// # use lumzhasel::{Answer, List, Network};
    /// // The row 0, 1, 2: its ends hang on junction 1, and two neighbours on no third, though on the road between them.
    /// let row = Network::with_segments(3, [(0, 1), (1, 2)]).with_open([0, 1]);
    /// let mut list = List::new();
    /// list.query(0, 2).query(0, 1);
    ///
    /// let (once, twice) = (Some(Answer::JoinedOnce), Some(Answer::JoinedTwice));
    /// assert_eq!(row.replay_junctions(&list)?.answers, [once, twice]);
    /// assert_eq!(row.replay(&list)?.answers, [once, once]);
    /// # Ok::<(), lumzhasel::Error>(())
    /// ```
    ///
    /// # Errors
    ///
    /// Those of [`replay`](Network::replay), in its order.
    pub fn replay_junctions(&self, list: &List) -> Result<ReplayedJunctions, Error> {
        let (n, m, t) = (self.junctions, self.segments.len(), list.events.len());
        // Before any table is made, which must have a length within reason.
        tables::sizes_of(Call::ReplayJunctions, n, m, t, 0)?;
        let Entries { a, b, start, x, y } = self.entries(list);
        let mut answers = vec![0; t];
        let totals = tables::replay_junctions(ReplayJunctionsTables {
            n,
            m,
            t,
            p: list.share,
            a: &a,
            b: &b,
            start: &start,
            x: &x,
            y: &y,
            answers: &mut answers,
            work: &mut vec![0; tables::replay_junctions_work(n, m, t)],
        })?;
        Ok(ReplayedJunctions {
            totals,
            answers: answers_of(&answers)?,
        })
    }

    /// Contracts the graph of all segments, open or closed, to the active nodes, which may repeat. Each segment is an
    /// edge of its own here, also where several have the same ends, and has its number as its name.
    ///
    /// # Errors
    ///
    /// [`Reason::Sizes`](crate::Reason::Sizes), [`Reason::End`](crate::Reason::End) and
    /// [`Reason::Entry`](crate::Reason::Entry), in this order.
    pub fn contract(&self, active: &[usize]) -> Result<SmallGraph, Error> {
        let (n, m, k) = (self.junctions, self.segments.len(), active.len());
        tables::sizes_of(Call::Contract, n, m, 0, k)?;
        // The sizes are within the limits, so that each number fits.
        let names: Vec<u16> = (0..m).map(|s| s as u16).collect();
        self.contract_named(active, &names)
    }

    /// The same, with these names of the segments: any numbers, and at least as many as there are segments. An edge of
    /// the small graph has the smallest name along the route that it stands for.
    ///
    /// ```
    /// # use lumzhasel::Network;
    /// let path = Network::with_segments(4, [(0, 1), (1, 2), (2, 3)]);
    /// let small = path.contract_named(&[0, 2, 3], &[500, 40, 3])?;
    /// assert_eq!(small.edges, [(0, 1), (1, 2)]);
    /// assert_eq!(small.names, [40, 3]);
    /// # Ok::<(), lumzhasel::Error>(())
    /// ```
    ///
    /// # Errors
    ///
    /// [`Reason::Sizes`](crate::Reason::Sizes), [`Reason::Short`](crate::Reason::Short) where there are fewer names than
    /// segments, [`Reason::End`](crate::Reason::End) and [`Reason::Entry`](crate::Reason::Entry), in this order.
    pub fn contract_named(&self, active: &[usize], names: &[u16]) -> Result<SmallGraph, Error> {
        let (n, m, k) = (self.junctions, self.segments.len(), active.len());
        // Before any table is made, which must have a length within reason.
        tables::sizes_of(Call::Contract, n, m, 0, k)?;
        let (from, to) = self.ends();
        let active: Vec<u16> = active.iter().map(|&v| entry(v)).collect();
        let (mut map, mut pieces) = (vec![0; k], vec![0; k]);
        let [mut out_from, mut out_to, mut out_names] = [0; 3].map(|_| vec![0; 2 * k]);
        let small = tables::contract(ContractTables {
            n,
            m,
            k,
            from: &from,
            to: &to,
            names,
            active: &active,
            map: &mut map,
            out_from: &mut out_from,
            out_to: &mut out_to,
            out_names: &mut out_names,
            pieces: &mut pieces,
            work: &mut vec![0; tables::contract_work(n, m)],
        })?;
        let ends = out_from.iter().zip(&out_to).take(small.edges);
        out_names.truncate(small.edges);
        Ok(SmallGraph {
            nodes: small.nodes,
            edges: ends.map(|(&u, &v)| (u.into(), v.into())).collect(),
            names: out_names,
            map: map.into_iter().map(usize::from).collect(),
            pieces: pieces.into_iter().map(usize::from).collect(),
        })
    }
}

// The tables that a replay only reads, each with just as many entries as its size says.
struct Entries {
    a: Vec<u16>,
    b: Vec<u16>,
    start: Vec<u16>,
    x: Vec<u16>,
    y: Vec<u16>,
}

// The answers by the bytes of a table that a replay has filled.
fn answers_of(table: &[u8]) -> Result<Vec<Option<Answer>>, Error> {
    let bytes = tables::answers(table, table.len())?;
    Ok(bytes.iter().map(|&b| Answer::from_byte(b)).collect())
}

// Each query's event and answer, in order.
fn queries_of(answers: &[Option<Answer>]) -> impl Iterator<Item = (usize, Answer)> + '_ {
    let each = answers.iter().enumerate();
    each.filter_map(|(i, answer)| answer.map(|a| (i, a)))
}

// The check number of the first answers, by their bytes.
fn check_number_of(answers: &[Option<Answer>], events: usize) -> Result<u32, Error> {
    let bytes: Vec<u8> = answers.iter().map(|&answer| Answer::to_byte(answer)).collect();
    tables::check_number(&bytes, events)
}

// A number as a table's entry. One that does not fit is far past every limit, as is the entry that stands for it, so that
// the call refuses it in the same words; and no entry is one that opens or closes.
fn entry(v: usize) -> u16 {
    v.min(usize::from(CLOSES - 1)) as u16
}

/// What happens at one point of a list.
#[derive(Clone, Copy, Debug, PartialEq, Eq, Hash)]
#[non_exhaustive]
pub enum Event {
    /// The segment opens.
    Open(usize),
    /// The segment closes.
    Close(usize),
    /// The two junctions are asked about.
    Query(usize, usize),
}

impl Event {
    fn entries(self) -> (u16, u16) {
        match self {
            Event::Open(s) => (OPENS, entry(s)),
            Event::Close(s) => (CLOSES, entry(s)),
            Event::Query(u, v) => (entry(u), entry(v)),
        }
    }
}

/// A list of events, and the share by which its windows are cut.
///
/// ```
/// use lumzhasel::{Event, List};
///
/// let mut list = List::new();
/// list.open(4).query(0, 7).close(4);
/// assert_eq!(list, [Event::Open(4), Event::Query(0, 7), Event::Close(4)].into_iter().collect());
/// ```
#[derive(Clone, Debug, PartialEq, Eq, Hash)]
pub struct List {
    events: Vec<Event>,
    share: usize,
}

impl List {
    /// The share of a list that names none.
    pub const SHARE: usize = 8;

    /// An empty list.
    pub fn new() -> List {
        List::from(Vec::new())
    }

    /// The same events with another share, 4 to 12. It changes `kept` and the time that a replay takes, and no answer;
    /// a replay by the loss of a junction has no `kept`.
    pub fn with_share(self, share: usize) -> List {
        List { share, ..self }
    }

    /// Adds an event.
    pub fn push(&mut self, event: Event) -> &mut List {
        self.events.push(event);
        self
    }

    /// Adds the opening of a segment.
    pub fn open(&mut self, segment: usize) -> &mut List {
        self.push(Event::Open(segment))
    }

    /// Adds the closing of a segment.
    pub fn close(&mut self, segment: usize) -> &mut List {
        self.push(Event::Close(segment))
    }

    /// Adds a query of two junctions.
    pub fn query(&mut self, u: usize, v: usize) -> &mut List {
        self.push(Event::Query(u, v))
    }

    /// The events.
    pub fn events(&self) -> &[Event] {
        &self.events
    }

    /// The share.
    pub fn share(&self) -> usize {
        self.share
    }
}

impl Default for List {
    fn default() -> List {
        List::new()
    }
}

impl From<Vec<Event>> for List {
    fn from(events: Vec<Event>) -> List {
        let share = List::SHARE;
        List { events, share }
    }
}

impl FromIterator<Event> for List {
    fn from_iter<I: IntoIterator<Item = Event>>(events: I) -> List {
        List::from(Vec::from_iter(events))
    }
}

impl Extend<Event> for List {
    fn extend<I: IntoIterator<Item = Event>>(&mut self, events: I) {
        self.events.extend(events);
    }
}

/// The reply to a query: by the loss of a road, of a [`Network::replay`], or by the loss of a junction, of a
/// [`Network::replay_junctions`].
#[derive(Clone, Copy, Debug, PartialEq, Eq, Hash)]
#[non_exhaustive]
pub enum Answer {
    /// 0: no route of open roads runs between the junctions.
    NotJoined,
    /// 1: they are joined, and the loss of some single road, or of some third junction, parts them.
    JoinedOnce,
    /// 2: they are joined, and stay joined whichever single road, or third junction, is lost.
    JoinedTwice,
    /// A byte that this package has no name for.
    Other(u8),
}

impl Answer {
    /// The answer byte.
    pub const fn byte(self) -> u8 {
        match self {
            Answer::NotJoined => tables::NOT_JOINED,
            Answer::JoinedOnce => tables::JOINED_ONCE,
            Answer::JoinedTwice => tables::JOINED_TWICE,
            Answer::Other(byte) => byte,
        }
    }

    const fn from_byte(byte: u8) -> Option<Answer> {
        match byte {
            tables::NOT_JOINED => Some(Answer::NotJoined),
            tables::JOINED_ONCE => Some(Answer::JoinedOnce),
            tables::JOINED_TWICE => Some(Answer::JoinedTwice),
            tables::NO_QUERY => None,
            byte => Some(Answer::Other(byte)),
        }
    }

    // The byte of an event's answer, or of an event that has none.
    const fn to_byte(answer: Option<Answer>) -> u8 {
        match answer {
            Some(answer) => answer.byte(),
            None => tables::NO_QUERY,
        }
    }
}

/// The result of a replay by the loss of a road.
#[derive(Clone, Debug, PartialEq, Eq, Hash)]
#[non_exhaustive]
pub struct Replayed {
    /// The numbers of the whole list.
    pub totals: Totals,
    /// For each event its answer; none where it opens or closes.
    pub answers: Vec<Option<Answer>>,
    /// For each query with the answer [`JoinedOnce`](Answer::JoinedOnce) the road to watch: the smallest name of an open
    /// road whose loss parts the two junctions; none at all other events. A road's name is its smallest segment, open or
    /// not.
    pub names: Vec<Option<usize>>,
}

impl Replayed {
    /// Each query's event and answer, in order.
    pub fn queries(&self) -> impl Iterator<Item = (usize, Answer)> + '_ {
        queries_of(&self.answers)
    }

    /// Each query with the answer [`JoinedOnce`](Answer::JoinedOnce), in order: its event, and the road to watch by the
    /// number of its smallest segment, as in `names`.
    pub fn watched(&self) -> impl Iterator<Item = (usize, usize)> + '_ {
        let each = self.names.iter().enumerate();
        each.filter_map(|(i, name)| name.map(|road| (i, road)))
    }

    /// The check number of the first `events` answers, by their bytes, to compare them by voice; see
    /// [`tables::check_number`].
    ///
    /// # Errors
    ///
    /// [`Reason::Sizes`](crate::Reason::Sizes) above 4,096 events, then [`Reason::Short`](crate::Reason::Short) where
    /// there are fewer answers.
    pub fn check_number(&self, events: usize) -> Result<u32, Error> {
        check_number_of(&self.answers, events)
    }
}

/// The result of a replay by the loss of a junction. It names nothing to watch, and keeps no count of small graphs.
#[derive(Clone, Debug, PartialEq, Eq, Hash)]
#[non_exhaustive]
pub struct ReplayedJunctions {
    /// The numbers of the whole list.
    pub totals: JunctionTotals,
    /// For each event its answer; none where it opens or closes.
    pub answers: Vec<Option<Answer>>,
}

impl ReplayedJunctions {
    /// Each query's event and answer, in order.
    pub fn queries(&self) -> impl Iterator<Item = (usize, Answer)> + '_ {
        queries_of(&self.answers)
    }

    /// The check number of the first `events` answers, by their bytes, to compare them by voice; see
    /// [`tables::check_number`].
    ///
    /// # Errors
    ///
    /// [`Reason::Sizes`](crate::Reason::Sizes) above 4,096 events, then [`Reason::Short`](crate::Reason::Short) where
    /// there are fewer answers.
    pub fn check_number(&self, events: usize) -> Result<u32, Error> {
        check_number_of(&self.answers, events)
    }
}

/// The result of a contraction. Its nodes are numbered from 0: those that hold an active node in order of first
/// appearance among the active ones, then the others by their smallest node. Connected pieces are numbered from 0 in
/// order of first appearance among the active ones.
///
/// Two active entries have different numbers in `pieces` exactly where their nodes are not joined, in the graph that was
/// contracted and, by `map`, in this one. Once an edge is added to either, different numbers say nothing any more.
#[derive(Clone, Debug, PartialEq, Eq, Hash)]
#[non_exhaustive]
pub struct SmallGraph {
    /// The number of nodes.
    pub nodes: usize,
    /// The edges, each with its smaller end first, ascending.
    pub edges: Vec<(usize, usize)>,
    /// The name of each edge: the smallest along the route that it stands for, that is, of an edge given whose loss parts
    /// its two ends.
    pub names: Vec<u16>,
    /// The node that each active entry stands at.
    pub map: Vec<usize>,
    /// The number of the connected piece that each active entry lies in.
    pub pieces: Vec<usize>,
}

impl SmallGraph {
    /// How many connected pieces hold an active node.
    pub fn piece_count(&self) -> usize {
        self.pieces.iter().max().map_or(0, |last| last + 1)
    }
}

#[cfg(test)]
mod tests {
    use super::*;

    #[test]
    fn each_byte_is_an_answer_or_none() {
        for byte in 0..=255 {
            match Answer::from_byte(byte) {
                Some(answer) => assert_eq!(answer.byte(), byte),
                None => assert_eq!(byte, tables::NO_QUERY),
            }
            assert_eq!(Answer::to_byte(Answer::from_byte(byte)), byte);
        }
    }

    #[test]
    fn no_number_becomes_an_opening() {
        for v in [65533, 65534, 65535, 65536, 65536 + 3, usize::MAX] {
            assert_eq!(entry(v), 65533);
            assert_eq!(Event::Query(v, v).entries(), (65533, 65533));
        }
        assert_eq!(entry(8191), 8191);
    }
}
