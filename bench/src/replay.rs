//! The replay in plain Rust: the same checks, roads, areas, load, windows and step as the crates `replay_*` and `call_replay`.

use crate::core::{self, put_edge, Half, Node, LARGE_END, MARK, NAMED, SMALL_END};
use crate::roads;
use crate::{
    open_at_start, Refusal, CLOSES, MOST_EVENTS, MOST_JUNCTIONS, MOST_SEGMENTS, NO_NAME, OPENS,
};

#[derive(Clone, Copy, PartialEq, Eq, Debug)]
pub struct Totals {
    pub queries: usize,
    pub open: usize,
    pub kept: usize,
}

pub fn required(n: usize, m: usize, t: usize) -> usize {
    256 * t + 32 * n + 8 * m + 2048
}

struct Segments([u64; 128]);

impl Segments {
    fn at_start(start: &[u16]) -> Self {
        let mut open = Segments([0; 128]);
        for s in open_at_start(start) {
            open.insert(s);
        }
        open
    }

    fn contains(&self, s: u16) -> bool {
        self.0[s as usize / 64] >> (s % 64) & 1 == 1
    }

    fn insert(&mut self, s: u16) {
        self.0[s as usize / 64] |= 1 << (s % 64);
    }

    fn remove(&mut self, s: u16) {
        self.0[s as usize / 64] &= !(1 << (s % 64));
    }

    fn count(&self) -> usize {
        self.0.iter().map(|w| w.count_ones() as usize).sum()
    }
}

fn names_segment(x: u16) -> bool {
    x >= CLOSES
}

/// The events' first fault, where the tables are long enough; else the number of segments that are open at the end.
fn check_events(
    n: usize,
    m: usize,
    mut open: Segments,
    x: &[u16],
    y: &[u16],
) -> Result<usize, Refusal> {
    for (i, (&x, &y)) in x.iter().zip(y).enumerate() {
        let bound = if names_segment(x) { m } else { n };
        if y as usize >= bound || !names_segment(x) && x as usize >= n {
            return Err(Refusal::new(5, i));
        }
        match x {
            OPENS => {
                if open.contains(y) {
                    return Err(Refusal::new(6, i));
                }
                open.insert(y);
            }
            CLOSES => {
                if !open.contains(y) {
                    return Err(Refusal::new(7, i));
                }
                open.remove(y);
            }
            _ => {}
        }
    }
    Ok(open.count())
}

/// The nodes of an event's two junctions.
type Places = [u32; 2];

/// What the recursion needs of an event, all 0 for a query: 1 + 4 times the road of its segment + 2 where the road is open just before + 1
/// where it is open just after; the next event that names the road, t where there is none; 1 + the last event before it that does, or 0.
type Event = [u32; 3];

/// The road of the segment that an event names, where it is no query.
fn road(event: &Event) -> usize {
    (event[0] as usize - 1) / 4
}

fn is_open_before(event: &Event) -> bool {
    (event[0] - 1) & 2 != 0
}

fn is_open_after(event: &Event) -> bool {
    (event[0] - 1) & 1 != 0
}

/// The front of an area of n events: its places and event words.
fn events_of(area: &[u32], n: usize) -> (&[Places], &[Event]) {
    let (places, rest) = area.split_at(2 * n);
    (places.as_chunks().0, rest[..3 * n].as_chunks().0)
}

/// The roads before the windows, a word for each segment in each table: the name of its road; at a name the number of the road's open
/// segments, and 1 + the last event so far that names one of them.
struct Roads<'a> {
    names: &'a mut [u32],
    open: &'a mut [u32],
    latest: &'a mut [u32],
}

/// The roads as they are at the start: the numbers of open segments in m words, the rest in 2m + 2n words of the scratch.
fn make_roads<'a>(
    n: usize,
    a: &[u16],
    b: &[u16],
    start: &[u16],
    open: &'a mut [u32],
    scratch: &'a mut [u32],
) -> Roads<'a> {
    let m = a.len();
    let (names, rest) = scratch.split_at_mut(m);
    let (latest, rest) = rest.split_at_mut(m);
    roads::name(n, a, b, names, rest);
    open.fill(0);
    for s in open_at_start(start) {
        open[names[s as usize] as usize] += 1;
    }
    latest.fill(0);
    Roads {
        names,
        open,
        latest,
    }
}

/// The words of the window above the whole list: the raw junctions as places, and the event words. The roads are left as they are at the end.
fn make_events(a: &[u16], b: &[u16], x: &[u16], y: &[u16], roads: &mut Roads, above: &mut [u32]) {
    let t = x.len();
    let (places, events) = above.split_at_mut(2 * t);
    let places = places.as_chunks_mut::<2>().0;
    let events = events.as_chunks_mut::<3>().0;
    for i in 0..t {
        if !names_segment(x[i]) {
            places[i] = [x[i] as u32, y[i] as u32];
            events[i] = [0; 3];
            continue;
        }
        let s = y[i] as usize;
        let road = roads.names[s];
        let open = &mut roads.open[road as usize];
        let before = *open;
        *open = if x[i] == OPENS {
            before + 1
        } else {
            before - 1
        };
        let state = 2 * (before != 0) as u32 + (*open != 0) as u32;
        let latest = &mut roads.latest[road as usize];
        places[i] = [a[s] as u32, b[s] as u32];
        events[i] = [1 + 4 * road + state, t as u32, *latest];
        *latest = i as u32 + 1;
    }
    for i in (0..t).rev() {
        let last = events[i][2] as usize;
        if last != 0 {
            events[last - 1][1] = i as u32;
        }
    }
}

/// A window's events, and the size of its small graph. The area of a window of n events stands at the front of its work slice: places (2 n), event
/// words (3 n), the smaller and the larger ends of the edges, and their names (4 n each; 8 n each in the sibling).
#[derive(Clone, Copy)]
pub(crate) struct Window {
    pub(crate) at: usize,
    pub(crate) events: usize,
    pub(crate) nodes: usize,
    pub(crate) edges: usize,
}

/// What differs between the replay and its sibling in a step: how the graph is reduced, and how much room its edges need.
pub(crate) trait Reduction {
    /// The edges that a window has room for, for each of its events.
    const EDGES: usize;
    /// How many edges stand behind the graph's own while it is reduced, for each event.
    const BEHIND: usize;
    /// The words of an area, for each event.
    const AREA: usize = 5 + 3 * Self::EDGES;

    /// Reduces the graph of the first m edges to the k active nodes, each of which has its number in MARK afterwards; the nodes and the edges.
    fn reduce(nodes: &mut [Node], halves: &mut [Half], m: usize, k: usize) -> (usize, usize);

    /// Writes so many edges of the reduced graph: their ends, and their names.
    fn write_edges(
        nodes: &[Node],
        behind: &[Half],
        edges: usize,
        small: &mut [u32],
        large: &mut [u32],
        names: &mut [u32],
    );
}

struct Contraction;

impl Reduction for Contraction {
    const EDGES: usize = 4;
    const BEHIND: usize = 0;

    fn reduce(nodes: &mut [Node], halves: &mut [Half], m: usize, k: usize) -> (usize, usize) {
        core::reduce::<false>(nodes, &mut halves[..2 * m], k)
    }

    fn write_edges(
        nodes: &[Node],
        _: &[Half],
        edges: usize,
        small: &mut [u32],
        large: &mut [u32],
        names: &mut [u32],
    ) {
        let out = small.iter_mut().zip(large).zip(names);
        for (node, ((u, v), name)) in nodes[..edges].iter().zip(out) {
            *u = node[SMALL_END];
            *v = node[LARGE_END];
            *name = node[NAMED];
        }
    }
}

/// Clears the marks and enters the places as active nodes; the number of different ones.
fn enter_all(nodes: &mut [Node], places: &[Places]) -> usize {
    core::clear_marks(nodes);
    let places = places.as_flattened().iter();
    places.fold(0, |k, &v| core::enter(nodes, k, v as usize))
}

/// Writes a part's area: its places by their new numbers, its event words, and the edges of its reduced graph, out of a graph of m edges.
fn write_area<R: Reduction>(
    (nodes, halves): (&[Node], &[Half]),
    m: usize,
    edges: usize,
    places: &[Places],
    events: &[Event],
    part: &mut [u32],
) {
    let c = events.len();
    let (new_places, rest) = part.split_at_mut(2 * c);
    let (new_events, ends) = rest.split_at_mut(3 * c);
    let (small, rest) = ends.split_at_mut(R::EDGES * c);
    let (large, names) = rest.split_at_mut(R::EDGES * c);
    for (new, &v) in new_places.iter_mut().zip(places.as_flattened()) {
        *new = nodes[v as usize][MARK];
    }
    new_events.copy_from_slice(events.as_flattened());
    R::write_edges(nodes, &halves[2 * m..], edges, small, large, names);
}

/// Loads one edge for each road that is open at the start and that no event names, with its name; how many they are. `open` has the numbers at the end,
/// which are those at the start for a road that no event names; the others are cleared.
fn load_roads(
    a: &[u16],
    b: &[u16],
    events: &[Event],
    open: &mut [u32],
    halves: &mut [Half],
) -> usize {
    for event in events.iter().filter(|e| e[0] != 0) {
        open[road(event)] = 0;
    }
    let pairs = halves.as_chunks_mut::<2>().0;
    let mut m = 0;
    for (name, ((&u, &v), &open)) in a.iter().zip(b).zip(&*open).enumerate() {
        if open != 0 {
            put_edge(&mut pairs[m], u as u32, v as u32, name as u32);
            m += 1;
        }
    }
    m
}

/// The whole list's area, behind the window above it, whose nodes are all n junctions. Of the roads the contraction needs the numbers of open
/// segments alone, and its words stand where the rest of them was.
pub(crate) fn top<R: Reduction>(
    n: usize,
    a: &[u16],
    b: &[u16],
    start: &[u16],
    x: &[u16],
    y: &[u16],
    work: &mut [u32],
) -> Window {
    let t = x.len();
    let (above, rest) = work.split_at_mut(5 * t);
    let (whole, rest) = rest.split_at_mut(R::AREA * t);
    let (open, scratch) = rest.split_at_mut(a.len());
    let mut roads = make_roads(n, a, b, start, open, scratch);
    make_events(a, b, x, y, &mut roads, above);
    let (places, events) = events_of(above, t);
    let (nodes, halves) = core::split(scratch, n, a.len() + R::BEHIND * t);
    let k = enter_all(nodes, places);
    let m = load_roads(a, b, events, open, halves);
    let (count, edges) = R::reduce(nodes, halves, m, k);
    write_area::<R>((nodes, halves), m, edges, places, events, whole);
    Window {
        at: 0,
        events: t,
        nodes: count,
        edges,
    }
}

/// The area of the part of c events from lo on, out of the window's, which is at the front of work; it is written behind that.
pub(crate) fn step<R: Reduction>(w: Window, lo: usize, c: usize, work: &mut [u32]) -> Window {
    let n = w.events;
    let (area, rest) = work.split_at_mut(R::AREA * n);
    let (part, scratch) = rest.split_at_mut(R::AREA * c);
    let (places, events) = events_of(area, n);
    let (small, rest) = area[5 * n..].split_at(R::EDGES * n);
    let (large, names) = rest.split_at(R::EDGES * n);
    let (first, behind) = (lo - w.at, lo - w.at + c);
    let here = &places[first..behind];

    // The window's edges first; then each road that the window names, the part does not, and that is open, once: by the last
    // event before the part that names it, else by the first behind it.
    let (nodes, halves) = core::split(scratch, w.nodes, w.edges + n - c + R::BEHIND * c);
    let k = enter_all(nodes, here);
    let pairs = halves.as_chunks_mut::<2>().0;
    let given = small[..w.edges].iter().zip(large).zip(names);
    for (edge, ((&u, &v), &name)) in pairs.iter_mut().zip(given) {
        put_edge(edge, u, v, name);
    }
    let mut m = w.edges;
    let mut add = |event: &Event, ends: &Places| {
        put_edge(&mut pairs[m], ends[0], ends[1], road(event) as u32);
        m += 1;
    };
    for (event, ends) in events[..first].iter().zip(places) {
        if event[0] != 0 && event[1] as usize >= lo + c && is_open_after(event) {
            add(event, ends);
        }
    }
    for (event, ends) in events[behind..].iter().zip(&places[behind..]) {
        if event[0] != 0 && event[2] as usize <= w.at && is_open_before(event) {
            add(event, ends);
        }
    }

    let (count, edges) = R::reduce(nodes, halves, m, k);
    let here = (here, &events[first..behind]);
    write_area::<R>((nodes, halves), m, edges, here.0, here.1, part);
    Window {
        at: lo,
        events: c,
        nodes: count,
        edges,
    }
}

/// How many of n events the first part of a window has.
pub(crate) fn first_part(n: usize, p: usize) -> usize {
    (n * p / 16).max(1)
}

/// Answers a window's events, and names the roads that answers 1 hang on; the nodes of its small graph and of those of the windows inside it.
fn window(w: Window, p: usize, answers: &mut [u8], names: &mut [u16], work: &mut [u32]) -> usize {
    let n = w.events;
    if n == 1 {
        let tag = work[2];
        (answers[w.at], names[w.at]) = match w {
            _ if tag != 0 => (3, NO_NAME),
            Window { nodes: 1, .. } => (2, NO_NAME),
            Window { edges: 0, .. } => (0, NO_NAME),
            _ => (1, work[13] as u16),
        };
        return w.nodes;
    }
    let c = first_part(n, p);
    let part = step::<Contraction>(w, w.at, c, work);
    let first = window(part, p, answers, names, &mut work[17 * n..]);
    let part = step::<Contraction>(w, w.at + c, n - c, work);
    let second = window(part, p, answers, names, &mut work[17 * n..]);
    w.nodes + first + second
}

/// The first fault of what is lent, where of the tables that are written the shortest one for events has so many entries, and the work table has
/// `words` and needs `need`; else the number of segments that are open at the end.
#[allow(clippy::too_many_arguments)]
pub(crate) fn check(
    n: usize,
    m: usize,
    t: usize,
    p: usize,
    a: &[u16],
    b: &[u16],
    start: &[u16],
    x: &[u16],
    y: &[u16],
    written: usize,
    words: usize,
    need: fn(usize, usize, usize) -> usize,
) -> Result<usize, Refusal> {
    if n > MOST_JUNCTIONS || m > MOST_SEGMENTS || t > MOST_EVENTS {
        return Err(Refusal::new(1, 0));
    }
    let short = a.len() < m
        || b.len() < m
        || start.len() < m
        || x.len() < t
        || y.len() < t
        || written < t
        || words < need(n, m, t);
    if short {
        return Err(Refusal::new(2, 0));
    }
    let long = a.len() > m || b.len() > m || start.len() > m || x.len() > t || y.len() > t;
    if long {
        return Err(Refusal::new(12, 0));
    }
    if !(4..=12).contains(&p) {
        return Err(Refusal::new(3, 0));
    }
    let bad = |v: u16| v as usize >= n;
    if let Some(s) = a.iter().zip(b).position(|(&u, &v)| bad(u) || bad(v)) {
        return Err(Refusal::new(4, s));
    }
    if let Some(s) = start.iter().position(|&e| e > 1) {
        return Err(Refusal::new(11, s));
    }
    check_events(n, m, Segments::at_start(start), x, y)
}

pub(crate) fn count_queries(x: &[u16]) -> usize {
    x.iter().filter(|&&v| !names_segment(v)).count()
}

#[allow(clippy::too_many_arguments)]
pub fn replay(
    n: usize,
    m: usize,
    t: usize,
    p: usize,
    a: &[u16],
    b: &[u16],
    start: &[u16],
    x: &[u16],
    y: &[u16],
    answers: &mut [u8],
    names: &mut [u16],
    work: &mut [u32],
) -> Result<Totals, Refusal> {
    let written = answers.len().min(names.len());
    let words = work.len();
    let open = check(n, m, t, p, a, b, start, x, y, written, words, required)?;
    let work = &mut work[..required(n, m, t)];
    let mut kept = 0;
    if t > 0 {
        let whole = top::<Contraction>(n, a, b, start, x, y, work);
        kept = window(whole, p, answers, names, &mut work[5 * t..]);
    }
    work.fill(0);
    Ok(Totals {
        queries: count_queries(x),
        open,
        kept,
    })
}
