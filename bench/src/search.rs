//! Searches that answer each query by itself, in time that is linear in what they search.
//! Both take lists that are valid, and check nothing. They search roads, by their names, so that a second open segment of a road costs nothing.
//! The roads that an answer 1 hangs on are the bridges on the way in the search's tree.

use crate::roads::Roads;
use crate::{open_at_start, CLOSES, NO_NAME, OPENS};

const NONE: u32 = u32::MAX;

/// One depth-first search over all junctions and all open roads per query. It finds the bridges,
/// and so the piece and the 2-edge-connected class of every junction; the adjacency is built anew from the open roads.
#[derive(Default)]
pub struct Whole {
    roads: Roads,
    open: Vec<u32>,
    /// The place of each road in `open`.
    place: Vec<u32>,
    first: Vec<u32>,
    /// The far end and the road of each half-edge, junction by junction.
    halves: Vec<[u32; 2]>,
    /// The time at which a junction was found, 0 for not yet.
    found: Vec<u32>,
    low: Vec<u32>,
    piece: Vec<u32>,
    class: Vec<u32>,
    cursor: Vec<u32>,
    /// The road by which a junction was found, and the junction from which it was.
    by: Vec<u32>,
    from: Vec<u32>,
    path: Vec<u32>,
    waiting: Vec<u32>,
}

impl Whole {
    pub fn new() -> Self {
        Self::default()
    }

    /// Segment s opens.
    fn open(&mut self, s: usize) {
        if let Some(road) = self.roads.open(s) {
            self.place[road] = self.open.len() as u32;
            self.open.push(road as u32);
        }
    }

    /// Segment s closes.
    fn close(&mut self, s: usize) {
        if let Some(road) = self.roads.close(s) {
            let at = self.place[road] as usize;
            self.open.swap_remove(at);
            if let Some(&moved) = self.open.get(at) {
                self.place[moved as usize] = at as u32;
            }
        }
    }

    fn build(&mut self, n: usize, a: &[u16], b: &[u16]) {
        self.first.clear();
        self.first.resize(n + 1, 0);
        for &s in &self.open {
            self.first[a[s as usize] as usize] += 1;
            self.first[b[s as usize] as usize] += 1;
        }
        let mut sum = 0;
        for f in &mut self.first {
            sum += *f;
            *f = sum;
        }
        self.halves.resize(sum as usize, [0; 2]);
        for &s in &self.open {
            let (u, v) = (a[s as usize], b[s as usize]);
            self.first[u as usize] -= 1;
            self.halves[self.first[u as usize] as usize] = [v as u32, s];
            self.first[v as usize] -= 1;
            self.halves[self.first[v as usize] as usize] = [u as u32, s];
        }
    }

    fn search(&mut self, n: usize) {
        self.found.clear();
        self.found.resize(n, 0);
        self.low.resize(n, 0);
        self.piece.resize(n, 0);
        self.class.resize(n, 0);
        self.by.resize(n, 0);
        self.from.resize(n, 0);
        self.cursor.clear();
        self.cursor.extend_from_slice(&self.first[..n]);
        let mut time = 0;
        for root in 0..n {
            if self.found[root] != 0 {
                continue;
            }
            time += 1;
            self.found[root] = time;
            self.low[root] = time;
            self.by[root] = NONE;
            self.piece[root] = root as u32;
            self.path.push(root as u32);
            self.waiting.push(root as u32);
            while let Some(&v) = self.path.last() {
                let v = v as usize;
                let c = self.cursor[v];
                if c < self.first[v + 1] {
                    self.cursor[v] = c + 1;
                    let [w, s] = self.halves[c as usize];
                    if s == self.by[v] {
                        continue;
                    }
                    let w = w as usize;
                    if self.found[w] == 0 {
                        time += 1;
                        self.found[w] = time;
                        self.low[w] = time;
                        self.by[w] = s;
                        self.from[w] = v as u32;
                        self.piece[w] = root as u32;
                        self.path.push(w as u32);
                        self.waiting.push(w as u32);
                    } else {
                        self.low[v] = self.low[v].min(self.found[w]);
                    }
                    continue;
                }
                self.path.pop();
                if self.low[v] == self.found[v] {
                    // The road to v is a bridge, or v is a root: what waits down to v is one class.
                    while let Some(u) = self.waiting.pop() {
                        self.class[u as usize] = v as u32;
                        if u as usize == v {
                            break;
                        }
                    }
                }
                if let Some(&parent) = self.path.last() {
                    let parent = parent as usize;
                    self.low[parent] = self.low[parent].min(self.low[v]);
                }
            }
        }
    }

    /// The smallest bridge on the way between two junctions of one piece in the tree of the search. The one that was found later goes up until
    /// they meet.
    fn least_bridge(&self, mut u: usize, mut v: usize) -> u32 {
        let mut least = NONE;
        while u != v {
            if self.found[u] < self.found[v] {
                (u, v) = (v, u);
            }
            if self.low[u] == self.found[u] {
                least = least.min(self.by[u]);
            }
            u = self.from[u] as usize;
        }
        least
    }

    fn answer(&self, u: usize, v: usize) -> (u8, u16) {
        if self.class[u] == self.class[v] {
            (2, NO_NAME)
        } else if self.piece[u] == self.piece[v] {
            (1, self.least_bridge(u, v) as u16)
        } else {
            (0, NO_NAME)
        }
    }

    #[allow(clippy::too_many_arguments)]
    pub fn replay(
        &mut self,
        n: usize,
        a: &[u16],
        b: &[u16],
        start: &[u16],
        x: &[u16],
        y: &[u16],
        answers: &mut [u8],
        names: &mut [u16],
    ) {
        self.roads.reset(n, a, b);
        self.open.clear();
        self.place.clear();
        self.place.resize(a.len(), 0);
        for s in open_at_start(start) {
            self.open(s as usize);
        }
        let replies = answers.iter_mut().zip(names);
        for ((&x, &y), (answer, name)) in x.iter().zip(y).zip(replies) {
            (*answer, *name) = match x {
                OPENS => {
                    self.open(y as usize);
                    (3, NO_NAME)
                }
                CLOSES => {
                    self.close(y as usize);
                    (3, NO_NAME)
                }
                _ => {
                    self.build(n, a, b);
                    self.search(n);
                    self.answer(x as usize, y as usize)
                }
            };
        }
    }
}

/// The open half-edges at a junction stand at the front of its row, which has room for all of them. Half-edges 2r and 2r + 1 are road r.
#[derive(Clone, Copy, Default)]
struct Half {
    far: u16,
    half: u16,
}

#[derive(Clone, Copy, Default)]
struct Row {
    start: u32,
    end: u32,
}

/// A junction on the way down: the half-edge by which it was found, what is left of its row, when it was found, and its low point.
#[derive(Clone, Copy)]
struct Step {
    by: u32,
    next: u32,
    end: u32,
    found: u32,
    low: u32,
}

/// One depth-first search per query over the piece of the query's first junction, on adjacency lists that are kept up to date.
/// It stops as soon as the answer and the name are settled: when it leaves the way between the two for the last time.
#[derive(Default)]
pub struct Piece {
    roads: Roads,
    rows: Vec<Row>,
    halves: Vec<Half>,
    /// The place of each open half-edge in `halves`.
    place: Vec<u32>,
    /// The time at which a junction was found last. The time goes on from query to query.
    found: Vec<u32>,
    time: u32,
    path: Vec<Step>,
}

impl Piece {
    pub fn new() -> Self {
        Self::default()
    }

    fn make_rows(&mut self, n: usize, a: &[u16], b: &[u16]) {
        self.rows.clear();
        self.rows.resize(n, Row::default());
        for &v in a.iter().chain(b) {
            self.rows[v as usize].end += 1;
        }
        let mut sum = 0;
        for row in &mut self.rows {
            row.start = sum;
            sum += row.end;
            row.end = row.start;
        }
        self.halves.resize(2 * a.len(), Half::default());
        self.place.resize(2 * a.len(), 0);
        self.found.clear();
        self.found.resize(n, 0);
        self.time = 0;
    }

    fn link(&mut self, v: u16, half: usize, far: u16) {
        let row = &mut self.rows[v as usize];
        self.halves[row.end as usize] = Half {
            far,
            half: half as u16,
        };
        self.place[half] = row.end;
        row.end += 1;
    }

    /// Segment s opens.
    fn open(&mut self, s: usize, a: &[u16], b: &[u16]) {
        if let Some(r) = self.roads.open(s) {
            self.link(a[r], 2 * r, b[r]);
            self.link(b[r], 2 * r + 1, a[r]);
        }
    }

    /// Segment s closes.
    fn close(&mut self, s: usize, a: &[u16], b: &[u16]) {
        if let Some(r) = self.roads.close(s) {
            self.unlink(a[r], 2 * r);
            self.unlink(b[r], 2 * r + 1);
        }
    }

    fn unlink(&mut self, v: u16, half: usize) {
        let row = &mut self.rows[v as usize];
        row.end -= 1;
        let last = self.halves[row.end as usize];
        let place = self.place[half];
        self.halves[place as usize] = last;
        self.place[last.half as usize] = place;
    }

    fn find(&mut self, v: u16, by: u32) {
        self.time += 1;
        self.found[v as usize] = self.time;
        let row = self.rows[v as usize];
        self.path.push(Step {
            by,
            next: row.start,
            end: row.end,
            found: self.time,
            low: self.time,
        });
    }

    fn answer(&mut self, from: u16, to: u16) -> (u8, u16) {
        if from == to {
            return (2, NO_NAME);
        }
        let before = self.time;
        let mut least = NONE;
        self.path.clear();
        self.find(from, NONE);
        // The first `way` junctions of the path lead to `to`, once it is found.
        let mut way = 0;
        'path: while let Some(top) = self.path.last_mut() {
            let row = &self.halves[top.next as usize..top.end as usize];
            for (i, half) in row.iter().enumerate() {
                let found = self.found[half.far as usize];
                if found <= before {
                    top.next += i as u32 + 1;
                    let half = *half;
                    self.find(half.far, half.half as u32 ^ 1);
                    if half.far == to {
                        way = self.path.len();
                    }
                    continue 'path;
                }
                if half.half as u32 != top.by {
                    top.low = top.low.min(found);
                }
            }
            let Step { by, found, low, .. } = *top;
            self.path.pop();
            let depth = self.path.len();
            if depth < way {
                if low == found {
                    least = least.min(by / 2);
                }
                if depth == 1 {
                    return if least == NONE {
                        (2, NO_NAME)
                    } else {
                        (1, least as u16)
                    };
                }
                way = depth;
            }
            if let Some(parent) = self.path.last_mut() {
                parent.low = parent.low.min(low);
            }
        }
        (0, NO_NAME)
    }

    /// By the loss of a junction: a third one parts the two where it lies on the way between them and nothing below the next junction of the way leads
    /// above it. The search stops there, or when it leaves the way for the last time.
    fn junction_answer(&mut self, from: u16, to: u16) -> u8 {
        if from == to {
            return 2;
        }
        let before = self.time;
        self.path.clear();
        self.find(from, NONE);
        // The first `way` junctions of the path lead to `to`, once it is found.
        let mut way = 0;
        'path: while let Some(top) = self.path.last_mut() {
            let row = &self.halves[top.next as usize..top.end as usize];
            for (i, half) in row.iter().enumerate() {
                let found = self.found[half.far as usize];
                if found <= before {
                    top.next += i as u32 + 1;
                    let far = half.far;
                    self.find(far, NONE);
                    if far == to {
                        way = self.path.len();
                    }
                    continue 'path;
                }
                top.low = top.low.min(found);
            }
            let low = top.low;
            self.path.pop();
            let depth = self.path.len();
            let Some(parent) = self.path.last_mut() else {
                break;
            };
            if depth < way {
                if depth == 1 {
                    return 2;
                }
                if low >= parent.found {
                    return 1;
                }
                way = depth;
            }
            parent.low = parent.low.min(low);
        }
        0
    }

    /// Nothing but the segments that are open at the start is open.
    fn begin(&mut self, n: usize, a: &[u16], b: &[u16], start: &[u16]) {
        self.roads.reset(n, a, b);
        self.make_rows(n, a, b);
        for s in open_at_start(start) {
            self.open(s as usize, a, b);
        }
    }

    #[allow(clippy::too_many_arguments)]
    pub fn replay(
        &mut self,
        n: usize,
        a: &[u16],
        b: &[u16],
        start: &[u16],
        x: &[u16],
        y: &[u16],
        answers: &mut [u8],
        names: &mut [u16],
    ) {
        self.begin(n, a, b, start);
        let replies = answers.iter_mut().zip(names);
        for ((&x, &y), (answer, name)) in x.iter().zip(y).zip(replies) {
            (*answer, *name) = match x {
                OPENS => {
                    self.open(y as usize, a, b);
                    (3, NO_NAME)
                }
                CLOSES => {
                    self.close(y as usize, a, b);
                    (3, NO_NAME)
                }
                _ => self.answer(x, y),
            };
        }
    }

    /// The answers by the loss of a junction.
    #[allow(clippy::too_many_arguments)]
    pub fn replay_junctions(
        &mut self,
        n: usize,
        a: &[u16],
        b: &[u16],
        start: &[u16],
        x: &[u16],
        y: &[u16],
        answers: &mut [u8],
    ) {
        self.begin(n, a, b, start);
        for ((&x, &y), answer) in x.iter().zip(y).zip(answers) {
            *answer = match x {
                OPENS => {
                    self.open(y as usize, a, b);
                    3
                }
                CLOSES => {
                    self.close(y as usize, a, b);
                    3
                }
                _ => self.junction_answer(x, y),
            };
        }
    }
}
