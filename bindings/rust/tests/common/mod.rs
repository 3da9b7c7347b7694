//! A slow version of the calls, written from documents 01 and 02 alone, and what the tests share: random numbers,
//! and calls held to the slow version in their reply and in every lent entry afterwards.
#![allow(dead_code)]

pub mod vectors;

use lumzhasel::tables::{contract, replay, replay_junctions, CLOSES, NO_NAME, OPENS};
use lumzhasel::tables::{ContractTables, ReplayJunctionsTables, ReplayTables};
use lumzhasel::Error;

pub type Edge = (usize, usize);

// ---- the slow version

/// The least node that each node is joined to.
pub fn components(n: usize, edges: &[Edge]) -> Vec<usize> {
    let mut least: Vec<usize> = (0..n).collect();
    loop {
        let mut changed = false;
        for &(u, v) in edges {
            let low = least[u].min(least[v]);
            changed |= least[u] != low || least[v] != low;
            least[u] = low;
            least[v] = low;
        }
        if !changed {
            return least;
        }
    }
}

/// Whether two segments are of one road: they have the same two ends, in either order.
fn same_road((u, v): Edge, other: Edge) -> bool {
    other == (u, v) || other == (v, u)
}

/// The components of a graph, and those after each removal in turn.
pub struct Removals {
    whole: Vec<usize>,
    without: Vec<Vec<usize>>,
}

impl Removals {
    /// Each edge is removed by itself.
    pub fn of(n: usize, edges: &[Edge]) -> Removals {
        Removals::by(n, edges, |e, i| i == e)
    }

    /// With each segment its whole road is removed.
    fn of_roads(n: usize, segments: &[Edge]) -> Removals {
        Removals::by(n, segments, |s, i| same_road(segments[s], segments[i]))
    }

    /// The removal of e takes i away where `goes(e, i)`.
    fn by(n: usize, edges: &[Edge], goes: impl Fn(usize, usize) -> bool) -> Removals {
        let without = (0..edges.len()).map(|e| {
            let left = (0..edges.len()).filter(|&i| !goes(e, i));
            components(n, &left.map(|i| edges[i]).collect::<Vec<Edge>>())
        });
        Removals {
            whole: components(n, edges),
            without: without.collect(),
        }
    }

    pub fn answer(&self, u: usize, v: usize) -> u8 {
        if self.whole[u] != self.whole[v] {
            return 0;
        }
        if self.without.iter().all(|c| c[u] == c[v]) {
            return 2;
        }
        1
    }

    /// The smallest of the names, one for each removal, whose removal parts u and v.
    pub fn least_name(&self, names: &[u16], u: usize, v: usize) -> Option<u16> {
        let parting = (0..self.without.len()).filter(|&e| self.without[e][u] != self.without[e][v]);
        parting.map(|e| names[e]).min()
    }
}

/// The answer by the loss of a junction: each third one is taken away, with every edge that meets it, by its own search.
pub fn answer_by_junctions(n: usize, edges: &[Edge], u: usize, v: usize) -> u8 {
    let joined = |edges: &[Edge]| {
        let least = components(n, edges);
        least[u] == least[v]
    };
    if !joined(edges) {
        return 0;
    }
    let parts = |c: usize| {
        let left = edges.iter().copied().filter(|&(a, b)| a != c && b != c);
        !joined(&left.collect::<Vec<Edge>>())
    };
    match (0..n).any(|c| c != u && c != v && parts(c)) {
        true => 1,
        false => 2,
    }
}

/// A contraction's result: the number of each active entry, and the edges with their names.
pub struct Small {
    pub nodes: usize,
    pub map: Vec<usize>,
    pub edges: Vec<Edge>,
    pub names: Vec<u16>,
}

pub fn slow_contract(n: usize, edges: &[Edge], names: &[u16], active: &[usize]) -> Small {
    let removals = Removals::of(n, edges);
    // A class is named by its smallest node.
    let class: Vec<usize> = (0..n)
        .map(|v| (0..=v).find(|&u| removals.answer(u, v) == 2).unwrap())
        .collect();
    // Taking a class away leaves parts; those that hold an active node are counted.
    let active_parts = |c: usize| {
        let left: Vec<Edge> = edges
            .iter()
            .copied()
            .filter(|&(u, v)| class[u] != c && class[v] != c)
            .collect();
        let part = components(n, &left);
        let mut parts: Vec<usize> = active
            .iter()
            .copied()
            .filter(|&v| class[v] != c && removals.answer(v, c) != 0)
            .map(|v| part[v])
            .collect();
        parts.sort();
        parts.dedup();
        parts.len()
    };
    let holds_active = |c: usize| active.iter().any(|&v| class[v] == c);
    let kept = |c: usize| class[c] == c && (holds_active(c) || active_parts(c) >= 3);
    let mut order: Vec<usize> = Vec::new();
    for &v in active {
        if !order.contains(&class[v]) {
            order.push(class[v]);
        }
    }
    for c in (0..n).filter(|&c| kept(c)) {
        if !order.contains(&c) {
            order.push(c);
        }
    }
    // Two kept classes are joined where a route between them meets no third.
    let mut joined: Vec<Edge> = Vec::new();
    for i in 0..order.len() {
        for j in i + 1..order.len() {
            let third = |v: usize| order.contains(&class[v]) && class[v] != order[i] && class[v] != order[j];
            let left: Vec<Edge> = edges.iter().copied().filter(|&(u, v)| !third(u) && !third(v)).collect();
            let part = components(n, &left);
            let meets =
                (0..n).any(|u| class[u] == order[i] && (0..n).any(|v| class[v] == order[j] && part[u] == part[v]));
            if meets {
                joined.push((i, j));
            }
        }
    }
    let name = |&(i, j): &Edge| removals.least_name(names, order[i], order[j]).unwrap();
    Small {
        nodes: order.len(),
        map: active
            .iter()
            .map(|&v| order.iter().position(|&c| c == class[v]).unwrap())
            .collect(),
        names: joined.iter().map(name).collect(),
        edges: joined,
    }
}

/// For each active entry the number of its piece, by first appearance.
pub fn slow_pieces(n: usize, edges: &[Edge], active: &[usize]) -> Vec<usize> {
    let least = components(n, edges);
    let mut met: Vec<usize> = Vec::new();
    active
        .iter()
        .map(|&v| {
            let known = met.iter().position(|&c| c == least[v]);
            known.unwrap_or_else(|| {
                met.push(least[v]);
                met.len() - 1
            })
        })
        .collect()
}

/// The number and the place of a refusal.
pub fn refusal(e: Error) -> (usize, usize) {
    let refused = e.refusal().expect("the archive has the calls of this package");
    (refused.reason.code(), refused.place)
}

/// What a replay is lent. One by the loss of a junction is lent no names.
#[derive(Clone, Debug, PartialEq)]
pub struct List {
    pub n: usize,
    pub m: usize,
    pub t: usize,
    pub p: usize,
    pub a: Vec<u16>,
    pub b: Vec<u16>,
    pub start: Vec<u16>,
    pub x: Vec<u16>,
    pub y: Vec<u16>,
    pub answers: Vec<u8>,
    pub names: Vec<u16>,
    pub work: Vec<u32>,
}

/// The reply and the written tables: three numbers, or a refusal's number and place.
#[derive(Debug, PartialEq)]
pub struct Replayed {
    pub reply: Result<(usize, usize, usize), (usize, usize)>,
    pub answers: Vec<u8>,
    pub names: Vec<u16>,
    pub work: Vec<u32>,
}

/// The reply and the written tables of a replay by the loss of a junction: two numbers, or a refusal's number and place.
#[derive(Debug, PartialEq)]
pub struct ReplayedJunctions {
    pub reply: Result<(usize, usize), (usize, usize)>,
    pub answers: Vec<u8>,
    pub work: Vec<u32>,
}

fn windows(first: usize, n: usize, p: usize, all: &mut Vec<(usize, usize)>) {
    all.push((first, n));
    if n >= 2 {
        let cut = (n * p / 16).max(1);
        windows(first, cut, p, all);
        windows(first + cut, n - cut, p, all);
    }
}

impl List {
    /// The same list with another starting table.
    pub fn with_start(self, start: &[u16]) -> List {
        let start = start.to_vec();
        List { start, ..self }
    }

    pub fn required(&self) -> usize {
        256 * self.t + 32 * self.n + 8 * self.m + 2048
    }

    pub fn required_by_junctions(&self) -> usize {
        1024 * self.t + 32 * self.n + 8 * self.m + 2048
    }

    /// The same list for a replay by the loss of a junction: with a work table of the least length, and no names.
    pub fn for_junctions(self) -> List {
        let work = vec![0; self.required_by_junctions()];
        let names = Vec::new();
        List { work, names, ..self }
    }

    /// The set of open segments before event i.
    fn open_before(&self, i: usize) -> Vec<bool> {
        let mut open: Vec<bool> = self.start[..self.m].iter().map(|e| *e == 1).collect();
        for e in 0..i {
            match self.x[e] {
                OPENS => open[self.y[e] as usize] = true,
                CLOSES => open[self.y[e] as usize] = false,
                _ => {}
            }
        }
        open
    }

    fn fault(&self) -> Option<(usize, usize)> {
        self.fault_with(self.names.len() < self.t || self.work.len() < self.required())
    }

    fn fault_by_junctions(&self) -> Option<(usize, usize)> {
        self.fault_with(self.work.len() < self.required_by_junctions())
    }

    // The first fault, where of the tables that are written but the answers it is said whether one is too short.
    fn fault_with(&self, short_written: bool) -> Option<(usize, usize)> {
        if self.n > 4096 || self.m > 8192 || self.t > 4096 {
            return Some((1, 0));
        }
        let short_network = [&self.a, &self.b, &self.start].iter().any(|table| table.len() < self.m);
        let short_list = self.x.len() < self.t || self.y.len() < self.t || self.answers.len() < self.t;
        if short_network || short_list || short_written {
            return Some((2, 0));
        }
        let long_network = [&self.a, &self.b, &self.start].iter().any(|table| table.len() > self.m);
        if long_network || self.x.len() > self.t || self.y.len() > self.t {
            return Some((12, 0));
        }
        if self.p < 4 || self.p > 12 {
            return Some((3, 0));
        }
        for s in 0..self.m {
            if self.a[s] as usize >= self.n || self.b[s] as usize >= self.n {
                return Some((4, s));
            }
        }
        if let Some(s) = (0..self.m).find(|&s| self.start[s] > 1) {
            return Some((11, s));
        }
        let mut open = self.open_before(0);
        for i in 0..self.t {
            let (x, y) = (self.x[i], self.y[i] as usize);
            if (x as usize) < self.n {
                if y >= self.n {
                    return Some((5, i));
                }
                continue;
            }
            if (x != OPENS && x != CLOSES) || y >= self.m {
                return Some((5, i));
            }
            if x == OPENS && open[y] {
                return Some((6, i));
            }
            if x == CLOSES && !open[y] {
                return Some((7, i));
            }
            open[y] = x == OPENS;
        }
        None
    }

    fn segments(&self, counts: impl Fn(usize) -> bool) -> Vec<Edge> {
        (0..self.m)
            .filter(|&s| counts(s))
            .map(|s| (self.a[s] as usize, self.b[s] as usize))
            .collect()
    }

    fn kept(&self) -> usize {
        let mut all = Vec::new();
        if self.t > 0 {
            windows(0, self.t, self.p, &mut all);
        }
        all.iter()
            .map(|&(first, n)| {
                let open = self.open_before(first);
                let mut named: Vec<Edge> = Vec::new();
                let mut active = Vec::new();
                for i in first..first + n {
                    let (x, y) = (self.x[i], self.y[i] as usize);
                    if x == OPENS || x == CLOSES {
                        let (u, v) = (self.a[y] as usize, self.b[y] as usize);
                        named.push((u, v));
                        active.extend([u, v]);
                    } else {
                        active.extend([x as usize, y]);
                    }
                }
                // One edge for each road that is open and of which no segment is named.
                let mut roads: Vec<Edge> = Vec::new();
                for s in self.segments(|s| open[s]) {
                    if !named.iter().chain(&roads).any(|&r| same_road(r, s)) {
                        roads.push(s);
                    }
                }
                slow_contract(self.n, &roads, &vec![0; roads.len()], &active).nodes
            })
            .sum()
    }

    /// The name of a road: its smallest segment, open or not.
    fn road_name(&self, road: Edge) -> u16 {
        let segments = self.segments(|_| true);
        segments.iter().position(|&s| same_road(s, road)).unwrap() as u16
    }

    // The written tables as they are lent.
    fn untouched(&self, reply: Result<(usize, usize, usize), (usize, usize)>) -> Replayed {
        Replayed {
            reply,
            answers: self.answers.clone(),
            names: self.names.clone(),
            work: self.work.clone(),
        }
    }

    // The queries and the segments that are open at the end, of a list without a fault.
    fn counts(&self) -> (usize, usize) {
        let open = self.open_before(self.t).iter().filter(|o| **o).count();
        let queries = self.x[..self.t].iter().filter(|&&x| x != OPENS && x != CLOSES).count();
        (queries, open)
    }

    pub fn slow(&self) -> Replayed {
        if let Some(refusal) = self.fault() {
            return self.untouched(Err(refusal));
        }
        let (queries, open) = self.counts();
        let mut done = self.untouched(Ok((queries, open, self.kept())));
        for i in 0..self.t {
            done.answers[i] = 3;
            done.names[i] = NO_NAME;
            if self.x[i] != OPENS && self.x[i] != CLOSES {
                let open = self.open_before(i);
                let segments = self.segments(|s| open[s]);
                let removals = Removals::of_roads(self.n, &segments);
                let (u, v) = (self.x[i] as usize, self.y[i] as usize);
                done.answers[i] = removals.answer(u, v);
                if done.answers[i] == 1 {
                    let names: Vec<u16> = segments.iter().map(|&s| self.road_name(s)).collect();
                    done.names[i] = removals.least_name(&names, u, v).unwrap();
                }
            }
        }
        done.work[..self.required()].fill(0);
        done
    }

    /// The call's reply and tables.
    pub fn call(&self) -> Replayed {
        let lent = self.clone();
        let mut done = self.untouched(Ok((0, 0, 0)));
        let r = replay(ReplayTables {
            n: lent.n,
            m: lent.m,
            t: lent.t,
            p: lent.p,
            a: &lent.a,
            b: &lent.b,
            start: &lent.start,
            x: &lent.x,
            y: &lent.y,
            answers: &mut done.answers,
            names: &mut done.names,
            work: &mut done.work,
        });
        assert_eq!(&lent, self, "a table that is only read was written");
        done.reply = r.map(|t| (t.queries, t.open, t.kept)).map_err(refusal);
        done
    }

    pub fn slow_junctions(&self) -> ReplayedJunctions {
        let mut done = ReplayedJunctions {
            reply: Err((0, 0)),
            answers: self.answers.clone(),
            work: self.work.clone(),
        };
        if let Some(refusal) = self.fault_by_junctions() {
            done.reply = Err(refusal);
            return done;
        }
        done.reply = Ok(self.counts());
        for i in 0..self.t {
            done.answers[i] = 3;
            if self.x[i] != OPENS && self.x[i] != CLOSES {
                let open = self.open_before(i);
                let segments = self.segments(|s| open[s]);
                done.answers[i] = answer_by_junctions(self.n, &segments, self.x[i] as usize, self.y[i] as usize);
            }
        }
        done.work[..self.required_by_junctions()].fill(0);
        done
    }

    /// The reply and the tables of the call by the loss of a junction.
    pub fn call_junctions(&self) -> ReplayedJunctions {
        let lent = self.clone();
        let (mut answers, mut work) = (self.answers.clone(), self.work.clone());
        let r = replay_junctions(ReplayJunctionsTables {
            n: lent.n,
            m: lent.m,
            t: lent.t,
            p: lent.p,
            a: &lent.a,
            b: &lent.b,
            start: &lent.start,
            x: &lent.x,
            y: &lent.y,
            answers: &mut answers,
            work: &mut work,
        });
        assert_eq!(&lent, self, "a table that is only read was written");
        let reply = r.map(|t| (t.queries, t.open)).map_err(refusal);
        ReplayedJunctions { reply, answers, work }
    }

    /// Calls the replay by the loss of a junction, holds it to the slow version, and hands its outcome back.
    pub fn compare_junctions(&self) -> ReplayedJunctions {
        let (got, want) = (self.call_junctions(), self.slow_junctions());
        assert!(
            got == want,
            "{self:?}\ngot {:?} {:?}\nwant {:?} {:?}",
            got.reply,
            got.answers,
            want.reply,
            want.answers
        );
        got
    }

    /// Calls the replay, holds it to the slow version, and hands its outcome back.
    pub fn compare(&self) -> Replayed {
        let (got, want) = (self.call(), self.slow());
        assert!(
            got == want,
            "{self:?}\ngot {:?} {:?} {:?}\nwant {:?} {:?} {:?}",
            got.reply,
            got.answers,
            got.names,
            want.reply,
            want.answers,
            want.names
        );
        got
    }
}

/// What a contraction is lent.
#[derive(Clone, Debug, PartialEq)]
pub struct Graph {
    pub n: usize,
    pub m: usize,
    pub k: usize,
    pub from: Vec<u16>,
    pub to: Vec<u16>,
    pub names: Vec<u16>,
    pub active: Vec<u16>,
    pub map: Vec<u16>,
    pub out_from: Vec<u16>,
    pub out_to: Vec<u16>,
    pub out_names: Vec<u16>,
    pub pieces: Vec<u16>,
    pub work: Vec<u32>,
}

/// The reply and the written tables: nodes and edges, or a refusal's number and place.
#[derive(Debug, PartialEq)]
pub struct Contracted {
    pub reply: Result<(usize, usize), (usize, usize)>,
    pub map: Vec<u16>,
    pub out_from: Vec<u16>,
    pub out_to: Vec<u16>,
    pub out_names: Vec<u16>,
    pub pieces: Vec<u16>,
    pub work: Vec<u32>,
}

impl Graph {
    fn required(&self) -> usize {
        16 * self.n + 8 * self.m + 512
    }

    fn fault(&self) -> Option<(usize, usize)> {
        if self.n > 4096 || self.m > 8192 || self.k > 8192 {
            return Some((1, 0));
        }
        let short = |tables: &[&Vec<u16>], least: usize| tables.iter().any(|table| table.len() < least);
        let short_edges = short(&[&self.from, &self.to, &self.names], self.m);
        let short_out = short(&[&self.out_from, &self.out_to, &self.out_names], 2 * self.k);
        let short_entries = short(&[&self.active, &self.map, &self.pieces], self.k);
        if short_edges || short_out || short_entries || self.work.len() < self.required() {
            return Some((2, 0));
        }
        for e in 0..self.m {
            if self.from[e] as usize >= self.n || self.to[e] as usize >= self.n {
                return Some((4, e));
            }
        }
        (0..self.k).find(|&i| self.active[i] as usize >= self.n).map(|i| (8, i))
    }

    /// The edges, of a graph without a fault.
    pub fn edges(&self) -> Vec<Edge> {
        (0..self.m)
            .map(|e| (self.from[e] as usize, self.to[e] as usize))
            .collect()
    }

    /// The active entries, of a graph without a fault.
    pub fn entries(&self) -> Vec<usize> {
        self.active[..self.k].iter().map(|v| *v as usize).collect()
    }

    // The written tables as they are lent.
    fn untouched(&self, reply: Result<(usize, usize), (usize, usize)>) -> Contracted {
        Contracted {
            reply,
            map: self.map.clone(),
            out_from: self.out_from.clone(),
            out_to: self.out_to.clone(),
            out_names: self.out_names.clone(),
            pieces: self.pieces.clone(),
            work: self.work.clone(),
        }
    }

    pub fn slow(&self) -> Contracted {
        if let Some(refusal) = self.fault() {
            return self.untouched(Err(refusal));
        }
        let (edges, active) = (self.edges(), self.entries());
        let small = slow_contract(self.n, &edges, &self.names, &active);
        let mut done = self.untouched(Ok((small.nodes, small.edges.len())));
        for (i, v) in small.map.iter().enumerate() {
            done.map[i] = *v as u16;
        }
        for (i, (u, v)) in small.edges.iter().enumerate() {
            done.out_from[i] = *u as u16;
            done.out_to[i] = *v as u16;
            done.out_names[i] = small.names[i];
        }
        for (i, piece) in slow_pieces(self.n, &edges, &active).iter().enumerate() {
            done.pieces[i] = *piece as u16;
        }
        done.work[..self.required()].fill(0);
        done
    }

    /// The call's reply and tables.
    pub fn call(&self) -> Contracted {
        let lent = self.clone();
        let mut done = self.untouched(Ok((0, 0)));
        let r = contract(ContractTables {
            n: lent.n,
            m: lent.m,
            k: lent.k,
            from: &lent.from,
            to: &lent.to,
            names: &lent.names,
            active: &lent.active,
            map: &mut done.map,
            out_from: &mut done.out_from,
            out_to: &mut done.out_to,
            out_names: &mut done.out_names,
            pieces: &mut done.pieces,
            work: &mut done.work,
        });
        assert_eq!(&lent, self, "a table that is only read was written");
        done.reply = r.map(|c| (c.nodes, c.edges)).map_err(refusal);
        done
    }

    /// Calls the contraction, holds it to the slow version, and hands its outcome back.
    pub fn compare(&self) -> Contracted {
        let (got, want) = (self.call(), self.slow());
        assert!(
            got == want,
            "{self:?}\ngot {:?} {:?} {:?} {:?}\nwant {:?} {:?} {:?} {:?}",
            got.reply,
            got.map,
            got.out_names,
            got.pieces,
            want.reply,
            want.map,
            want.out_names,
            want.pieces
        );
        got
    }
}

// ---- inputs

/// Numbers that look random and are the same in each run.
pub struct Numbers(u64);

impl Numbers {
    pub fn from(seed: u64) -> Numbers {
        Numbers(seed.wrapping_mul(0x9E37_79B9_7F4A_7C15) | 1)
    }

    fn next(&mut self) -> u64 {
        self.0 ^= self.0 << 13;
        self.0 ^= self.0 >> 7;
        self.0 ^= self.0 << 17;
        self.0 >> 16
    }

    /// A number below k.
    pub fn below(&mut self, k: usize) -> usize {
        self.next() as usize % k
    }

    /// k entries of junk.
    pub fn junk(&mut self, k: usize) -> Vec<u16> {
        (0..k).map(|_| self.next() as u16).collect()
    }
}

/// A list with nothing open at the start, tables as long as they must be and zeros in those that are written.
pub fn list(n: usize, p: usize, segments: &[(u16, u16)], events: &[(u16, u16)]) -> List {
    let (m, t) = (segments.len(), events.len());
    List {
        n,
        m,
        t,
        p,
        a: segments.iter().map(|s| s.0).collect(),
        b: segments.iter().map(|s| s.1).collect(),
        start: vec![0; m],
        x: events.iter().map(|e| e.0).collect(),
        y: events.iter().map(|e| e.1).collect(),
        answers: vec![0; t],
        names: vec![0; t],
        work: vec![0; 256 * t + 32 * n + 8 * m + 2048],
    }
}

/// A graph with tables as long as they must be and zeros in those that are written. An edge has its number as its name.
pub fn graph(n: usize, edges: &[(u16, u16)], active: &[u16]) -> Graph {
    let (m, k) = (edges.len(), active.len());
    Graph {
        n,
        m,
        k,
        from: edges.iter().map(|e| e.0).collect(),
        to: edges.iter().map(|e| e.1).collect(),
        names: (0..m).map(|e| e as u16).collect(),
        active: active.to_vec(),
        map: vec![0; k],
        out_from: vec![0; 2 * k],
        out_to: vec![0; 2 * k],
        out_names: vec![0; 2 * k],
        pieces: vec![0; k],
        work: vec![0; 16 * n + 8 * m + 512],
    }
}

fn query_maybe_with_itself(r: &mut Numbers, n: usize) -> (u16, u16) {
    (r.below(n) as u16, r.below(n) as u16)
}

/// A list without a fault, of at most these sizes. In most of them segments have the ends of others, in either order.
pub fn random_list(r: &mut Numbers, junctions: usize, segments: usize, events: usize) -> List {
    let n = 1 + r.below(junctions);
    let m = r.below(segments + 1);
    let t = r.below(events + 1);
    // None of the segments doubles another one, or some, or most.
    let doubled = r.below(4);
    let mut ends: Vec<(u16, u16)> = Vec::new();
    for s in 0..m {
        let fresh = (r.below(n) as u16, r.below(n) as u16);
        let double = s > 0 && r.below(4) < doubled;
        let (u, v) = if double { ends[r.below(s)] } else { fresh };
        ends.push(if r.below(2) == 0 { (u, v) } else { (v, u) });
    }
    // None of the segments is open at the start, or some, or all.
    let fourths = r.below(5);
    let mut open: Vec<bool> = (0..m).map(|_| r.below(4) < fourths).collect();
    let start: Vec<u16> = open.iter().map(|o| *o as u16).collect();
    let mut told = Vec::new();
    for _ in 0..t {
        if m == 0 || r.below(3) == 0 {
            told.push(query_maybe_with_itself(r, n));
            continue;
        }
        let s = r.below(m);
        told.push((if open[s] { CLOSES } else { OPENS }, s as u16));
        open[s] = !open[s];
    }
    list(n, 4 + r.below(9), &ends, &told).with_start(&start)
}

/// A list without a fault over rings, each of which shares a crossing with one before it, and some roads across. Most
/// segments are open at the start, so that from ring to ring no road parts what a crossing does.
pub fn random_rings(r: &mut Numbers, rings: usize, across: usize, events: usize) -> List {
    let mut ends: Vec<(u16, u16)> = Vec::new();
    let mut n = 1;
    for _ in 0..1 + r.below(rings) {
        let crossing = r.below(n);
        let more = 2 + r.below(3);
        let round: Vec<usize> = std::iter::once(crossing).chain(n..n + more).collect();
        ends.extend((0..=more).map(|i| (round[i] as u16, round[(i + 1) % (more + 1)] as u16)));
        n += more;
    }
    let of_rings = ends.len();
    ends.extend((0..r.below(across + 1)).map(|_| (r.below(n) as u16, r.below(n) as u16)));
    // Of the rings' segments one in eight is closed at the start, of the others three in four.
    let mut open: Vec<bool> = (0..ends.len())
        .map(|s| if s < of_rings { r.below(8) > 0 } else { r.below(4) == 0 })
        .collect();
    let start: Vec<u16> = open.iter().map(|o| *o as u16).collect();
    let mut told = Vec::new();
    for _ in 0..r.below(events + 1) {
        if r.below(3) > 0 {
            told.push(query_maybe_with_itself(r, n));
            continue;
        }
        let s = r.below(ends.len());
        told.push((if open[s] { CLOSES } else { OPENS }, s as u16));
        open[s] = !open[s];
    }
    list(n, 4 + r.below(9), &ends, &told).with_start(&start)
}

/// A graph without a fault, of at most these sizes. Its names are few, so that several edges have the same, or any, or the largest.
pub fn random_graph(r: &mut Numbers, nodes: usize, edges: usize, entries: usize) -> Graph {
    let n = 1 + r.below(nodes);
    let m = r.below(edges + 1);
    let k = r.below(entries + 1);
    let ends: Vec<(u16, u16)> = (0..m).map(|_| (r.below(n) as u16, r.below(n) as u16)).collect();
    let active: Vec<u16> = (0..k).map(|_| r.below(n) as u16).collect();
    let (first, count) = [(0, 4), (0, 65536), (65532, 4)][r.below(3)];
    let names = (0..m).map(|_| (first + r.below(count)) as u16).collect();
    Graph {
        names,
        ..graph(n, &ends, &active)
    }
}

impl List {
    /// Lengthens each table that is written by some junk, and fills it with that.
    pub fn fill_with_junk(&mut self, r: &mut Numbers) {
        let (t, w) = (self.answers.len() + r.below(4), self.work.len() + r.below(4));
        self.answers = r.junk(t).iter().map(|v| *v as u8).collect();
        let t = self.names.len() + r.below(4);
        self.names = r.junk(t);
        self.work = r.junk(w).iter().map(|v| 65537 * *v as u32).collect();
    }
}

/// Changes a size, the share, a length or an entry.
pub fn damage(l: &mut List, r: &mut Numbers) {
    let value = match r.below(5) {
        0 => l.n as u16,
        1 => l.m as u16,
        2 => 65534,
        3 => 65535,
        _ => r.below(8) as u16,
    };
    let place = r.below(12);
    match r.below(14) {
        0 => l.p = r.below(16),
        1 => l.n = r.below(8),
        2 => l.m = r.below(8),
        3 => l.t = r.below(12),
        4 => l.n = 4090 + r.below(14),
        5 => l.a.truncate(l.a.len().saturating_sub(1 + r.below(3))),
        6 => l.answers.truncate(l.answers.len().saturating_sub(1 + r.below(3))),
        7 => l.start.truncate(l.start.len().saturating_sub(1 + r.below(3))),
        8 => l.names.truncate(l.names.len().saturating_sub(1 + r.below(3))),
        9 => l.y.push(value),
        k => {
            let table = match k {
                10 => &mut l.a,
                11 => &mut l.start,
                12 => &mut l.x,
                _ => &mut l.y,
            };
            if place < table.len() {
                table[place] = value;
            }
        }
    }
}

impl Graph {
    /// Lengthens each table by some junk, and fills the written ones with it.
    pub fn fill_with_junk(&mut self, r: &mut Numbers) {
        for table in [&mut self.from, &mut self.to, &mut self.names, &mut self.active] {
            let more = r.below(4);
            table.extend(r.junk(more));
        }
        for table in [
            &mut self.map,
            &mut self.out_from,
            &mut self.out_to,
            &mut self.out_names,
            &mut self.pieces,
        ] {
            let long = table.len() + r.below(4);
            *table = r.junk(long);
        }
        let w = self.work.len() + r.below(4);
        self.work = r.junk(w).iter().map(|v| 65537 * *v as u32).collect();
    }
}
