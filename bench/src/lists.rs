//! Networks with lists of events.

use crate::random::Random;
use crate::{CLOSES, MOST_JUNCTIONS, MOST_SEGMENTS, OPENS};

#[derive(Clone, Copy, PartialEq, Eq, Debug)]
pub enum Kind {
    /// N = T and M = T: few segments are open for the junctions, and the pieces are small.
    Sparse,
    /// N = T / 8 and M = T / 2: most segments are open, and most junctions are in one piece.
    Dense,
    /// N = 4,096 and M = 8,192 for every T: three quarters of the segments are open at the start, as a fleet finds its map in the morning.
    Fleet,
    /// The same, where half of the segments have the ends of another one: carriageways of one road, which open and close by themselves.
    Dual,
}

impl Kind {
    pub const ALL: [Kind; 4] = [Kind::Sparse, Kind::Dense, Kind::Fleet, Kind::Dual];

    pub fn name(self) -> &'static str {
        match self {
            Kind::Sparse => "sparse",
            Kind::Dense => "dense",
            Kind::Fleet => "fleet",
            Kind::Dual => "dual carriageway",
        }
    }
}

#[derive(Clone)]
pub struct List {
    pub n: usize,
    pub m: usize,
    pub a: Vec<u16>,
    pub b: Vec<u16>,
    pub start: Vec<u16>,
    pub x: Vec<u16>,
    pub y: Vec<u16>,
}

impl List {
    pub fn events(&self) -> usize {
        self.x.len()
    }
}

/// A network while its list is made: the segments, the open ones first, and the open segments at each junction.
struct Network {
    a: Vec<u16>,
    b: Vec<u16>,
    segments: Vec<u16>,
    open: usize,
    at: Vec<Vec<u16>>,
}

impl Network {
    fn open_one(&mut self, random: &mut Random) -> Option<u16> {
        if self.open == self.segments.len() {
            return None;
        }
        let i = self.open + random.below(self.segments.len() - self.open);
        self.segments.swap(i, self.open);
        let s = self.segments[self.open];
        self.open += 1;
        self.at[self.a[s as usize] as usize].push(s);
        self.at[self.b[s as usize] as usize].push(s);
        Some(s)
    }

    fn close_one(&mut self, random: &mut Random) -> Option<u16> {
        if self.open == 0 {
            return None;
        }
        let i = random.below(self.open);
        self.open -= 1;
        self.segments.swap(i, self.open);
        let s = self.segments[self.open];
        self.at[self.a[s as usize] as usize].retain(|&o| o != s);
        self.at[self.b[s as usize] as usize].retain(|&o| o != s);
        Some(s)
    }

    /// Any two junctions, or the two ends of a walk over one to eight open segments.
    fn query(&self, random: &mut Random) -> (u16, u16) {
        let n = self.at.len();
        if self.open == 0 || random.below(2) == 0 {
            return (random.below(n) as u16, random.below(n) as u16);
        }
        let from = self.a[self.segments[random.below(self.open)] as usize];
        let mut to = from;
        for _ in 0..1 + random.below(8) {
            let here = &self.at[to as usize];
            let s = here[random.below(here.len())] as usize;
            to = if self.a[s] == to {
                self.b[s]
            } else {
                self.a[s]
            };
        }
        (from, to)
    }
}

/// A list over a network in which `open` segments are open at the start. The last `doubles` segments, not all, have the ends of any of the others,
/// half of them in the other order. The list begins with `run` openings; of the events behind them a third open, a sixth close and the rest are
/// queries. An opening or closing that no segment is left for becomes a query.
pub fn random_list(
    n: usize,
    m: usize,
    doubles: usize,
    open: usize,
    t: usize,
    run: usize,
    random: &mut Random,
) -> List {
    let single = m - doubles;
    let ends =
        |random: &mut Random| -> Vec<u16> { (0..single).map(|_| random.below(n) as u16).collect() };
    let (mut a, mut b) = (ends(random), ends(random));
    for _ in 0..doubles {
        let s = random.below(single);
        let (u, v) = (a[s], b[s]);
        let (u, v) = if random.below(2) == 0 { (u, v) } else { (v, u) };
        a.push(u);
        b.push(v);
    }
    let mut network = Network {
        a,
        b,
        segments: (0..m as u16).collect(),
        open: 0,
        at: vec![Vec::new(); n],
    };
    let mut start = vec![0; m];
    for _ in 0..open {
        if let Some(s) = network.open_one(random) {
            start[s as usize] = 1;
        }
    }
    let (mut x, mut y) = (Vec::with_capacity(t), Vec::with_capacity(t));
    for i in 0..t {
        let event = match if i < run { 0 } else { random.below(6) } {
            0 | 1 => network.open_one(random).map(|s| (OPENS, s)),
            2 => network.close_one(random).map(|s| (CLOSES, s)),
            _ => None,
        };
        let (first, second) = event.unwrap_or_else(|| network.query(random));
        x.push(first);
        y.push(second);
    }
    List {
        n,
        m,
        a: network.a,
        b: network.b,
        start,
        x,
        y,
    }
}

/// A list of t events of a kind. Where nothing is open at the start, the first quarter are openings.
pub fn list(kind: Kind, t: usize, random: &mut Random) -> List {
    match kind {
        Kind::Sparse => random_list(t, t, 0, 0, t, t / 4, random),
        Kind::Dense => random_list(t / 8, t / 2, 0, 0, t, t / 4, random),
        Kind::Fleet | Kind::Dual => {
            let (n, m) = (MOST_JUNCTIONS, MOST_SEGMENTS);
            let doubles = if kind == Kind::Dual { m / 2 } else { 0 };
            random_list(n, m, doubles, m / 4 * 3, t, 0, random)
        }
    }
}
