//! Roads: all segments with the same two ends, in either order, are one road, which is open while any of them is. Its name is its smallest segment.

/// The smaller and the larger end of a segment.
fn ends(a: &[u16], b: &[u16], s: usize) -> (usize, usize) {
    let (u, v) = (a[s] as usize, b[s] as usize);
    (u.min(v), u.max(v))
}

/// Writes the name of each segment's road, in time linear in junctions and segments. `work` lends 2n words.
pub fn name(n: usize, a: &[u16], b: &[u16], names: &mut [u32], work: &mut [u32]) {
    let m = a.len();
    let none = m as u32;
    let (heads, firsts) = work[..2 * n].split_at_mut(n);
    heads.fill(none);
    firsts.fill(none);
    // The segments by their smaller ends, each linked to the next. In descending order, so that each list ascends.
    for s in (0..m).rev() {
        let (v, _) = ends(a, b, s);
        names[s] = heads[v];
        heads[v] = s as u32;
    }
    for (v, &head) in heads.iter().enumerate() {
        let mut s = head as usize;
        while s < m {
            let next = names[s];
            let (_, w) = ends(a, b, s);
            // The last road that was met with the larger end w. It counts where its smaller end is v too.
            let first = firsts[w] as usize;
            if first < m && ends(a, b, first).0 == v {
                names[s] = first as u32;
            } else {
                names[s] = s as u32;
                firsts[w] = s as u32;
            }
            s = next as usize;
        }
    }
}

/// How many segments of each road are open, by the names of the roads, for the searches.
#[derive(Default)]
pub struct Roads {
    names: Vec<u32>,
    open: Vec<u16>,
    work: Vec<u32>,
}

impl Roads {
    /// All segments of a network of n junctions are closed.
    pub fn reset(&mut self, n: usize, a: &[u16], b: &[u16]) {
        self.names.resize(a.len(), 0);
        self.work.resize(2 * n, 0);
        name(n, a, b, &mut self.names, &mut self.work);
        self.open.clear();
        self.open.resize(a.len(), 0);
    }

    /// Segment s opens. The name of its road, where that opens with it.
    pub fn open(&mut self, s: usize) -> Option<usize> {
        let road = self.names[s] as usize;
        self.open[road] += 1;
        (self.open[road] == 1).then_some(road)
    }

    /// Segment s closes. The name of its road, where that closes with it.
    pub fn close(&mut self, s: usize) -> Option<usize> {
        let road = self.names[s] as usize;
        self.open[road] -= 1;
        (self.open[road] == 0).then_some(road)
    }
}
