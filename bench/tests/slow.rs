//! The plain Rust replays, contraction and check number, and the searches, against slow versions written from the definitions, and against vectors.

use bench::random::Random;
use bench::{
    check_number, contraction, junctions, lists, replay, roads, search, Refusal, CLOSES, NO_NAME,
    OPENS,
};

#[path = "../../bindings/rust/tests/common/vectors.rs"]
mod vectors;

/// A number for each node's piece, by the edges of these numbers.
fn pieces(n: usize, edges: &[(usize, usize)], counts: impl Fn(usize) -> bool) -> Vec<usize> {
    let mut piece: Vec<usize> = (0..n).collect();
    for (e, &(u, v)) in edges.iter().enumerate() {
        if counts(e) && piece[u] != piece[v] {
            let (old, new) = (piece[u], piece[v]);
            piece
                .iter_mut()
                .filter(|p| **p == old)
                .for_each(|p| *p = new);
        }
    }
    piece
}

/// The pieces with nothing left out, then with each edge left out.
fn all_pieces(n: usize, edges: &[(usize, usize)]) -> Vec<Vec<usize>> {
    let mut all = vec![pieces(n, edges, |_| true)];
    all.extend((0..edges.len()).map(|e| pieces(n, edges, |o| o != e)));
    all
}

/// Whether two segments are of one road: the same two ends, in either order.
fn same_road((u, v): (usize, usize), other: (usize, usize)) -> bool {
    other == (u, v) || other == (v, u)
}

/// The pieces with nothing left out, then with the whole road of each segment left out.
fn all_road_pieces(n: usize, segments: &[(usize, usize)]) -> Vec<Vec<usize>> {
    let mut all = vec![pieces(n, segments, |_| true)];
    let lost = |s: usize| pieces(n, segments, |o| !same_road(segments[s], segments[o]));
    all.extend((0..segments.len()).map(lost));
    all
}

fn answer(all: &[Vec<usize>], u: usize, v: usize) -> u8 {
    if all[0][u] != all[0][v] {
        return 0;
    }
    if all.iter().all(|piece| piece[u] == piece[v]) {
        2
    } else {
        1
    }
}

#[derive(PartialEq, Debug)]
struct Small {
    nodes: usize,
    edges: Vec<(usize, usize)>,
    names: Vec<u16>,
    map: Vec<usize>,
    pieces: Vec<usize>,
}

/// The smallest name of an edge, or of a road of a segment, whose loss parts u and v, which have the answer 1.
fn least_name(all: &[Vec<usize>], names: &[u16], u: usize, v: usize) -> u16 {
    let parting = all[1..].iter().zip(names).filter(|(p, _)| p[u] != p[v]);
    *parting.map(|(_, name)| name).min().unwrap()
}

/// The contraction by its definition. A class is named by its smallest node.
fn contract(n: usize, edges: &[(usize, usize)], names: &[u16], active: &[usize]) -> Small {
    let all = all_pieces(n, edges);
    let class: Vec<usize> = (0..n)
        .map(|v| (0..n).find(|&u| answer(&all, u, v) == 2).unwrap())
        .collect();
    let classes: Vec<usize> = (0..n).filter(|&v| class[v] == v).collect();
    let bridges: Vec<(usize, usize)> = edges
        .iter()
        .map(|&(u, v)| (class[u], class[v]))
        .filter(|(u, v)| u != v)
        .collect();
    let is_active = |c: usize| active.iter().any(|&v| class[v] == c);
    let branches = |c: usize| {
        let rest: Vec<_> = bridges
            .iter()
            .copied()
            .filter(|&(u, v)| u != c && v != c)
            .collect();
        let part = pieces(n, &rest, |_| true);
        let mut live: Vec<usize> = active
            .iter()
            .filter(|&&v| class[v] != c && all[0][v] == all[0][c])
            .map(|&v| part[class[v]])
            .collect();
        live.sort_unstable();
        live.dedup();
        live.len()
    };
    let mut order: Vec<usize> = Vec::new();
    for &v in active {
        if !order.contains(&class[v]) {
            order.push(class[v]);
        }
    }
    for &c in &classes {
        if !is_active(c) && branches(c) >= 3 {
            order.push(c);
        }
    }
    let number = |c: usize| order.iter().position(|&d| d == c);
    // Two kept classes are joined where a route of bridges between them meets no third.
    let mut joined = Vec::new();
    for (i, &c) in order.iter().enumerate() {
        for (j, &d) in order.iter().enumerate().skip(i + 1) {
            let free = |u: usize| u == c || u == d || number(u).is_none();
            let rest: Vec<_> = bridges
                .iter()
                .copied()
                .filter(|&(u, v)| free(u) && free(v))
                .collect();
            let part = pieces(n, &rest, |_| true);
            if part[c] == part[d] {
                joined.push((i, j));
            }
        }
    }
    // An entry's piece is numbered by the pieces that the entries before it have.
    let mut met: Vec<usize> = Vec::new();
    for &v in active {
        if !met.contains(&all[0][v]) {
            met.push(all[0][v]);
        }
    }
    let piece = |v: usize| met.iter().position(|&p| p == all[0][v]);
    let name = |&(i, j): &(usize, usize)| least_name(&all, names, order[i], order[j]);
    Small {
        nodes: order.len(),
        names: joined.iter().map(name).collect(),
        edges: joined,
        map: active.iter().map(|&v| number(class[v]).unwrap()).collect(),
        pieces: active.iter().map(|&v| piece(v).unwrap()).collect(),
    }
}

fn windows(at: usize, events: usize, p: usize, all: &mut Vec<(usize, usize)>) {
    if events == 0 {
        return;
    }
    all.push((at, events));
    if events > 1 {
        let first = (events * p / 16).max(1);
        windows(at, first, p, all);
        windows(at + first, events - first, p, all);
    }
}

/// What a replay gives: the answers, the names and the totals.
type Replayed = (Vec<u8>, Vec<u16>, replay::Totals);

/// The answers, the names and the totals of a valid list, by their definitions.
fn slow_replay(l: &lists::List, p: usize) -> Replayed {
    let t = l.events();
    let ends = |s: usize| (l.a[s] as usize, l.b[s] as usize);
    let mut open_before = Vec::new();
    let mut open: Vec<usize> = (0..l.m).filter(|&s| l.start[s] == 1).collect();
    // The name of a road is its smallest segment, open or not.
    let road_name = |s: usize| (0..l.m).find(|&o| same_road(ends(s), ends(o))).unwrap() as u16;
    let (mut answers, mut names) = (Vec::new(), Vec::new());
    for (&x, &y) in l.x.iter().zip(&l.y) {
        open_before.push(open.clone());
        let s = y as usize;
        match x {
            OPENS => open.push(s),
            CLOSES => open.retain(|&o| o != s),
            _ => {}
        }
        names.push(NO_NAME);
        if x >= CLOSES {
            answers.push(3);
            continue;
        }
        let segments: Vec<_> = open.iter().map(|&s| ends(s)).collect();
        let all = all_road_pieces(l.n, &segments);
        let found = answer(&all, x as usize, s);
        answers.push(found);
        if found == 1 {
            let of_segments: Vec<u16> = open.iter().map(|&s| road_name(s)).collect();
            *names.last_mut().unwrap() = least_name(&all, &of_segments, x as usize, s);
        }
    }
    let mut all = Vec::new();
    windows(0, t, p, &mut all);
    let mut kept = 0;
    for (at, events) in all {
        let here = at..at + events;
        let named: Vec<usize> = here
            .clone()
            .filter(|&i| l.x[i] >= CLOSES)
            .map(|i| l.y[i] as usize)
            .collect();
        let mut active = Vec::new();
        for i in here {
            let (u, v) = if l.x[i] >= CLOSES {
                ends(l.y[i] as usize)
            } else {
                (l.x[i] as usize, l.y[i] as usize)
            };
            active.extend([u, v]);
        }
        // One edge for each road that is open before the window and of which it names no segment.
        let mut edges: Vec<(usize, usize)> = Vec::new();
        for &s in &open_before[at] {
            let is_named = named.iter().any(|&o| same_road(ends(s), ends(o)));
            if !is_named && !edges.iter().any(|&e| same_road(ends(s), e)) {
                edges.push(ends(s));
            }
        }
        let unnamed = vec![0; edges.len()];
        kept += contract(l.n, &edges, &unnamed, &active).nodes;
    }
    let queries = l.x.iter().filter(|&&x| x < CLOSES).count();
    (
        answers,
        names,
        replay::Totals {
            queries,
            open: open.len(),
            kept,
        },
    )
}

/// What the sibling gives: the answers and the totals.
type ByJunctions = (Vec<u8>, junctions::Totals);

/// The answer by the loss of a junction, which takes every segment that meets it: each third one is taken away in turn.
fn junction_answer(n: usize, segments: &[(usize, usize)], u: usize, v: usize) -> u8 {
    let joined = |kept: &dyn Fn(usize) -> bool| {
        let piece = pieces(n, segments, kept);
        piece[u] == piece[v]
    };
    if !joined(&|_| true) {
        return 0;
    }
    let third = |c: &usize| *c != u && *c != v;
    let spared = |c: usize, s: usize| segments[s].0 != c && segments[s].1 != c;
    if (0..n).filter(third).all(|c| joined(&|s| spared(c, s))) {
        2
    } else {
        1
    }
}

/// The answers and the totals of a valid list by the loss of a junction.
fn slow_junctions(l: &lists::List) -> ByJunctions {
    let mut open: Vec<usize> = (0..l.m).filter(|&s| l.start[s] == 1).collect();
    let mut answers = Vec::new();
    for (&x, &y) in l.x.iter().zip(&l.y) {
        let s = y as usize;
        match x {
            OPENS => open.push(s),
            CLOSES => open.retain(|&o| o != s),
            _ => {}
        }
        if x >= CLOSES {
            answers.push(3);
            continue;
        }
        let ends = |&s: &usize| (l.a[s] as usize, l.b[s] as usize);
        let segments: Vec<_> = open.iter().map(ends).collect();
        answers.push(junction_answer(l.n, &segments, x as usize, s));
    }
    let queries = l.x.iter().filter(|&&x| x < CLOSES).count();
    let totals = junctions::Totals {
        queries,
        open: open.len(),
    };
    (answers, totals)
}

/// What the plain sibling gives of the first t events, with answers and work of these lengths. It leaves what it is not to change.
fn plain_junctions(
    l: &lists::List,
    t: usize,
    p: usize,
    lengths: [usize; 2],
) -> Result<ByJunctions, Refusal> {
    let (mut answers, mut work) = (vec![9; lengths[0]], vec![77; lengths[1]]);
    let reply = junctions::replay(
        l.n,
        l.m,
        t,
        p,
        &l.a,
        &l.b,
        &l.start,
        &l.x,
        &l.y,
        &mut answers,
        &mut work,
    );
    let (filled, cleared) = if reply.is_ok() {
        (t, junctions::required(l.n, l.m, t))
    } else {
        (0, 0)
    };
    assert!(work[..cleared].iter().all(|&w| w == 0) && work[cleared..].iter().all(|&w| w == 77));
    assert!(answers[filled..].iter().all(|&a| a == 9));
    answers.truncate(filled);
    reply.map(|totals| (answers, totals))
}

/// The answers of the search of the piece.
fn searched_junctions(l: &lists::List) -> Vec<u8> {
    let mut found = vec![9; l.events()];
    search::Piece::new().replay_junctions(l.n, &l.a, &l.b, &l.start, &l.x, &l.y, &mut found);
    found
}

/// What a contraction is lent, the written tables by their lengths.
struct Lent<'a> {
    n: usize,
    m: usize,
    k: usize,
    from: &'a [u16],
    to: &'a [u16],
    names: &'a [u16],
    active: &'a [u16],
    /// Of map, out_from, out_to, out_names, pieces and work.
    lengths: [usize; 6],
}

/// The small graph of the plain contraction. It leaves what it is not to change.
fn plain_contract(l: &Lent) -> Result<Small, Refusal> {
    let [mut map, mut out_from, mut out_to, mut out_names, mut pieces] =
        [0, 1, 2, 3, 4].map(|table| vec![7u16; l.lengths[table]]);
    let mut work = vec![77; l.lengths[5]];
    let reply = contraction::contract(
        l.n,
        l.m,
        l.k,
        l.from,
        l.to,
        l.names,
        l.active,
        &mut map,
        &mut out_from,
        &mut out_to,
        &mut out_names,
        &mut pieces,
        &mut work,
    );
    let (entries, edges, cleared) = match reply {
        Ok((_, edges)) => (l.k, edges, contraction::required(l.n, l.m)),
        Err(_) => (0, 0, 0),
    };
    assert!(work[..cleared].iter().all(|&w| w == 0) && work[cleared..].iter().all(|&w| w == 77));
    let written = |table: &[u16], count: usize| -> Vec<usize> {
        assert!(table[count..].iter().all(|&v| v == 7));
        table[..count].iter().map(|&v| v as usize).collect()
    };
    let (small_ends, large_ends) = (written(&out_from, edges), written(&out_to, edges));
    let (map, pieces) = (written(&map, entries), written(&pieces, entries));
    let names = written(&out_names, edges);
    reply.map(|(nodes, _)| Small {
        nodes,
        edges: small_ends.into_iter().zip(large_ends).collect(),
        names: names.into_iter().map(|name| name as u16).collect(),
        map,
        pieces,
    })
}

/// The same of a graph without a fault, with a little more than it needs.
fn plain_small(n: usize, edges: &[(usize, usize)], names: &[u16], active: &[usize]) -> Small {
    let (m, k) = (edges.len(), active.len());
    let from: Vec<u16> = edges.iter().map(|e| e.0 as u16).collect();
    let to: Vec<u16> = edges.iter().map(|e| e.1 as u16).collect();
    let entries: Vec<u16> = active.iter().map(|&v| v as u16).collect();
    let words = contraction::required(n, m) + 3;
    let lent = Lent {
        n,
        m,
        k,
        from: &from,
        to: &to,
        names,
        active: &entries,
        lengths: [k + 1, 2 * k + 1, 2 * k + 1, 2 * k + 1, k + 1, words],
    };
    plain_contract(&lent).unwrap()
}

/// What the plain replay of the first t events gives, with answers, names and work of these lengths. It leaves what it is not to change.
fn plain_replay(
    l: &lists::List,
    t: usize,
    p: usize,
    lengths: [usize; 3],
) -> Result<Replayed, Refusal> {
    let (mut answers, mut names) = (vec![9; lengths[0]], vec![9; lengths[1]]);
    let mut work = vec![77; lengths[2]];
    let reply = replay::replay(
        l.n,
        l.m,
        t,
        p,
        &l.a,
        &l.b,
        &l.start,
        &l.x,
        &l.y,
        &mut answers,
        &mut names,
        &mut work,
    );
    let (filled, cleared) = if reply.is_ok() {
        (t, replay::required(l.n, l.m, t))
    } else {
        (0, 0)
    };
    assert!(work[..cleared].iter().all(|&w| w == 0) && work[cleared..].iter().all(|&w| w == 77));
    assert!(answers[filled..].iter().all(|&a| a == 9));
    assert!(names[filled..].iter().all(|&name| name == 9));
    answers.truncate(filled);
    names.truncate(filled);
    reply.map(|totals| (answers, names, totals))
}

#[test]
fn contractions() {
    let mut random = Random::new(1);
    let (mut most, mut largest) = (0, 0);
    for _ in 0..20_000 {
        let n = 1 + random.below(14);
        let m = random.below(2 * n + 1);
        let k = random.below(n + 3);
        // Half of the graphs are trees with a few edges more, for many bridges.
        let tree = random.below(2) == 0;
        let mut edges: Vec<(usize, usize)> = Vec::new();
        if tree {
            edges.extend((1..n).map(|v| (random.below(v), v)));
            edges.extend((0..random.below(3)).map(|_| (random.below(n), random.below(n))));
        } else {
            edges.extend((0..m).map(|_| (random.below(n), random.below(n))));
        }
        let active: Vec<usize> = (0..k).map(|_| random.below(n)).collect();
        // Few names, so that several edges have the same, any, or the largest.
        let (first, count) = [(0, 4), (0, 65536), (65532, 4)][random.below(3)];
        let names: Vec<u16> = edges
            .iter()
            .map(|_| (first + random.below(count)) as u16)
            .collect();
        let slow = contract(n, &edges, &names, &active);
        most = most.max(slow.pieces.iter().copied().max().unwrap_or(0));
        largest += slow.names.iter().filter(|&&name| name == 65535).count();
        assert_eq!(plain_small(n, &edges, &names, &active), slow);
    }
    assert!(most > 5, "{most} is the largest number of a piece");
    assert!(largest > 1_000, "{largest} edges have the largest name");
}

#[test]
fn replays() {
    let mut random = Random::new(2);
    let (mut shared, mut named) = (0, 0);
    for round in 0..6_000 {
        let n = 1 + random.below(10);
        let m = 1 + random.below(14);
        // In a third of the lists no segment is made to double another one.
        let doubles = random.below(3) * random.below(m) / 2;
        let t = random.below(32);
        let run = random.below(t / 2 + 1);
        // In a third of the lists nothing is open at the start.
        let open = random.below(3) * random.below(m + 1) / 2;
        let l = lists::random_list(n, m, doubles, open, t, run, &mut random);
        let p = 4 + round % 9;
        let slow = slow_replay(&l, p);
        shared += names_shared_road(&l) as usize;
        let need = replay::required(n, m, t);
        let plain = plain_replay(&l, t, p, [t + 2, t + 1, need + 3]);
        assert_eq!(plain.as_ref(), Ok(&slow));
        let (answers, names, _) = slow;
        named += names.iter().filter(|&&name| name != NO_NAME).count();
        let (mut found, mut found_names) = (vec![9; t], vec![9; t]);
        let tables = (&mut found[..], &mut found_names[..]);
        search::Whole::new().replay(n, &l.a, &l.b, &l.start, &l.x, &l.y, tables.0, tables.1);
        assert_eq!((&found, &found_names), (&answers, &names));
        found.fill(9);
        found_names.fill(9);
        let tables = (&mut found[..], &mut found_names[..]);
        search::Piece::new().replay(n, &l.a, &l.b, &l.start, &l.x, &l.y, tables.0, tables.1);
        assert_eq!((&found, &found_names), (&answers, &names));
    }
    assert!(shared > 2_000, "{shared} lists name a road by two segments");
    assert!(named > 5_000, "{named} answers 1 have a name");
}

/// The list on a tree of cycles of three segments: each cycle shares a junction with an earlier one.
fn on_cycles(mut l: lists::List, random: &mut Random) -> lists::List {
    for first in (0..l.m).step_by(3) {
        let own = first / 3 * 2;
        let corners = [random.below(own + 1), own + 1, own + 2].map(|v| (v % l.n) as u16);
        for s in first..l.m.min(first + 3) {
            l.a[s] = corners[s - first];
            l.b[s] = corners[(s - first + 1) % 3];
        }
    }
    l
}

#[test]
fn junction_replays() {
    let mut random = Random::new(6);
    let mut parted = 0;
    for round in 0..6_000 {
        let n = 1 + random.below(10);
        let m = 1 + random.below(16);
        let doubles = random.below(3) * random.below(m) / 2;
        let t = random.below(32);
        let run = random.below(t / 2 + 1);
        let open = random.below(3) * random.below(m + 1) / 2;
        let mut l = lists::random_list(n, m, doubles, open, t, run, &mut random);
        if round % 2 == 1 {
            l = on_cycles(l, &mut random);
        }
        let p = 4 + round % 9;
        let slow = slow_junctions(&l);
        let plain = plain_junctions(&l, t, p, [t + 2, junctions::required(n, m, t) + 3]);
        assert_eq!(plain.as_ref(), Ok(&slow));
        assert_eq!(searched_junctions(&l), slow.0);
        let (by_roads, ..) = plain_replay(&l, t, p, [t, t, replay::required(n, m, t)]).unwrap();
        let pairs = slow.0.iter().zip(&by_roads);
        parted += pairs.filter(|&(&j, &r)| (j, r) == (1, 2)).count();
    }
    assert!(
        parted > 500,
        "{parted} pairs hang on a junction and on no road"
    );
}

/// At the full sizes all shares and the search give the same.
#[test]
fn junctions_of_the_full_size() {
    for kind in lists::Kind::ALL {
        let l = lists::list(kind, 4096, &mut Random::new(7));
        let found = searched_junctions(&l);
        let need = junctions::required(l.n, l.m, 4096);
        for p in 4..13 {
            let (answers, _) = plain_junctions(&l, 4096, p, [4096, need]).unwrap();
            assert!(answers == found, "the {} list, p = {p}", kind.name());
        }
    }
}

/// The work table of the replay is too short.
#[test]
fn junction_words() {
    let l = lists::random_list(4, 5, 1, 2, 6, 0, &mut Random::new(8));
    let need = junctions::required(4, 5, 6);
    for words in [replay::required(4, 5, 6), need - 1] {
        let reply = plain_junctions(&l, 6, 8, [6, words]);
        assert_eq!(reply, Err(Refusal::new(2, 0)));
    }
    assert!(plain_junctions(&l, 6, 8, [6, need]).is_ok());
}

/// Whether events name two segments of one road.
fn names_shared_road(l: &lists::List) -> bool {
    let ends = |s: u16| (l.a[s as usize] as usize, l.b[s as usize] as usize);
    let events = || l.x.iter().zip(&l.y).filter(|e| *e.0 >= CLOSES);
    let named = || events().map(|e| *e.1);
    named().any(|s| named().any(|o| s != o && same_road(ends(s), ends(o))))
}

/// A road's name is the smallest segment with its ends.
#[test]
fn names() {
    let mut random = Random::new(3);
    for _ in 0..2_000 {
        let n = 1 + random.below(10);
        let m = 1 + random.below(30);
        let doubles = random.below(m);
        let l = lists::random_list(n, m, doubles, 0, 0, 0, &mut random);
        let ends = |s: usize| (l.a[s] as usize, l.b[s] as usize);
        let (mut found, mut work) = (vec![77; m], vec![77; 2 * n]);
        roads::name(n, &l.a, &l.b, &mut found, &mut work);
        for (s, &name) in found.iter().enumerate() {
            let least = (0..m).find(|&o| same_road(ends(s), ends(o)));
            assert_eq!(Some(name as usize), least);
        }
    }
}

/// Two segments 0-1 are one road, whose loss parts its ends, in either order of the ends.
#[test]
fn two_segments_are_one_road() {
    for b in [[1, 1], [1, 0]] {
        let l = lists::List {
            n: 2,
            m: 2,
            a: vec![0, 1 - b[1]],
            b: b.to_vec(),
            start: vec![0, 0],
            x: vec![OPENS, OPENS, 0, CLOSES, 0],
            y: vec![0, 1, 1, 0, 1],
        };
        let plain = plain_replay(&l, 5, 8, [5, 5, replay::required(2, 2, 5)]).unwrap();
        let (answers, names, totals) = &plain;
        assert_eq!(answers, &[3, 3, 1, 3, 1]);
        // The road has the name of its first segment while that is closed too.
        assert_eq!(names, &[NO_NAME, NO_NAME, 0, NO_NAME, 0]);
        assert_eq!((totals.queries, totals.open), (2, 1));
        assert_eq!(slow_replay(&l, 8), plain);
    }
}

/// Each table that is only read one entry longer than its size, alone, with another table short, and with the share 3.
#[test]
fn longer_tables() {
    let mut random = Random::new(5);
    let lengthen: [fn(&mut lists::List); 5] = [
        |l| l.a.push(0),
        |l| l.b.push(0),
        |l| l.start.push(0),
        |l| l.x.push(0),
        |l| l.y.push(0),
    ];
    for _ in 0..200 {
        let l = lists::random_list(4, 5, 1, 2, 6, 0, &mut random);
        let need = replay::required(4, 5, 6);
        assert!(plain_replay(&l, 6, 8, [6, 6, need]).is_ok());
        for push in lengthen {
            let mut long = l.clone();
            push(&mut long);
            let reply = |p, lengths| plain_replay(&long, 6, p, lengths).unwrap_err();
            assert_eq!(reply(8, [6, 6, need]), Refusal::new(12, 0));
            assert_eq!(reply(3, [7, 7, need + 1]), Refusal::new(12, 0));
            assert_eq!(reply(3, [6, 6, need - 1]), Refusal::new(2, 0));
        }
    }
}

fn refusal((code, place): vectors::Refused) -> Refusal {
    Refusal::new(code, place)
}

/// Some with tables that are longer than they must be, and refused ones.
#[test]
fn contraction_vectors() {
    let all = vectors::contractions();
    assert_eq!(all.len(), 110);
    for v in all {
        let small = plain_contract(&Lent {
            n: v.n,
            m: v.m,
            k: v.k,
            from: &v.from,
            to: &v.to,
            names: &v.names,
            active: &v.active,
            lengths: v.lengths,
        });
        let numbers = |table: Vec<u16>| table.into_iter().map(usize::from);
        let expected = v.reply.map_err(refusal).map(|r| Small {
            nodes: r.nodes,
            edges: numbers(r.out_from).zip(numbers(r.out_to)).collect(),
            names: r.out_names,
            map: numbers(r.map).collect(),
            pieces: numbers(r.pieces).collect(),
        });
        assert_eq!(small, expected);
    }
}

/// The list of a vector, its number of events, its share, the lengths of the written tables and its reply.
fn taken(
    v: vectors::Replay,
) -> (
    lists::List,
    usize,
    usize,
    [usize; 3],
    Result<vectors::Replayed, Refusal>,
) {
    let l = lists::List {
        n: v.n,
        m: v.m,
        a: v.a,
        b: v.b,
        start: v.start,
        x: v.x,
        y: v.y,
    };
    (l, v.t, v.p, v.lengths, v.reply.map_err(refusal))
}

fn run_replay_vector(v: vectors::Replay) {
    let (l, t, p, lengths, expected) = taken(v);
    let reply = plain_replay(&l, t, p, lengths);
    let expected = expected.map(|r| {
        let totals = replay::Totals {
            queries: r.queries,
            open: r.open,
            kept: r.kept,
        };
        let names = r.names.unwrap_or_else(|| reply.as_ref().unwrap().1.clone());
        (r.answers, names, totals)
    });
    assert_eq!(reply, expected);
}

#[test]
fn replay_vectors() {
    let (calls, programs) = (vectors::replays(), vectors::programs());
    assert_eq!((calls.len(), programs.len()), (55, 65));
    calls
        .into_iter()
        .chain(programs)
        .for_each(run_replay_vector);
}

#[test]
fn junction_vectors() {
    let all = vectors::junctions();
    assert_eq!(all.len(), 80);
    for v in all {
        let (l, t, p, [answers, _, words], expected) = taken(v);
        let reply = plain_junctions(&l, t, p, [answers, words]);
        let expected = expected.map(|r| {
            let totals = junctions::Totals {
                queries: r.queries,
                open: r.open,
            };
            assert_eq!(searched_junctions(&l), r.answers);
            (r.answers, totals)
        });
        assert_eq!(reply, expected);
    }
}

#[test]
fn check_numbers() {
    let mut random = Random::new(4);
    for _ in 0..2000 {
        let long = random.below(40);
        let table: Vec<u8> = (0..long).map(|_| random.below(256) as u8).collect();
        let t = random.below(long + 1);
        let number = table[..t]
            .iter()
            .fold(1, |h: u64, &a| (31 * h + u64::from(a) + 1) % 4294967296);
        let call = check_number::check_number;
        assert_eq!(call(&table, t).map(u64::from), Ok(number));
        assert_eq!(call(&table, long + 1), Err(Refusal::new(2, 0)));
        assert_eq!(call(&table, 4097), Err(Refusal::new(1, 0)));
    }
}
