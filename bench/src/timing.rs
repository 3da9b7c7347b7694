//! The measures. A round goes over all inputs of a kind, and each input meets every rival in turn, so that drift of the machine meets them alike
//! and a rival has met all other inputs before it meets one again.

use crate::proved;
use bench::graphs::{self, Shape};
use bench::lists::{self, Kind, List};
use bench::random::Random;
use bench::{check_number, contraction, junctions, replay, search};
use std::hint::black_box;
use std::time::Instant;

pub const ROUNDS: usize = 9;
pub const LISTS: usize = 8;
pub const GRAPHS: usize = 64;
pub const TABLES: usize = 64;
pub const SIZES: [usize; 4] = [512, 1024, 2048, 4096];
pub const SHARES: [usize; 3] = [4, 8, 12];

/// Microseconds a call: each input's median and least of the rounds, averaged over the inputs.
#[derive(Clone, Copy)]
pub struct Time {
    pub median: f64,
    pub least: f64,
}

/// Times `one` for each rival and each input.
fn measure(rivals: usize, inputs: usize, mut one: impl FnMut(usize, usize)) -> Vec<Time> {
    let mut times = vec![Vec::with_capacity(ROUNDS); rivals * inputs];
    for round in 0..ROUNDS {
        for input in 0..inputs {
            for i in 0..rivals {
                let rival = (round + input + i) % rivals;
                let start = Instant::now();
                one(rival, input);
                let elapsed = start.elapsed().as_secs_f64() * 1e6;
                times[rival * inputs + input].push(elapsed);
            }
        }
    }
    for rounds in &mut times {
        rounds.sort_by(f64::total_cmp);
    }
    let average = |of_inputs: &[Vec<f64>], place: usize| {
        of_inputs.iter().map(|rounds| rounds[place]).sum::<f64>() / inputs as f64
    };
    let time = |of_inputs: &[Vec<f64>]| Time {
        median: average(of_inputs, ROUNDS / 2),
        least: average(of_inputs, 0),
    };
    times.chunks(inputs).map(time).collect()
}

pub struct ReplayRow {
    pub kind: Kind,
    pub events: usize,
    pub junctions: usize,
    pub segments: usize,
    /// Segments that are open at the start.
    pub open: usize,
    /// Queries a list, on average.
    pub queries: usize,
    /// By share.
    pub proved: Vec<Time>,
    pub plain: Vec<Time>,
    pub whole: Time,
    pub piece: Time,
}

type Replay = fn(
    usize,
    usize,
    usize,
    usize,
    &[u16],
    &[u16],
    &[u16],
    &[u16],
    &[u16],
    &mut [u8],
    &mut [u16],
    &mut [u32],
) -> Result<replay::Totals, bench::Refusal>;

fn call(
    f: Replay,
    l: &List,
    p: usize,
    answers: &mut [u8],
    names: &mut [u16],
    work: &mut [u32],
) -> Result<replay::Totals, bench::Refusal> {
    f(
        l.n,
        l.m,
        l.events(),
        p,
        &l.a,
        &l.b,
        &l.start,
        &l.x,
        &l.y,
        answers,
        names,
        work,
    )
}

/// All four programs must give the same answers and names, and the two replays the same numbers.
fn compare(
    l: &List,
    whole: &mut search::Whole,
    piece: &mut search::Piece,
    work: &mut [u32],
) -> Result<usize, String> {
    let t = l.events();
    let (mut found, mut names) = (vec![vec![9; t]; 4], vec![vec![9; t]; 4]);
    let mut queries = 0;
    let searched = (&mut found[2], &mut names[2]);
    whole.replay(
        l.n, &l.a, &l.b, &l.start, &l.x, &l.y, searched.0, searched.1,
    );
    let searched = (&mut found[3], &mut names[3]);
    piece.replay(
        l.n, &l.a, &l.b, &l.start, &l.x, &l.y, searched.0, searched.1,
    );
    for p in SHARES {
        let by_proved = call(proved::replay, l, p, &mut found[0], &mut names[0], work);
        let by_plain = call(replay::replay, l, p, &mut found[1], &mut names[1], work);
        match by_proved {
            Ok(totals) => queries = totals.queries,
            Err(r) => return Err(format!("a list is refused: {} at {}", r.code, r.place)),
        }
        if by_proved != by_plain {
            return Err(format!(
                "the replays differ: {by_proved:?} and {by_plain:?}"
            ));
        }
        if let Some(i) = (0..t).find(|&i| found.iter().any(|f| f[i] != found[0][i])) {
            return Err(format!(
                "the answers to event {i} differ: {:?}",
                [0, 1, 2, 3].map(|r| found[r][i])
            ));
        }
        if let Some(i) = (0..t).find(|&i| names.iter().any(|f| f[i] != names[0][i])) {
            return Err(format!(
                "the names at event {i} differ: {:?}",
                [0, 1, 2, 3].map(|r| names[r][i])
            ));
        }
    }
    Ok(queries)
}

/// The lists of a row, the same for the replay and for its sibling.
fn make_lists(kind: Kind, events: usize) -> Vec<List> {
    let mut random = Random::new(events as u64);
    let list = |_| lists::list(kind, events, &mut random);
    (0..LISTS).map(list).collect()
}

fn replay_row(kind: Kind, events: usize) -> Result<ReplayRow, String> {
    let lists = make_lists(kind, events);
    let (junctions, segments) = (lists[0].n, lists[0].m);
    let open = bench::open_at_start(&lists[0].start).count();
    let (mut whole, mut piece) = (search::Whole::new(), search::Piece::new());
    let mut work = vec![0; replay::required(junctions, segments, events)];
    let mut queries = 0;
    for list in &lists {
        queries += compare(list, &mut whole, &mut piece, &mut work)?;
    }

    let (mut answers, mut names) = (vec![0; events], vec![0; events]);
    let shares = SHARES.len();
    let mut times = measure(2 * shares + 2, LISTS, |rival, i| {
        let l = &lists[i];
        if rival < 2 * shares {
            let f: Replay = if rival % 2 == 0 {
                proved::replay
            } else {
                replay::replay
            };
            let p = SHARES[rival / 2];
            let _ = black_box(call(f, l, p, &mut answers, &mut names, &mut work));
        } else if rival == 2 * shares {
            whole.replay(
                l.n,
                &l.a,
                &l.b,
                &l.start,
                &l.x,
                &l.y,
                &mut answers,
                &mut names,
            );
        } else {
            piece.replay(
                l.n,
                &l.a,
                &l.b,
                &l.start,
                &l.x,
                &l.y,
                &mut answers,
                &mut names,
            );
        }
        black_box((&mut answers, &mut names));
    });
    let piece = times.pop().unwrap();
    let whole = times.pop().unwrap();
    let every_second = |first: usize| times.iter().copied().skip(first).step_by(2).collect();
    Ok(ReplayRow {
        kind,
        events,
        junctions,
        segments,
        open,
        queries: queries / LISTS,
        proved: every_second(0),
        plain: every_second(1),
        whole,
        piece,
    })
}

pub fn replays() -> Result<Vec<ReplayRow>, String> {
    let mut rows = Vec::new();
    for kind in Kind::ALL {
        for events in SIZES {
            rows.push(replay_row(kind, events)?);
        }
    }
    Ok(rows)
}

pub struct JunctionRow {
    pub kind: Kind,
    pub events: usize,
    pub junctions: usize,
    pub segments: usize,
    /// By share.
    pub proved: Vec<Time>,
    pub plain: Vec<Time>,
    /// The proved replay by the loss of a road.
    pub replay: Vec<Time>,
    pub piece: Time,
    /// The answers of all lists that are 0, 1 and 2.
    pub answers: [usize; 3],
}

type JunctionReplay = fn(
    usize,
    usize,
    usize,
    usize,
    &[u16],
    &[u16],
    &[u16],
    &[u16],
    &[u16],
    &mut [u8],
    &mut [u32],
) -> Result<junctions::Totals, bench::Refusal>;

fn call_junctions(
    f: JunctionReplay,
    l: &List,
    p: usize,
    answers: &mut [u8],
    work: &mut [u32],
) -> Result<junctions::Totals, bench::Refusal> {
    f(
        l.n,
        l.m,
        l.events(),
        p,
        &l.a,
        &l.b,
        &l.start,
        &l.x,
        &l.y,
        answers,
        work,
    )
}

/// The proved and the plain sibling must give the same numbers, and they and the search the same answers, which are returned.
fn compare_junctions(
    l: &List,
    piece: &mut search::Piece,
    work: &mut [u32],
) -> Result<Vec<u8>, String> {
    let t = l.events();
    let mut found = vec![vec![9; t]; 3];
    piece.replay_junctions(l.n, &l.a, &l.b, &l.start, &l.x, &l.y, &mut found[2]);
    for p in SHARES {
        let by_proved = call_junctions(proved::replay_junctions, l, p, &mut found[0], work);
        let by_plain = call_junctions(junctions::replay, l, p, &mut found[1], work);
        if by_proved.is_err() || by_proved != by_plain {
            return Err(format!(
                "the replays by the loss of a junction differ: {by_proved:?} and {by_plain:?}"
            ));
        }
        if let Some(i) = (0..t).find(|&i| found.iter().any(|f| f[i] != found[0][i])) {
            return Err(format!(
                "the answers to event {i} by the loss of a junction differ: {:?}",
                [0, 1, 2].map(|r| found[r][i])
            ));
        }
    }
    Ok(found.swap_remove(0))
}

fn junction_row(kind: Kind, events: usize) -> Result<JunctionRow, String> {
    let lists = make_lists(kind, events);
    let (n, m) = (lists[0].n, lists[0].m);
    let mut piece = search::Piece::new();
    let mut work = vec![0; junctions::required(n, m, events)];
    let mut met = [0; 3];
    for list in &lists {
        let found = compare_junctions(list, &mut piece, &mut work)?;
        for answer in found.into_iter().filter(|&a| a < 3) {
            met[usize::from(answer)] += 1;
        }
    }

    let (mut answers, mut names) = (vec![0; events], vec![0; events]);
    let shares = SHARES.len();
    let mut times = measure(3 * shares + 1, LISTS, |rival, i| {
        let l = &lists[i];
        let siblings: [JunctionReplay; 2] = [proved::replay_junctions, junctions::replay];
        match (rival % 3, SHARES.get(rival / 3)) {
            (2, Some(&p)) => {
                let f = proved::replay;
                let _ = black_box(call(f, l, p, &mut answers, &mut names, &mut work));
            }
            (f, Some(&p)) => {
                let _ = black_box(call_junctions(siblings[f], l, p, &mut answers, &mut work));
            }
            (_, None) => {
                piece.replay_junctions(l.n, &l.a, &l.b, &l.start, &l.x, &l.y, &mut answers)
            }
        }
        black_box((&mut answers, &mut names));
    });
    let piece = times.pop().unwrap();
    let every_third = |first: usize| times.iter().copied().skip(first).step_by(3).collect();
    Ok(JunctionRow {
        kind,
        events,
        junctions: n,
        segments: m,
        proved: every_third(0),
        plain: every_third(1),
        replay: every_third(2),
        piece,
        answers: met,
    })
}

pub fn junctions() -> Result<Vec<JunctionRow>, String> {
    let mut rows = Vec::new();
    for kind in Kind::ALL {
        for events in SIZES {
            rows.push(junction_row(kind, events)?);
        }
    }
    Ok(rows)
}

pub struct ContractionRow {
    pub shape: Shape,
    pub nodes: usize,
    pub proved: Time,
    pub plain: Time,
}

/// The tables that a contraction is lent to write.
#[derive(PartialEq)]
struct Tables {
    map: Vec<u16>,
    out_from: Vec<u16>,
    out_to: Vec<u16>,
    out_names: Vec<u16>,
    pieces: Vec<u16>,
    work: Vec<u32>,
}

impl Tables {
    /// For the graphs of n nodes, filled with junk.
    fn new(n: usize) -> Self {
        Tables {
            map: vec![9; n / 4],
            out_from: vec![9; n / 2],
            out_to: vec![9; n / 2],
            out_names: vec![9; n / 2],
            pieces: vec![9; n / 4],
            work: vec![9; contraction::required(n, 2 * n)],
        }
    }
}

type Contract = fn(
    usize,
    usize,
    usize,
    &[u16],
    &[u16],
    &[u16],
    &[u16],
    &mut [u16],
    &mut [u16],
    &mut [u16],
    &mut [u16],
    &mut [u16],
    &mut [u32],
) -> Result<(usize, usize), bench::Refusal>;

fn contract(
    f: Contract,
    g: &graphs::Graph,
    t: &mut Tables,
) -> Result<(usize, usize), bench::Refusal> {
    let (m, k) = (g.from.len(), g.active.len());
    f(
        g.n,
        m,
        k,
        &g.from,
        &g.to,
        &g.names,
        &g.active,
        &mut t.map,
        &mut t.out_from,
        &mut t.out_to,
        &mut t.out_names,
        &mut t.pieces,
        &mut t.work,
    )
}

fn contraction_row(shape: Shape, n: usize) -> Result<ContractionRow, String> {
    let mut random = Random::new(n as u64);
    let graphs: Vec<graphs::Graph> = (0..GRAPHS)
        .map(|_| graphs::graph(shape, n, &mut random))
        .collect();
    for g in &graphs {
        // On tables of their own, so that an entry which one of them leaves as it was is found.
        let (mut of_proved, mut of_plain) = (Tables::new(n), Tables::new(n));
        let by_proved = contract(proved::contract, g, &mut of_proved);
        let by_plain = contract(contraction::contract, g, &mut of_plain);
        if by_proved.is_err() || by_proved != by_plain || of_proved != of_plain {
            return Err(format!(
                "the contractions differ: {by_proved:?} and {by_plain:?}"
            ));
        }
    }
    let mut tables = Tables::new(n);
    let times = measure(2, GRAPHS, |rival, i| {
        let f: Contract = if rival == 0 {
            proved::contract
        } else {
            contraction::contract
        };
        let _ = black_box(contract(f, &graphs[i], &mut tables));
    });
    Ok(ContractionRow {
        shape,
        nodes: n,
        proved: times[0],
        plain: times[1],
    })
}

pub fn contractions() -> Result<Vec<ContractionRow>, String> {
    let mut rows = Vec::new();
    for shape in [Shape::Random, Shape::Grid] {
        for nodes in SIZES {
            rows.push(contraction_row(shape, nodes)?);
        }
    }
    Ok(rows)
}

pub struct NumberRow {
    pub bytes: usize,
    pub proved: Time,
    pub plain: Time,
}

type CheckNumber = fn(&[u8], usize) -> Result<u32, bench::Refusal>;

fn number_row(bytes: usize) -> Result<NumberRow, String> {
    let mut random = Random::new(bytes as u64);
    let mut table = || (0..bytes).map(|_| random.below(4) as u8).collect();
    let tables: Vec<Vec<u8>> = (0..TABLES).map(|_| table()).collect();
    for table in &tables {
        let by_proved = proved::check_number(table, bytes);
        let by_plain = check_number::check_number(table, bytes);
        if by_proved.is_err() || by_proved != by_plain {
            return Err(format!(
                "the check numbers differ: {by_proved:?} and {by_plain:?}"
            ));
        }
    }
    let times = measure(2, TABLES, |rival, i| {
        let f: CheckNumber = if rival == 0 {
            proved::check_number
        } else {
            check_number::check_number
        };
        let _ = black_box(f(black_box(&tables[i]), bytes));
    });
    Ok(NumberRow {
        bytes,
        proved: times[0],
        plain: times[1],
    })
}

pub fn numbers() -> Result<Vec<NumberRow>, String> {
    SIZES.into_iter().map(number_row).collect()
}
