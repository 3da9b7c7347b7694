//! The kinds of all numbers against the rows of the table of events, and against what a replay makes of them.

mod common;

use common::refusal;
use lumzhasel::tables::{kind_of, replay, replay_work, ReplayTables, CLOSES, NO_QUERY, OPENS};
use lumzhasel::{Kind, MOST_JUNCTIONS};
use std::ops::Range;

/// The rows of document 01's table: what the first column holds, and the kind.
fn rows(n: usize) -> [(Range<usize>, Kind); 3] {
    [
        (0..n, Kind::Query),
        (65535..65536, Kind::Opens),
        (65534..65535, Kind::Closes),
    ]
}

/// The kinds that the first column gives, of whichever rows hold the number.
fn given(x: u16, n: usize) -> Vec<Kind> {
    let holding = rows(n).into_iter().filter(|(column, _)| column.contains(&x.into()));
    holding.map(|(_, kind)| kind).collect()
}

#[test]
fn all_numbers() {
    for n in [0, 1, 2, 3, 176, 255, 256, 257, 1000, MOST_JUNCTIONS - 1, MOST_JUNCTIONS] {
        for x in 0..=u16::MAX {
            let kind = kind_of(x, n).unwrap();
            let want = if kind == Kind::None { vec![] } else { vec![kind] };
            assert_eq!(given(x, n), want, "{x} with {n} junctions");
        }
    }
}

// All 65,536 numbers with each number of junctions up to 4,096.
#[test]
fn all_numbers_and_junctions() {
    for n in 0..=MOST_JUNCTIONS {
        let mut found = [0; 4];
        for x in 0..=u16::MAX {
            let kind = kind_of(x, n).unwrap();
            assert_eq!(kind == Kind::Query, usize::from(x) < n);
            assert_eq!(kind == Kind::Opens, x == OPENS);
            assert_eq!(kind == Kind::Closes, x == CLOSES);
            found[kind as usize] += 1;
        }
        assert_eq!(found, [n, 1, 1, 65534 - n]);
    }
}

// Past the limits the first row that holds the number counts, and nothing is refused.
#[test]
fn more_junctions() {
    assert_eq!(kind_of(4096, 4097), Ok(Kind::Query));
    for n in [65536, 1 << 20, usize::MAX] {
        assert_eq!([0, CLOSES, OPENS].map(|x| kind_of(x, n)), [Ok(Kind::Query); 3]);
    }
}

// One event with this x, over three junctions and a segment that is closed at the start, or open. A query is of two
// different junctions.
fn replayed(x: u16, start: u16) -> Result<(u8, usize), (usize, usize)> {
    let (mut answers, mut names) = ([9], [9]);
    let totals = replay(ReplayTables {
        n: 3,
        m: 1,
        t: 1,
        p: 8,
        a: &[0],
        b: &[1],
        start: &[start],
        x: &[x],
        y: &[u16::from(x == 0)],
        answers: &mut answers,
        names: &mut names,
        work: &mut vec![0; replay_work(3, 1, 1)],
    });
    totals.map(|totals| (answers[0], totals.open)).map_err(refusal)
}

// What a replay makes of an event tells its kind: a query has an answer, an opening opens, a closing closes, and an event
// of no kind is refused by 5.
#[test]
fn the_replay_goes_by_the_kind() {
    for x in 0..=u16::MAX {
        let want = match kind_of(x, 3).unwrap() {
            Kind::Query => [Ok((0, 0)), Ok(([1, 1, 0][usize::from(x)], 1))],
            Kind::Opens => [Ok((NO_QUERY, 1)), Err((6, 0))],
            Kind::Closes => [Err((7, 0)), Ok((NO_QUERY, 0))],
            Kind::None => [Err((5, 0)); 2],
        };
        assert_eq!([replayed(x, 0), replayed(x, 1)], want, "{x}");
    }
}
