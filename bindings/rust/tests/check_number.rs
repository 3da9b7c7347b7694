//! The check number against a plain fold, its cases and refusals, and what it tells of two tables.

mod common;

use common::{random_list, refusal, Numbers};
use lumzhasel::tables::check_number;
use lumzhasel::{Answer, Error, List, Network, Reason};

/// By document 02's words: it starts at 1, and each byte a turns h into 31h + a + 1, reduced modulo 4,294,967,296.
fn fold(bytes: &[u8]) -> u32 {
    let number = bytes
        .iter()
        .fold(1, |h: u64, &a| (31 * h + u64::from(a) + 1) % 4_294_967_296);
    number as u32
}

// The call's reply, a refusal by its number and its place.
fn call(table: &[u8], t: usize) -> Result<u32, (usize, usize)> {
    let lent = table.to_vec();
    let r = check_number(&lent, t).map_err(refusal);
    assert_eq!(lent, table, "the table was written");
    r
}

#[test]
fn the_cases() {
    let example = [3, 3, 1, 3, 2];
    assert_eq!(call(&[], 0), Ok(1));
    for (t, number) in [1, 35, 1089, 33761, 1046595, 32444448].into_iter().enumerate() {
        assert_eq!(call(&example, t), Ok(number));
    }
    assert_eq!(call(&[0], 1), Ok(32));
    assert_eq!(call(&[255], 1), Ok(287));
    assert_eq!(call(&[1, 2], 2), Ok(1026));
    assert_eq!(call(&[2, 1], 2), Ok(1056));
    assert_eq!(call(&[3; 7], 7), Ok(1116191587));
    assert_eq!(call(&[117, 30, 18, 28, 23, 2], 6), Ok(u32::MAX));
    assert_eq!(call(&[117, 30, 18, 28, 23, 3], 6), Ok(0));
}

#[test]
fn random_tables() {
    for seed in 0..2000 {
        let mut r = Numbers::from(200_000 + seed);
        let long = r.below(if seed % 10 == 0 { 4100 } else { 40 });
        let most = if r.below(2) == 0 { 4 } else { 256 };
        let table: Vec<u8> = (0..long).map(|_| r.below(most) as u8).collect();
        for t in [0, long / 2, long, long + 1, 4096, 4097, usize::MAX] {
            let want = match t {
                4097.. => Err((1, 0)),
                t if t > long => Err((2, 0)),
                t => Ok(fold(&table[..t])),
            };
            assert_eq!(call(&table, t), want);
        }
    }
}

#[test]
fn refusals_in_order() {
    // Both hold: 1 comes first.
    assert_eq!(call(&[], 4097), Err((1, 0)));
    assert_eq!(call(&[3; 4097], 4097), Err((1, 0)));
    assert_eq!(call(&[3; 4095], 4096), Err((2, 0)));
    assert_eq!(call(&[3; 4097], 4096), Ok(fold(&[3; 4096])));
    let error = check_number(&[3], 2).unwrap_err();
    assert!(matches!(error, Error::Refused(r) if r.reason == Reason::Short && r.place == 0));
}

#[test]
fn one_byte_that_differs_is_told() {
    for seed in 0..2000 {
        let mut r = Numbers::from(210_000 + seed);
        let mut table: Vec<u8> = (0..1 + r.below(60)).map(|_| r.below(256) as u8).collect();
        let before = call(&table, table.len());
        let i = r.below(table.len());
        table[i] = table[i].wrapping_add(1 + r.below(255) as u8);
        assert_ne!(call(&table, table.len()), before);
    }
}

#[test]
fn two_tables_share_a_number() {
    assert_eq!(call(&[0, 31], 2), call(&[1, 0], 2));
    // Also where all bytes are answers.
    let one = [0, 1, 2, 0, 2, 0, 0, 0, 0, 1, 0, 0, 1];
    let other = [1, 0, 0, 0, 0, 0, 2, 1, 0, 0, 2, 1, 0];
    assert_eq!(call(&one, 13), Ok(3994301987));
    assert_eq!(call(&other, 13), Ok(3994301987));
}

#[test]
fn of_a_replay() {
    let network = Network::with_segments(3, [(0, 1), (1, 2), (2, 0)]);
    let mut list = List::new();
    list.open(0).open(1).query(0, 2).open(2).query(0, 2);
    let mut replayed = network.replay(&list).unwrap();
    assert_eq!(replayed.check_number(5), Ok(32444448));
    assert_eq!(replayed.check_number(0), Ok(1));
    assert_eq!(refusal(replayed.check_number(6).unwrap_err()), (2, 0));
    assert_eq!(refusal(replayed.check_number(4097).unwrap_err()), (1, 0));
    // Answers as another office has them.
    replayed.answers[2] = Some(Answer::JoinedTwice);
    assert_eq!(replayed.check_number(5), Ok(32445409));
}

#[test]
fn of_random_replays() {
    for seed in 0..500 {
        let mut r = Numbers::from(220_000 + seed);
        let got = random_list(&mut r, 6, 8, 40).compare();
        let t = got.answers.len();
        assert_eq!(call(&got.answers, t), Ok(fold(&got.answers)));
    }
}
