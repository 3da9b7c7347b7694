//! Random lists and graphs against the slow version: replies and every lent entry afterwards.

mod common;

use common::{damage, list, random_graph, random_list, Edge, Numbers, Removals};
use lumzhasel::tables::OPENS;

#[test]
fn small_lists() {
    for seed in 0..4000 {
        let mut r = Numbers::from(seed);
        let mut l = random_list(&mut r, 6, 9, 14);
        l.fill_with_junk(&mut r);
        assert!(l.compare().reply.is_ok());
    }
}

#[test]
fn middle_lists() {
    for seed in 0..60 {
        let mut r = Numbers::from(10_000 + seed);
        let l = random_list(&mut r, 24, 32, 90);
        assert!(l.compare().reply.is_ok());
    }
}

#[test]
fn shares_change_kept_alone() {
    for seed in 0..200 {
        let mut r = Numbers::from(20_000 + seed);
        let mut l = random_list(&mut r, 12, 16, 40);
        let first = l.call();
        for p in 4..=12 {
            l.p = p;
            let other = l.call();
            assert_eq!(other.answers, first.answers);
            assert_eq!(other.names, first.names);
            assert_eq!(other.work, first.work);
            assert_eq!(other.reply.map(|r| (r.0, r.1)), first.reply.map(|r| (r.0, r.1)));
        }
    }
}

#[test]
fn small_graphs() {
    for seed in 0..6000 {
        let mut r = Numbers::from(30_000 + seed);
        let mut g = random_graph(&mut r, 9, 10, 8);
        g.fill_with_junk(&mut r);
        assert!(g.compare().reply.is_ok());
    }
}

#[test]
fn middle_graphs() {
    for seed in 0..60 {
        let mut r = Numbers::from(40_000 + seed);
        let g = random_graph(&mut r, 40, 42, 20);
        assert!(g.compare().reply.is_ok());
    }
}

// What the pieces are for: they tell which entries have answer 0, in the graph given and in the small one.
#[test]
fn pieces_tell_what_is_not_joined() {
    let mut seen = [0; 3];
    for seed in 0..1000 {
        let mut r = Numbers::from(45_000 + seed);
        let g = random_graph(&mut r, 12, 10, 8);
        let got = g.call();
        let (nodes, count) = got.reply.unwrap();
        let number = |table: &[u16], i: usize| table[i] as usize;
        let edges: Vec<Edge> = (0..count)
            .map(|e| (number(&got.out_from, e), number(&got.out_to, e)))
            .collect();
        let (given, small) = (Removals::of(g.n, &g.edges()), Removals::of(nodes, &edges));
        for i in 0..g.k {
            for j in 0..g.k {
                let answer = given.answer(number(&g.active, i), number(&g.active, j));
                assert_eq!(answer, small.answer(number(&got.map, i), number(&got.map, j)), "{g:?}");
                assert_eq!(got.pieces[i] != got.pieces[j], answer == 0, "{g:?}");
                seen[answer as usize] += 1;
            }
        }
        // Each number is one that an entry before it has, or the next.
        let mut next = 0;
        for &piece in &got.pieces {
            assert!(piece <= next, "{g:?}");
            next = next.max(piece + 1);
        }
    }
    assert!(seen.iter().all(|k| *k > 0), "an answer was never seen: {seen:?}");
}

#[test]
fn damaged_lists() {
    let mut seen = [0; 13];
    for seed in 0..6000 {
        let mut r = Numbers::from(50_000 + seed);
        let mut l = random_list(&mut r, 5, 6, 10);
        l.fill_with_junk(&mut r);
        for _ in 0..1 + r.below(2) {
            damage(&mut l, &mut r);
        }
        let got = l.compare();
        seen[got.reply.map_or_else(|e| e.0, |_| 0)] += 1;
    }
    for code in (0..8).chain([11, 12]) {
        assert!(seen[code] > 0, "a reply was never seen: {seen:?}");
    }
}

#[test]
fn damaged_graphs() {
    let mut seen = [0; 9];
    for seed in 0..6000 {
        let mut r = Numbers::from(60_000 + seed);
        let mut g = random_graph(&mut r, 6, 8, 8);
        g.fill_with_junk(&mut r);
        let place = r.below(8);
        match r.below(11) {
            0 => g.n = r.below(8),
            1 => g.m = r.below(10),
            2 => g.k = r.below(10),
            3 => g.m = 8190 + r.below(5),
            4 => g.work.truncate(16 * g.n + 8 * g.m + 511),
            5 => g.pieces.truncate(g.pieces.len().saturating_sub(1 + r.below(3))),
            6 => g.names.truncate(g.names.len().saturating_sub(1 + r.below(3))),
            7 => g.out_names.truncate(g.out_names.len().saturating_sub(1 + r.below(3))),
            k => {
                let value = (g.n + r.below(2)) as u16;
                let table = match k {
                    8 => &mut g.from,
                    9 => &mut g.to,
                    _ => &mut g.active,
                };
                if place < table.len() {
                    table[place] = value;
                }
            }
        }
        seen[g.compare().reply.map_or_else(|e| e.0, |_| 0)] += 1;
    }
    for code in [0, 1, 2, 4, 8] {
        assert!(seen[code] > 0, "a reply was never seen: {seen:?}");
    }
}

#[test]
fn large_lists() {
    for seed in 0..4 {
        let mut r = Numbers::from(120_000 + seed);
        let l = random_list(&mut r, 120, 150, 400);
        assert!(l.compare().reply.is_ok());
    }
}

// How deep a replay goes depends on the number of events and on the share alone.
#[test]
fn the_stack_that_is_named_is_enough() {
    let segments: Vec<(u16, u16)> = (0..8192).map(|s| (s % 4096, (s + s / 4096 + 1) % 4096)).collect();
    let events: Vec<(u16, u16)> = (0..4096)
        .map(|i| if i % 2 == 0 { (OPENS, i) } else { (i, i - 1) })
        .collect();
    for p in 4..=12 {
        let most = list(4096, p, &segments, &events);
        let run = move || most.call().reply.is_ok();
        let thread = std::thread::Builder::new().stack_size(64 * 1024).spawn(run).unwrap();
        assert!(thread.join().unwrap());
    }
}
