//! The replay by the loss of a junction at the full sizes, with answers that its network tells: two rings that share junction 0, whose roads have two
//! segments each, in both orders, but for the last two.

mod common;

use common::list;
use lumzhasel::tables::{CLOSES, OPENS};

const FIRST: u16 = 2048;
const SECOND: u16 = 2049;

// Road k of the first ring leads from place k to the next; its second segment has the number SEGMENTS + k.
const SEGMENTS: u16 = FIRST + SECOND;

fn segments() -> Vec<(u16, u16)> {
    let first = (0..FIRST).map(|k| (k, (k + 1) % FIRST));
    let place = |j: u16| if j % SECOND == 0 { 0 } else { FIRST - 1 + j };
    let second = (0..SECOND).map(|j| (place(j), place((j + 1) % SECOND)));
    let mut all: Vec<(u16, u16)> = first.chain(second).collect();
    let other = all[..8192 - all.len()].iter().map(|&(u, v)| (v, u));
    all.extend(other.collect::<Vec<_>>());
    all
}

// Eight events for road k of the first ring, with their answers. It closes segment by segment, and opens again by one of them.
fn round(k: u16) -> [((u16, u16), u8); 8] {
    let within = (700 + k % 300, 1200 + k % 500);
    [
        ((1 + k, FIRST + 3 * k), 1),
        (within, 2),
        ((0, FIRST + 2 * k), 2),
        ((CLOSES, k), 3),
        (within, 2),
        ((CLOSES, SEGMENTS + k), 3),
        (within, 1),
        ((OPENS, k), 3),
    ]
}

#[test]
fn two_rings_with_all_shares() {
    let (events, answers): (Vec<_>, Vec<_>) = (0..512).flat_map(round).unzip();
    let segments = segments();
    assert_eq!((segments.len(), events.len()), (8192, 4096));
    for p in 4..=12 {
        let l = list(4096, p, &segments, &events).with_start(&[1; 8192]).for_junctions();
        let got = l.call_junctions();
        assert_eq!(got.reply, Ok((2560, 8192 - 512)));
        assert!(got.answers == answers, "p = {p}");
        assert!(got.work.iter().all(|w| *w == 0));
    }
}
