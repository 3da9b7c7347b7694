//! The cases of documents 01 and 02, as calls show them, and the limits.

mod common;

use common::{graph, list, List};
use lumzhasel::tables::{answers, check_sizes, CLOSES, NO_NAME, OPENS};
use lumzhasel::{Call, Error, Reason, Refusal};

// The answer bytes of an accepted list with the share 8, and kept aside its numbers.
fn bytes(n: usize, segments: &[(u16, u16)], events: &[(u16, u16)]) -> Vec<u8> {
    let l = list(n, 8, segments, events);
    let got = l.compare();
    assert!(got.reply.is_ok());
    got.answers
}

fn refusal(l: &List) -> (usize, usize) {
    l.compare().reply.unwrap_err()
}

const TRIANGLE: [(u16, u16); 3] = [(0, 1), (1, 2), (2, 0)];

fn example(p: usize) -> List {
    let events = [(OPENS, 0), (OPENS, 1), (0, 2), (OPENS, 2), (0, 2)];
    list(3, p, &TRIANGLE, &events)
}

#[test]
fn the_example() {
    let got = example(8).compare();
    assert_eq!(got.answers, [3, 3, 1, 3, 2]);
    assert_eq!(got.names, [NO_NAME, NO_NAME, 0, NO_NAME, NO_NAME]);
    assert_eq!(got.reply, Ok((2, 3, 19)));
    let other = example(12).compare();
    assert_eq!(other.answers, got.answers);
    assert_eq!(other.reply, Ok((2, 3, 20)));
}

#[test]
fn a_junction_with_itself() {
    assert_eq!(bytes(2, &[], &[(1, 1)]), [2]);
}

#[test]
fn nothing_open() {
    assert_eq!(bytes(2, &[], &[(0, 1)]), [0]);
    assert_eq!(bytes(2, &[(0, 1)], &[(0, 1)]), [0]);
}

#[test]
fn one_segment_and_two() {
    assert_eq!(bytes(2, &[(0, 1)], &[(OPENS, 0), (0, 1)]), [3, 1]);
    // Two are one road, in either order of their ends.
    for second in [(0, 1), (1, 0)] {
        let segments = [(0, 1), second];
        assert_eq!(bytes(2, &segments, &[(OPENS, 0), (OPENS, 1), (0, 1)]), [3, 3, 1]);
    }
}

#[test]
fn a_road_of_two_segments() {
    // It is open while any of its segments is.
    let segments = [(0, 1), (1, 0)];
    let events = [(0, 1), (CLOSES, 0), (0, 1), (CLOSES, 1), (0, 1), (OPENS, 0), (0, 1)];
    let got = list(2, 8, &segments, &events).with_start(&[1, 1]).compare();
    assert_eq!(got.answers, [1, 3, 1, 3, 0, 3, 1]);
    // Its name is that of its first segment, closed or open.
    assert_eq!(got.names, [0, NO_NAME, 0, NO_NAME, NO_NAME, NO_NAME, 0]);
    assert_eq!(got.reply.map(|r| (r.0, r.1)), Ok((4, 1)));
    // What opens twice and what closes twice is a segment.
    assert_eq!(
        refusal(&list(2, 8, &segments, &[(CLOSES, 1)]).with_start(&[1, 0])),
        (7, 0)
    );
    assert_eq!(
        refusal(&list(2, 8, &segments, &[(OPENS, 0)]).with_start(&[1, 0])),
        (6, 0)
    );

    // Between other junctions there is a second way round, whichever road is lost.
    let segments = [(0, 1), (1, 2), (2, 0), (1, 0)];
    let query = list(3, 8, &segments, &[(0, 1)]).with_start(&[1, 1, 1, 1]).compare();
    assert_eq!((query.reply, query.answers), (Ok((1, 4, 1)), vec![2]));
    // A window that names one of the road's segments has no edge for it, though another stays open: 0 and 1 are two nodes.
    let opened = list(3, 8, &segments, &[(OPENS, 3)]).with_start(&[1, 1, 1, 0]).compare();
    assert_eq!(opened.reply, Ok((0, 4, 2)));
    // A road from a junction to itself.
    let rings = list(2, 8, &[(0, 0), (0, 0), (0, 1)], &[(0, 1)])
        .with_start(&[1, 1, 1])
        .compare();
    assert_eq!((rings.reply, rings.answers), (Ok((1, 3, 2)), vec![1]));
    // In a contraction two edges with the same ends are two roads.
    assert_eq!(graph(2, &[(0, 1), (1, 0)], &[0, 1]).compare().reply, Ok((1, 0)));
}

#[test]
fn the_road_that_an_answer_1_hangs_on() {
    // A row of five junctions with a ring in its middle: the ring's roads part nothing.
    let segments = [(3, 4), (1, 2), (2, 3), (3, 1), (0, 1), (1, 0)];
    let events = [
        (0, 4),
        (1, 4),
        (0, 1),
        (1, 3),
        (CLOSES, 3),
        (1, 4),
        (2, 3),
        (CLOSES, 5),
        (0, 4),
    ];
    let got = list(5, 8, &segments, &events).with_start(&[1, 1, 1, 1, 0, 1]).compare();
    assert_eq!(got.answers, [1, 1, 1, 2, 3, 1, 1, 3, 0]);
    assert_eq!(got.names, [0, 0, 4, NO_NAME, NO_NAME, 0, 2, NO_NAME, NO_NAME]);
    // A spliced edge takes the smallest name along it, and 65,535 is a name as any other.
    for (names, want) in [([9, 7, 8], 7), ([65535, 65535, 65535], 65535), ([3, 65535, 3], 3)] {
        let mut g = graph(4, &[(0, 1), (1, 2), (2, 3)], &[0, 3]);
        g.names = names.to_vec();
        g.out_names = vec![77; 5];
        let got = g.compare();
        assert_eq!((got.reply, got.out_names), (Ok((2, 1)), vec![want, 77, 77, 77, 77]));
    }
}

#[test]
fn short_tables_of_names() {
    let mut l = example(8);
    l.names.pop();
    assert_eq!(refusal(&l), (2, 0));
    let mut g = graph(3, &[(0, 1), (1, 2)], &[0, 2]);
    g.names.pop();
    assert_eq!(g.compare().reply, Err((2, 0)));
    g.names.push(5);
    g.out_names.pop();
    assert_eq!(g.compare().reply, Err((2, 0)));
    g.out_names.push(5);
    assert_eq!(g.compare().out_names, [0, 0, 0, 5]);
}

#[test]
fn a_segment_from_a_junction_to_itself() {
    assert_eq!(bytes(2, &[(0, 0)], &[(OPENS, 0), (0, 1)]), [3, 0]);
}

#[test]
fn a_path_is_contracted() {
    let got = graph(3, &[(0, 1), (1, 2)], &[0, 2]).compare();
    assert_eq!(got.reply, Ok((2, 1)));
    assert_eq!((got.out_from[0], got.out_to[0], got.out_names[0]), (0, 1, 0));
    assert_eq!(got.map, [0, 1]);
    assert_eq!(got.pieces, [0, 0]);
}

#[test]
fn a_star_is_contracted() {
    let got = graph(4, &[(3, 0), (3, 1), (3, 2)], &[0, 1, 2]).compare();
    assert_eq!(got.reply, Ok((4, 3)));
    assert_eq!(got.out_from[..3], [0, 1, 2]);
    assert_eq!(got.out_to[..3], [3, 3, 3]);
    assert_eq!(got.out_names[..3], [0, 1, 2]);
    assert_eq!(got.pieces, [0, 0, 0]);
}

#[test]
fn a_triangle_is_contracted() {
    let got = graph(3, &[(0, 1), (1, 2), (2, 0)], &[0, 1, 2]).compare();
    assert_eq!(got.reply, Ok((1, 0)));
    assert_eq!(got.map, [0, 0, 0]);
    assert_eq!(got.pieces, [0, 0, 0]);
}

#[test]
fn no_active_entries_and_repeated_ones() {
    assert_eq!(graph(3, &[(0, 1), (1, 2)], &[]).compare().reply, Ok((0, 0)));
    let got = graph(2, &[], &[1, 1]).compare();
    assert_eq!(got.reply, Ok((1, 0)));
    assert_eq!(got.map, [0, 0]);
    assert_eq!(got.pieces, [0, 0]);
}

// The reply and the pieces, out of a table that is filled with 9 and has one entry more than it must have.
fn pieces(n: usize, edges: &[(u16, u16)], active: &[u16]) -> ((usize, usize), Vec<u16>) {
    let mut g = graph(n, edges, active);
    g.pieces = vec![9; active.len() + 1];
    let got = g.compare();
    (got.reply.unwrap(), got.pieces)
}

#[test]
fn the_pieces() {
    // Two pieces that the entries meet in turn, the one of node 3 first.
    let two = pieces(4, &[(0, 2), (1, 3)], &[3, 0, 1, 2]);
    assert_eq!(two, ((4, 2), vec![0, 1, 0, 1, 9]));
    // A repeated entry has its piece again, and a node without an edge is a piece of its own.
    let repeated = pieces(3, &[(0, 1)], &[2, 1, 2, 0]);
    assert_eq!(repeated, ((3, 1), vec![0, 1, 0, 1, 9]));
    let alone = pieces(3, &[(1, 1)], &[2, 1, 0, 1]);
    assert_eq!(alone, ((3, 0), vec![0, 1, 2, 1, 9]));
    // One piece of two classes, joined over a node that is not active, beside one class.
    let edges = [(0, 1), (0, 1), (1, 2), (2, 3), (4, 5), (4, 5)];
    assert_eq!(pieces(6, &edges, &[5, 3, 0, 4]), ((3, 1), vec![0, 1, 1, 0, 9]));
    assert_eq!(pieces(2, &[(0, 1)], &[]), ((0, 0), vec![9]));
    assert_eq!(pieces(0, &[], &[]), ((0, 0), vec![9]));
}

#[test]
fn a_short_table_of_pieces() {
    let mut g = graph(2, &[], &[0, 1]);
    g.pieces = vec![9];
    let got = g.compare();
    assert_eq!((got.reply, got.pieces), (Err((2, 0)), vec![9]));
    assert_eq!(got.map, g.map);
    // It counts before an entry that is no node.
    g.active[0] = 2;
    assert_eq!(g.compare().reply, Err((2, 0)));
    g.pieces.push(9);
    assert_eq!(g.compare().reply, Err((8, 0)));
}

#[test]
fn the_shares() {
    for p in 0..20 {
        let reply = example(p).compare().reply;
        assert_eq!(reply.is_ok(), (4..=12).contains(&p));
        if let Err(e) = reply {
            assert_eq!(e, (3, 0));
        }
    }
}

#[test]
fn the_limits_of_a_replay() {
    let most = list(4096, 8, &vec![(0, 4095); 8192], &vec![(0, 4095); 4096]);
    // All segments are one road.
    for (entry, open, byte) in [(0, 0, 0), (1, 8192, 1)] {
        let got = most.clone().with_start(&[entry; 8192]).call();
        assert_eq!(got.reply.map(|r| (r.0, r.1)), Ok((4096, open)));
        assert!(got.answers.iter().all(|b| *b == byte));
    }
    assert!(list(4096, 8, &[], &[]).call().reply.is_ok());
    assert_eq!(list(4097, 8, &[], &[]).call().reply, Err((1, 0)));
    let mut more = most.clone();
    more.m += 1;
    assert_eq!(more.call().reply, Err((1, 0)));
    let mut more = most.clone();
    more.t += 1;
    assert_eq!(more.call().reply, Err((1, 0)));
}

#[test]
fn the_limits_of_a_contraction() {
    let most = graph(4096, &vec![(0, 4095); 8192], &vec![4095; 8192]);
    let got = most.call();
    assert_eq!(got.reply, Ok((1, 0)));
    assert!(got.pieces.iter().all(|p| *p == 0));
    // As many pieces as there can be.
    let apart: Vec<u16> = (0..8192).map(|i| 4095 - i % 4096).collect();
    let got = graph(4096, &vec![(7, 7); 8192], &apart).call();
    assert_eq!(got.reply, Ok((4096, 0)));
    assert!((0..8192).all(|i| got.pieces[i] as usize == i % 4096));
    for grow in [
        |g: &mut common::Graph| g.n += 1,
        |g: &mut common::Graph| g.m += 1,
        |g: &mut common::Graph| g.k += 1,
    ] {
        let mut more = most.clone();
        grow(&mut more);
        assert_eq!(more.call().reply, Err((1, 0)));
    }
}

#[test]
fn the_version() {
    assert_eq!(lumzhasel::version(), lumzhasel::VERSION);
}

#[test]
fn the_sizes() {
    let numbers = |n, m, t, k| check_sizes(n, m, t, k).map(|s| (s.n, s.m, s.t, s.k));
    assert_eq!(numbers(4096, 8192, 4096, 8192), Ok((4096, 8192, 4096, 8192)));
    assert_eq!(numbers(1, 2, 3, 4), Ok((1, 2, 3, 4)));
    let refused = Err(Error::Refused(Refusal {
        call: Call::Sizes,
        reason: Reason::Sizes,
        place: 0,
    }));
    assert_eq!(numbers(4097, 0, 0, 0), refused);
    assert_eq!(numbers(0, 8193, 0, 0), refused);
    assert_eq!(numbers(0, 0, 4097, 0), refused);
    assert_eq!(numbers(0, 0, 0, 8193), refused);
    assert_eq!(numbers(usize::MAX, usize::MAX, usize::MAX, usize::MAX), refused);
}

#[test]
fn an_empty_list() {
    assert_eq!(list(3, 8, &[(0, 1)], &[]).compare().reply, Ok((0, 0, 0)));
    assert_eq!(list(0, 8, &[], &[]).compare().reply, Ok((0, 0, 0)));
    let open = list(3, 8, &TRIANGLE, &[]).with_start(&[1, 0, 1]);
    assert_eq!(open.compare().reply, Ok((0, 2, 0)));
}

#[test]
fn open_at_the_start() {
    let closing = [(0, 2), (CLOSES, 2), (0, 2)];
    let got = list(3, 8, &TRIANGLE, &closing).with_start(&[1, 1, 1]).compare();
    assert_eq!((got.reply, got.answers), (Ok((2, 2, 9)), vec![2, 3, 1]));
    // No event names a segment.
    let got = list(3, 8, &TRIANGLE, &[(0, 2)]).with_start(&[1, 1, 1]).compare();
    assert_eq!((got.reply, got.answers), (Ok((1, 3, 1)), vec![2]));
    // A segment that is open at the start opens, and closes twice.
    let pair = |events: &[(u16, u16)]| list(2, 8, &[(0, 1)], events).with_start(&[1]);
    assert_eq!(refusal(&pair(&[(OPENS, 0)])), (6, 0));
    assert_eq!(refusal(&pair(&[(CLOSES, 0), (CLOSES, 0)])), (7, 1));
}

#[test]
fn starting_entries_above_1() {
    let wrong = list(3, 8, &TRIANGLE, &[(9, 9)]);
    assert_eq!(refusal(&wrong.clone().with_start(&[1, 2, 3])), (11, 1));
    assert_eq!(refusal(&wrong.clone().with_start(&[0, 1, 65535])), (11, 2));
    // An entry past the segments makes the table too long, whatever it is.
    assert_eq!(refusal(&wrong.clone().with_start(&[0, 1, 0, 2])), (12, 0));
    assert_eq!(refusal(&wrong.with_start(&[0, 1, 0, 0])), (12, 0));
}

#[test]
fn closed_and_open_segments() {
    assert_eq!(refusal(&list(2, 8, &[(0, 1)], &[(CLOSES, 0)])), (7, 0));
    assert_eq!(refusal(&list(2, 8, &[(0, 1)], &[(OPENS, 0), (OPENS, 0)])), (6, 1));
    assert_eq!(
        refusal(&list(2, 8, &[(0, 1)], &[(OPENS, 0), (CLOSES, 0), (CLOSES, 0)])),
        (7, 2)
    );
    assert_eq!(
        bytes(2, &[(0, 1)], &[(OPENS, 0), (CLOSES, 0), (OPENS, 0), (0, 1)]),
        [3, 3, 3, 1]
    );
}

#[test]
fn the_order_of_refusals() {
    // The second segment has the end that is no junction, the first the starting entry above 1.
    let mut l = list(2, 3, &[(0, 1), (0, 2)], &[(2, 0)]).with_start(&[2, 0]);
    l.work.pop();
    l.y.push(0);
    l.n = 4097;
    assert_eq!(refusal(&l), (1, 0));
    l.n = 2;
    assert_eq!(refusal(&l), (2, 0));
    l.work.push(0);
    assert_eq!(refusal(&l), (12, 0));
    l.y.pop();
    assert_eq!(refusal(&l), (3, 0));
    l.p = 4;
    assert_eq!(refusal(&l), (4, 1));
    l.b[1] = 1;
    assert_eq!(refusal(&l), (11, 0));
    l.start[0] = 1;
    assert_eq!(refusal(&l), (5, 0));
    l.x[0] = 1;
    assert!(l.compare().reply.is_ok());

    let mut g = graph(2, &[(0, 2)], &[1, 2]);
    assert_eq!(g.compare().reply, Err((4, 0)));
    g.to[0] = 1;
    assert_eq!(g.compare().reply, Err((8, 1)));
}

#[test]
fn the_reader() {
    let table = [3, 1, 2];
    for t in 0..6 {
        let part = answers(&table, t).unwrap();
        assert_eq!(part, if t <= 3 { &table[..t] } else { &table[..0] });
        assert_eq!(part.as_ptr(), table.as_ptr());
    }
    assert!(answers(&[], 0).unwrap().is_empty());
    assert!(answers(&table, usize::MAX).unwrap().is_empty());
}

#[test]
fn where_replays_go_astray() {
    // Unjoined junctions with open segments elsewhere.
    assert_eq!(
        bytes(4, &[(0, 1), (2, 3)], &[(OPENS, 0), (OPENS, 1), (0, 2)]),
        [3, 3, 0]
    );
    // A segment that is fixed before a window and closes in it.
    assert_eq!(
        bytes(2, &[(0, 1)], &[(OPENS, 0), (0, 1), (CLOSES, 0), (0, 1)]),
        [3, 1, 3, 0]
    );
    // An active node of degree 2 stays.
    assert_eq!(graph(3, &[(0, 1), (1, 2)], &[0, 1, 2]).compare().reply, Ok((3, 2)));
}

#[test]
fn a_refusal_in_words() {
    let refused = Refusal {
        call: Call::Replay,
        reason: Reason::OpenTwice,
        place: 4,
    };
    assert_eq!(refused.to_string(), "refused 6 at 4: the event opens an open segment");
    assert_eq!(Error::from(refused).to_string(), refused.to_string());
}
