//! Networks and lists as values: document 01's example, random ones against the slow version, numbers that fit no table.

mod common;

use common::{random_graph, random_list, refusal, Graph, List, Numbers};
use lumzhasel::tables::{CLOSES, NO_NAME, OPENS};
use lumzhasel::{Answer, Call, Error, Event, Network, Reason, Refusal};

fn refused<T>(call: Call, reason: Reason, place: usize) -> Result<T, Error> {
    Err(Error::Refused(Refusal { call, reason, place }))
}

fn network(n: usize, from: &[u16], to: &[u16]) -> Network {
    let ends = from.iter().zip(to);
    Network::with_segments(n, ends.map(|(&u, &v)| (u.into(), v.into())))
}

fn event(x: u16, y: u16) -> Event {
    match x {
        OPENS => Event::Open(y.into()),
        CLOSES => Event::Close(y.into()),
        _ => Event::Query(x.into(), y.into()),
    }
}

// The same list by values and by the slow version; its tables are as long as their sizes say.
fn compare_list(l: &List) {
    let events = l.x.iter().zip(&l.y).map(|(&x, &y)| event(x, y));
    let list = lumzhasel::List::from_iter(events).with_share(l.p);
    let open = (0..l.m).filter(|&s| l.start[s] == 1);
    let got = network(l.n, &l.a, &l.b).with_open(open).replay(&list);
    let want = l.slow();
    match got {
        Err(e) => assert_eq!(Err(refusal(e)), want.reply, "{l:?}"),
        Ok(replayed) => {
            let totals = replayed.totals;
            assert_eq!(Ok((totals.queries, totals.open, totals.kept)), want.reply, "{l:?}");
            let bytes: Vec<u8> = replayed.answers.iter().map(|a| a.map_or(3, Answer::byte)).collect();
            assert_eq!(bytes, want.answers, "{l:?}");
            let road = |&name: &u16| (name != NO_NAME).then_some(usize::from(name));
            let names: Vec<Option<usize>> = want.names.iter().map(road).collect();
            assert_eq!(replayed.names, names, "{l:?}");
            let watched: Vec<usize> = replayed.watched().map(|(i, _)| i).collect();
            let once: Vec<usize> = (0..l.t).filter(|&i| want.answers[i] == 1).collect();
            assert_eq!(watched, once);
            let queries: Vec<usize> = replayed.queries().map(|(i, _)| i).collect();
            let asked: Vec<usize> = (0..l.t).filter(|&i| want.answers[i] != 3).collect();
            assert_eq!(queries, asked);
        }
    }
}

fn compare_graph(g: &Graph) {
    let active: Vec<usize> = g.active.iter().map(|&v| v.into()).collect();
    let got = network(g.n, &g.from, &g.to).contract_named(&active, &g.names);
    let want = g.slow();
    match got {
        Err(e) => assert_eq!(Err(refusal(e)), want.reply, "{g:?}"),
        Ok(small) => {
            assert_eq!(Ok((small.nodes, small.edges.len())), want.reply, "{g:?}");
            let map: Vec<u16> = small.map.iter().map(|&v| v as u16).collect();
            assert_eq!(map, want.map, "{g:?}");
            let pieces: Vec<u16> = small.pieces.iter().map(|&p| p as u16).collect();
            assert_eq!(pieces, want.pieces, "{g:?}");
            assert!((0..small.piece_count()).all(|p| small.pieces.contains(&p)), "{g:?}");
            assert!(small.pieces.iter().all(|&p| p < small.piece_count()), "{g:?}");
            for (i, &(u, v)) in small.edges.iter().enumerate() {
                assert_eq!((u as u16, v as u16), (want.out_from[i], want.out_to[i]), "{g:?}");
            }
            assert_eq!(small.names, want.out_names[..small.edges.len()], "{g:?}");
        }
    }
}

#[test]
fn the_example() {
    let mut network = Network::new(3);
    for (i, (u, v)) in [(0, 1), (1, 2), (2, 0)].into_iter().enumerate() {
        assert_eq!(network.add_segment(u, v), i);
    }
    assert_eq!((network.junctions(), network.segments().len()), (3, 3));
    let mut list = lumzhasel::List::new();
    list.open(0).open(1).query(0, 2).open(2).query(0, 2);
    let eight = network.replay(&list).unwrap();
    assert_eq!(
        eight.answers,
        [None, None, Some(Answer::JoinedOnce), None, Some(Answer::JoinedTwice)]
    );
    assert_eq!(eight.names, [None, None, Some(0), None, None]);
    assert_eq!(Vec::from_iter(eight.watched()), [(2, 0)]);
    assert_eq!((eight.totals.queries, eight.totals.open, eight.totals.kept), (2, 3, 19));
    let twelve = network.replay(&list.clone().with_share(12)).unwrap();
    assert_eq!((twelve.answers, twelve.totals.kept), (eight.answers, 20));
    assert_eq!(
        network.replay(&list.with_share(3)),
        refused(Call::Replay, Reason::Share, 0)
    );
}

#[test]
fn open_at_the_start() {
    let mut network = Network::new(3);
    for (u, v) in [(0, 1), (1, 2), (2, 0)] {
        let s = network.add_segment(u, v);
        network.open_at_start(s);
    }
    let triangle = Network::with_segments(3, network.segments().to_vec());
    assert_eq!(network, triangle.clone().with_open([2, 0, 1, 0]));
    let mut list = lumzhasel::List::new();
    list.query(0, 2).close(2).query(0, 2);
    let replayed = network.replay(&list).unwrap();
    let (twice, once) = (Answer::JoinedTwice, Answer::JoinedOnce);
    assert_eq!(replayed.answers, [Some(twice), None, Some(once)]);
    assert_eq!((replayed.totals.queries, replayed.totals.open), (2, 2));

    // Those that are named, and no other.
    let one = network.clone().with_open([1]);
    assert_eq!(one.start(), [false, true, false]);
    assert_eq!(one.replay(&list), refused(Call::Replay, Reason::NotOpen, 1));
    assert_eq!(one.with_open([]), triangle);
    assert_eq!(triangle.start(), [false; 3]);
    assert_eq!(network.contract(&[0, 1]), triangle.contract(&[0, 1]));
}

#[test]
#[should_panic(expected = "the network has no segment 1")]
fn a_segment_that_is_not_there() {
    let _ = Network::with_segments(2, [(0, 1)]).with_open([0, 1]);
}

#[test]
fn an_empty_list() {
    let empty = Network::default().replay(&lumzhasel::List::default()).unwrap();
    assert_eq!((empty.totals.queries, empty.totals.open, empty.totals.kept), (0, 0, 0));
    assert!(empty.answers.is_empty() && empty.names.is_empty());
}

#[test]
fn a_star_is_contracted() {
    let star = Network::with_segments(4, [(3, 0), (3, 1), (3, 2)]);
    let small = star.contract(&[0, 1, 2]).unwrap();
    assert_eq!((small.nodes, small.map), (4, vec![0, 1, 2]));
    assert_eq!(small.edges, [(0, 3), (1, 3), (2, 3)]);
    assert_eq!(small.names, [0, 1, 2]);
    let small = star.contract(&[]).unwrap();
    assert_eq!((small.nodes, small.edges.len(), small.map.len()), (0, 0, 0));
    assert_eq!((small.pieces.len(), small.piece_count()), (0, 0));
}

#[test]
fn names_of_a_contraction() {
    let row = Network::with_segments(4, [(2, 3), (0, 1), (1, 2)]);
    let own = row.contract(&[0, 3]).unwrap();
    assert_eq!((own.edges.as_slice(), own.names.as_slice()), (&[(0, 1)][..], &[0][..]));
    assert_eq!(row.contract_named(&[0, 3], &[0, 1, 2]), Ok(own));
    // More names than segments are no fault, fewer are.
    let given = row.contract_named(&[0, 2, 3], &[65535, 9, 7, 1]).unwrap();
    assert_eq!((given.edges, given.names), (vec![(0, 1), (1, 2)], vec![7, 65535]));
    assert_eq!(
        row.contract_named(&[0, 3], &[0, 1]),
        refused(Call::Contract, Reason::Short, 0)
    );
}

#[test]
fn unjoined_areas_have_different_pieces() {
    // Junctions 0, 2 and 4, then 1 and 3, then 5 alone.
    let network = Network::with_segments(6, [(0, 2), (2, 4), (1, 3)]);
    let small = network.contract(&[5, 3, 0, 1, 4, 5]).unwrap();
    assert_eq!(
        (small.pieces.as_slice(), small.piece_count()),
        (&[0, 1, 2, 1, 2, 0][..], 3)
    );
    // A piece without an active node has no number.
    let small = network.contract(&[4, 2]).unwrap();
    assert_eq!((small.pieces.as_slice(), small.piece_count()), (&[0, 0][..], 1));
}

#[test]
fn random_lists() {
    for seed in 0..2000 {
        let mut r = Numbers::from(200_000 + seed);
        compare_list(&random_list(&mut r, 7, 9, 14));
    }
    for seed in 0..20 {
        let mut r = Numbers::from(210_000 + seed);
        compare_list(&random_list(&mut r, 30, 40, 80));
    }
}

#[test]
fn random_graphs() {
    for seed in 0..2000 {
        let mut r = Numbers::from(220_000 + seed);
        compare_graph(&random_graph(&mut r, 9, 10, 8));
    }
}

#[test]
fn damaged_lists() {
    let mut seen = [0; 8];
    for seed in 0..4000 {
        let mut r = Numbers::from(230_000 + seed);
        let mut l = random_list(&mut r, 5, 6, 10);
        let value = [l.n, l.m, 65533, r.below(8), 4096][r.below(5)] as u16;
        match r.below(6) {
            0 => l.p = r.below(16),
            1 => l.n = 4097 + r.below(8),
            k => {
                let table = match k {
                    2 => &mut l.a,
                    3 => &mut l.x,
                    _ => &mut l.y,
                };
                if !table.is_empty() {
                    let place = r.below(table.len());
                    table[place] = value;
                }
            }
        }
        compare_list(&l);
        seen[l.slow().reply.map_or_else(|e| e.0, |_| 0)] += 1;
    }
    // No table can be too short here.
    assert_eq!(seen[2], 0);
    for code in [0, 1, 3, 4, 5, 6, 7] {
        assert!(seen[code] > 0, "a reply was never seen: {seen:?}");
    }
}

#[test]
fn damaged_graphs() {
    for seed in 0..2000 {
        let mut r = Numbers::from(240_000 + seed);
        let mut g = random_graph(&mut r, 6, 8, 8);
        let value = (g.n + r.below(2)) as u16;
        let table = match r.below(3) {
            0 => &mut g.from,
            1 => &mut g.to,
            _ => &mut g.active,
        };
        if !table.is_empty() {
            let place = r.below(table.len());
            table[place] = value;
        }
        compare_graph(&g);
    }
}

#[test]
fn numbers_that_fit_no_table() {
    for far in [4096, 65533, 65534, 65535, 65536, 65537, usize::MAX] {
        let pair = Network::with_segments(2, [(0, 1)]);
        let events = [
            Event::Query(far, 0),
            Event::Query(0, far),
            Event::Query(far, far),
            Event::Open(far),
            Event::Close(far),
        ];
        for event in events {
            let list = lumzhasel::List::from(vec![Event::Open(0), event]);
            assert_eq!(pair.replay(&list), refused(Call::Replay, Reason::Event, 1), "{event:?}");
        }
        let list = lumzhasel::List::new().with_share(far);
        assert_eq!(pair.replay(&list), refused(Call::Replay, Reason::Share, 0));
        assert_eq!(pair.contract(&[0, far]), refused(Call::Contract, Reason::Entry, 1));
        for ends in [(far, 0), (0, far)] {
            let torn = Network::with_segments(2, [(0, 1), ends]);
            assert_eq!(
                torn.replay(&lumzhasel::List::new()),
                refused(Call::Replay, Reason::End, 1)
            );
            assert_eq!(torn.contract(&[0]), refused(Call::Contract, Reason::End, 1));
        }
    }
}

#[test]
fn sizes_over_the_limits() {
    for n in [4097, 65536, usize::MAX] {
        assert_eq!(
            Network::new(n).replay(&lumzhasel::List::new()),
            refused(Call::Replay, Reason::Sizes, 0)
        );
        assert_eq!(Network::new(n).contract(&[]), refused(Call::Contract, Reason::Sizes, 0));
    }
    let many = Network::with_segments(1, vec![(0, 0); 8193]);
    assert_eq!(
        many.replay(&lumzhasel::List::new()),
        refused(Call::Replay, Reason::Sizes, 0)
    );
    let long = lumzhasel::List::from(vec![Event::Query(0, 1); 4097]);
    assert_eq!(Network::new(2).replay(&long), refused(Call::Replay, Reason::Sizes, 0));
    assert_eq!(
        Network::new(1).contract(&[0; 8193]),
        refused(Call::Contract, Reason::Sizes, 0)
    );
    let most = lumzhasel::List::from(vec![Event::Query(0, 1); 4096]);
    assert_eq!(Network::new(4096).replay(&most).unwrap().totals.queries, 4096);
}
