//! The replay by the loss of a junction: the cases of its definition, random lists against a slow version that takes each
//! third junction away by its own search, all shares, refusals and tables, networks and lists as values, and what its
//! answers are beside those of the replay.

mod common;

use common::{damage, list, random_list, random_rings, refusal, vectors, List, Numbers};
use lumzhasel::tables::{replay_junctions_work, replay_work, CLOSES, OPENS};
use lumzhasel::{Answer, Call, Error, Event, Network, Reason, Refusal};

// The answer bytes of an accepted list with the share 8 and these segments open at the start.
fn bytes(n: usize, segments: &[(u16, u16)], start: &[u16], events: &[(u16, u16)]) -> Vec<u8> {
    let l = list(n, 8, segments, events).with_start(start).for_junctions();
    let got = l.compare_junctions();
    assert!(got.reply.is_ok());
    got.answers
}

// Two rings that share junction 2.
const RINGS: [(u16, u16); 6] = [(0, 1), (1, 2), (2, 0), (2, 3), (3, 4), (4, 2)];

#[test]
fn the_example() {
    let events = [(OPENS, 0), (OPENS, 1), (0, 2), (OPENS, 2), (0, 2)];
    for p in 4..=12 {
        let l = list(3, p, &[(0, 1), (1, 2), (2, 0)], &events).for_junctions();
        let got = l.compare_junctions();
        assert_eq!((got.answers, got.reply), (vec![3, 3, 1, 3, 2], Ok((2, 3))));
    }
}

#[test]
fn a_row_and_its_neighbours() {
    assert_eq!(
        bytes(3, &[(0, 1), (1, 2)], &[1, 1], &[(0, 2), (0, 1), (2, 1)]),
        [1, 2, 2]
    );
    // Two segments between the same two are one road, in either order of their ends.
    let double = [(0, 1), (1, 0), (1, 2)];
    assert_eq!(
        bytes(3, &double, &[1; 3], &[(0, 1), (0, 2), (CLOSES, 0), (0, 1)]),
        [2, 1, 3, 2]
    );
}

#[test]
fn rings() {
    let ring = [(0, 1), (1, 2), (2, 3), (3, 0)];
    assert_eq!(bytes(4, &ring, &[1; 4], &[(0, 2), (CLOSES, 3), (0, 2)]), [2, 3, 1]);
    // A flooded crossing parts two rings that share it, though no road does; along one ring nothing does.
    let events = [(0, 3), (4, 0), (0, 1), (2, 4)];
    assert_eq!(bytes(5, &RINGS, &[1; 6], &events), [1, 1, 2, 2]);
    let l = list(5, 8, &RINGS, &events).with_start(&[1; 6]);
    assert_eq!(l.compare().answers, [2, 2, 2, 2]);
}

#[test]
fn nothing_between() {
    assert_eq!(bytes(2, &[], &[], &[(1, 1), (0, 1)]), [2, 0]);
    assert_eq!(bytes(4, &[(0, 1), (2, 3)], &[1, 1], &[(0, 3)]), [0]);
    // A segment from a junction to itself joins nothing.
    assert_eq!(bytes(2, &[(0, 0)], &[0], &[(OPENS, 0), (0, 1), (0, 0)]), [3, 0, 2]);
    let empty = list(0, 8, &[], &[]).for_junctions().compare_junctions();
    assert_eq!(empty.reply, Ok((0, 0)));
}

#[test]
fn random_lists() {
    let mut seen = [0; 4];
    for seed in 0..4000 {
        let mut r = Numbers::from(400_000 + seed);
        let mut l = random_list(&mut r, 7, 10, 16).for_junctions();
        l.fill_with_junk(&mut r);
        let got = l.compare_junctions();
        assert!(got.reply.is_ok());
        got.answers[..l.t].iter().for_each(|&a| seen[a as usize] += 1);
    }
    assert!(seen.iter().all(|k| *k > 100), "an answer was hardly seen: {seen:?}");
    for seed in 0..60 {
        let mut r = Numbers::from(410_000 + seed);
        let l = random_list(&mut r, 24, 34, 90).for_junctions();
        assert!(l.compare_junctions().reply.is_ok());
    }
    for seed in 0..4 {
        let mut r = Numbers::from(420_000 + seed);
        let l = random_list(&mut r, 120, 160, 400).for_junctions();
        assert!(l.compare_junctions().reply.is_ok());
    }
}

// Rings that share crossings, which lists of random segments hardly have.
#[test]
fn random_lists_of_rings() {
    for seed in 0..2000 {
        let mut r = Numbers::from(425_000 + seed);
        let mut l = random_rings(&mut r, 4, 3, 16).for_junctions();
        l.fill_with_junk(&mut r);
        assert!(l.compare_junctions().reply.is_ok());
    }
    for seed in 0..60 {
        let mut r = Numbers::from(427_000 + seed);
        let l = random_rings(&mut r, 12, 6, 90).for_junctions();
        assert!(l.compare_junctions().reply.is_ok());
    }
    for seed in 0..4 {
        let mut r = Numbers::from(429_000 + seed);
        let l = random_rings(&mut r, 40, 20, 400).for_junctions();
        assert!(l.compare_junctions().reply.is_ok());
    }
}

#[test]
fn shares_change_nothing() {
    for seed in 0..400 {
        let mut r = Numbers::from(430_000 + seed);
        let l = match seed % 2 {
            0 => random_list(&mut r, 12, 18, 40),
            _ => random_rings(&mut r, 6, 4, 40),
        };
        let mut l = l.for_junctions();
        l.fill_with_junk(&mut r);
        let first = l.compare_junctions();
        for p in 4..=12 {
            l.p = p;
            assert_eq!(l.call_junctions(), first, "{l:?}");
        }
    }
}

// What the answers are beside those of the replay: the same 0, and a 2 in the place of a 1 just where a road runs between
// the two and there is no way round it.
#[test]
fn beside_the_replay() {
    let mut seen = [[0; 3]; 3];
    for seed in 0..2000 {
        let mut r = Numbers::from(440_000 + seed);
        let l = match seed % 2 {
            0 => random_list(&mut r, 8, 11, 20),
            _ => random_rings(&mut r, 4, 3, 20),
        };
        let roads = l.call();
        let junctions = l.clone().for_junctions().call_junctions();
        assert_eq!(roads.reply.map(|(queries, open, _)| (queries, open)), junctions.reply);
        for i in 0..l.t {
            let (by_roads, by_junctions) = (roads.answers[i], junctions.answers[i]);
            assert_eq!(by_roads == 3, by_junctions == 3, "{l:?}");
            if by_roads == 3 {
                continue;
            }
            assert_eq!(by_roads == 0, by_junctions == 0, "{l:?}");
            if (by_roads, by_junctions) == (1, 2) {
                let road = roads.names[i] as usize;
                let ends = [(l.a[road], l.b[road]), (l.b[road], l.a[road])];
                assert!(ends.contains(&(l.x[i], l.y[i])), "{l:?}");
            }
            seen[by_roads as usize][by_junctions as usize] += 1;
        }
    }
    for pair in [(0, 0), (1, 1), (1, 2), (2, 1), (2, 2)] {
        assert!(
            seen[pair.0][pair.1] > 0,
            "two answers were never seen together: {seen:?}"
        );
    }
}

// The inputs of the repository's test programs, with a work table that is long enough: the refusals of a list are those
// that the replay has.
#[test]
fn inputs_of_the_vectors() {
    let mut r = Numbers::from(450_000);
    let all = vectors::replays().into_iter().chain(vectors::programs());
    let mut refused = 0;
    for v in all {
        let [answers, names, work] = v.lengths;
        let answers = r.junk(answers).iter().map(|v| *v as u8).collect();
        let of_replay = work >= replay_work(v.n, v.m, v.t) && names >= v.t;
        let long = if v.n > 4096 || v.m > 8192 || v.t > 4096 {
            work
        } else {
            replay_junctions_work(v.n, v.m, v.t)
        };
        let l = List {
            n: v.n,
            m: v.m,
            t: v.t,
            p: v.p,
            a: v.a,
            b: v.b,
            start: v.start,
            x: v.x,
            y: v.y,
            answers,
            names: Vec::new(),
            work: r.junk(long).iter().map(|v| *v as u32).collect(),
        };
        let got = l.compare_junctions();
        if of_replay {
            let want = v.reply.as_ref().map(|r| (r.queries, r.open)).map_err(|e| *e);
            assert_eq!(got.reply, want, "{l:?}");
            refused += usize::from(want.is_err());
        }
    }
    assert!(refused > 20, "{refused} of the inputs were refused");
}

#[test]
fn one_table_short() {
    for seed in 0..200 {
        let mut r = Numbers::from(460_000 + seed);
        let mut l = random_list(&mut r, 6, 8, 12).for_junctions();
        l.answers = r.junk(l.answers.len()).iter().map(|v| *v as u8).collect();
        l.work = r.junk(l.work.len()).iter().map(|v| *v as u32).collect();
        // No name is lent, and none is missed.
        assert!(l.names.is_empty());
        assert!(l.compare_junctions().reply.is_ok());
        let shorten: [fn(&mut List) -> bool; 7] = [
            |l| l.a.pop().is_some(),
            |l| l.b.pop().is_some(),
            |l| l.start.pop().is_some(),
            |l| l.x.pop().is_some(),
            |l| l.y.pop().is_some(),
            |l| l.answers.pop().is_some(),
            |l| l.work.pop().is_some(),
        ];
        for pop in shorten {
            let mut short = l.clone();
            if pop(&mut short) {
                let got = short.compare_junctions();
                assert_eq!(got.reply, Err((2, 0)));
                assert_eq!((got.answers, got.work), (short.answers, short.work));
            }
        }
        // A work table that is long enough for the replay.
        if l.t > 0 {
            l.work.truncate(l.required());
            let got = l.compare_junctions();
            assert_eq!(got.reply, Err((2, 0)));
            assert_eq!((got.answers, got.work), (l.answers, l.work));
        }
    }
}

#[test]
fn one_table_longer() {
    for seed in 0..100 {
        let mut r = Numbers::from(470_000 + seed);
        let mut l = random_list(&mut r, 6, 8, 12).for_junctions();
        l.fill_with_junk(&mut r);
        // A table that is only read, alone and beside a work table too short, which comes first, and a share, which does not.
        for table in 0..5 {
            let mut long = l.clone();
            let value = r.below(65536) as u16;
            [&mut long.a, &mut long.b, &mut long.start, &mut long.x, &mut long.y][table].push(value);
            long.p = 3;
            let got = long.compare_junctions();
            assert_eq!(got.reply, Err((12, 0)));
            assert_eq!((&got.answers, &got.work), (&long.answers, &long.work));
            long.work.truncate(long.required_by_junctions() - 1);
            assert_eq!(long.compare_junctions().reply, Err((2, 0)));
        }
    }
}

#[test]
fn refusals_change_nothing() {
    for seed in 0..300 {
        let mut r = Numbers::from(480_000 + seed);
        let mut l = random_list(&mut r, 6, 8, 12).for_junctions();
        l.fill_with_junk(&mut r);
        let untouched = |l: &List, refused: (usize, usize)| {
            let got = l.compare_junctions();
            assert_eq!(got.reply, Err(refused));
            assert_eq!((&got.answers, &got.work), (&l.answers, &l.work));
        };
        l.p = 13;
        untouched(&l, (3, 0));
        l.p = 8;
        if l.t > 0 {
            // The last event names nothing, so that all others are looked at first.
            l.x[l.t - 1] = 5000;
            untouched(&l, (5, l.t - 1));
        }
        if l.m > 0 {
            // Before every event, and after all other entries.
            l.start[l.m - 1] = 2 + r.below(65534) as u16;
            untouched(&l, (11, l.m - 1));
            l.b[0] = l.n as u16;
            untouched(&l, (4, 0));
        }
        l.n = 4097;
        untouched(&l, (1, 0));
    }
}

#[test]
fn damaged_lists() {
    let mut seen = [0; 13];
    for seed in 0..6000 {
        let mut r = Numbers::from(490_000 + seed);
        let mut l = random_list(&mut r, 5, 6, 10).for_junctions();
        l.fill_with_junk(&mut r);
        for _ in 0..1 + r.below(2) {
            damage(&mut l, &mut r);
        }
        let got = l.compare_junctions();
        seen[got.reply.map_or_else(|e| e.0, |_| 0)] += 1;
    }
    for code in (0..8).chain([11, 12]) {
        assert!(seen[code] > 0, "a reply was never seen: {seen:?}");
    }
}

// ---- as values

fn refused<T>(reason: Reason, place: usize) -> Result<T, Error> {
    let call = Call::ReplayJunctions;
    Err(Error::Refused(Refusal { call, reason, place }))
}

fn event(x: u16, y: u16) -> Event {
    match x {
        OPENS => Event::Open(y.into()),
        CLOSES => Event::Close(y.into()),
        _ => Event::Query(x.into(), y.into()),
    }
}

// The same list by values and by the slow version; its tables are as long as their sizes say.
fn compare_values(l: &List) {
    let events = l.x.iter().zip(&l.y).map(|(&x, &y)| event(x, y));
    let list = lumzhasel::List::from_iter(events).with_share(l.p);
    let ends = l.a.iter().zip(&l.b).map(|(&u, &v)| (u.into(), v.into()));
    let open = (0..l.m).filter(|&s| l.start[s] == 1);
    let network = Network::with_segments(l.n, ends).with_open(open);
    let want = l.slow_junctions();
    match network.replay_junctions(&list) {
        Err(e) => assert_eq!(Err(refusal(e)), want.reply, "{l:?}"),
        Ok(got) => {
            assert_eq!(Ok((got.totals.queries, got.totals.open)), want.reply, "{l:?}");
            let bytes: Vec<u8> = got.answers.iter().map(|a| a.map_or(3, Answer::byte)).collect();
            assert_eq!(bytes, want.answers, "{l:?}");
            let queries: Vec<(usize, u8)> = got.queries().map(|(i, a)| (i, a.byte())).collect();
            let asked = (0..l.t).filter(|&i| bytes[i] != 3).map(|i| (i, bytes[i]));
            assert_eq!(queries, Vec::from_iter(asked));
            let number = bytes
                .iter()
                .fold(1u32, |h, &a| h.wrapping_mul(31).wrapping_add(u32::from(a) + 1));
            assert_eq!(got.check_number(l.t), Ok(number));
        }
    }
}

#[test]
fn networks_and_lists() {
    for seed in 0..2000 {
        let mut r = Numbers::from(500_000 + seed);
        let mut l = random_list(&mut r, 7, 9, 14).for_junctions();
        compare_values(&l);
        // One entry of another value.
        let value = [l.n, l.m, 65533, r.below(8), 4096][r.below(5)] as u16;
        let table = match r.below(3) {
            0 => &mut l.a,
            1 => &mut l.x,
            _ => &mut l.y,
        };
        if !table.is_empty() {
            let place = r.below(table.len());
            table[place] = value;
            compare_values(&l);
        }
    }
}

#[test]
fn refusals_of_values() {
    let pair = Network::with_segments(2, [(0, 1)]);
    let list = lumzhasel::List::from(vec![Event::Open(0), Event::Query(0, 2)]);
    assert_eq!(pair.replay_junctions(&list), refused(Reason::Event, 1));
    let list = lumzhasel::List::new().with_share(3);
    assert_eq!(pair.replay_junctions(&list), refused(Reason::Share, 0));
    let list = lumzhasel::List::from(vec![Event::Open(0), Event::Open(0)]);
    assert_eq!(pair.replay_junctions(&list), refused(Reason::OpenTwice, 1));
    let list = lumzhasel::List::from(vec![Event::Close(0)]);
    assert_eq!(pair.replay_junctions(&list), refused(Reason::NotOpen, 0));
    let torn = Network::with_segments(2, [(0, 1), (1, 2)]);
    let error = torn.replay_junctions(&lumzhasel::List::new());
    assert_eq!(error, refused(Reason::End, 1));
    assert_eq!(
        error.unwrap_err().to_string(),
        "refused 4 at 1: an end of the segment is no junction"
    );
    for n in [4097, usize::MAX] {
        let wide = Network::new(n).replay_junctions(&lumzhasel::List::new());
        assert_eq!(wide, refused(Reason::Sizes, 0));
    }
    let long = lumzhasel::List::from(vec![Event::Query(0, 1); 4097]);
    assert_eq!(pair.replay_junctions(&long), refused(Reason::Sizes, 0));
    let most = lumzhasel::List::from(vec![Event::Query(0, 1); 4096]);
    assert_eq!(pair.replay_junctions(&most).unwrap().totals.queries, 4096);
}

// How deep a replay goes depends on the number of events and on the share alone.
#[test]
fn the_stack_that_is_named_is_enough() {
    let segments: Vec<(u16, u16)> = (0..8192).map(|s| (s % 4096, (s + s / 4096 + 1) % 4096)).collect();
    let events: Vec<(u16, u16)> = (0..4096)
        .map(|i| if i % 2 == 0 { (OPENS, i) } else { (i, i - 1) })
        .collect();
    for p in 4..=12 {
        let most = list(4096, p, &segments, &events).for_junctions();
        let run = move || most.call_junctions().reply.is_ok();
        let thread = std::thread::Builder::new().stack_size(64 * 1024).spawn(run).unwrap();
        assert!(thread.join().unwrap());
    }
}
