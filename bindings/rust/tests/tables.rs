//! Each table one entry short, each one that a replay only reads one entry longer, tables filled with junk, and refusals that leave every table as it was.

mod common;

use common::{random_graph, random_list, Graph, List, Numbers};
use lumzhasel::tables::{CLOSES, OPENS};

#[test]
fn a_replay_with_one_table_short() {
    for seed in 0..200 {
        let mut r = Numbers::from(70_000 + seed);
        let mut l = random_list(&mut r, 6, 8, 12);
        l.answers = r.junk(l.answers.len()).iter().map(|v| *v as u8).collect();
        l.names = r.junk(l.names.len());
        l.work = r.junk(l.work.len()).iter().map(|v| *v as u32).collect();
        assert!(l.compare().reply.is_ok());
        let shorten: [fn(&mut List) -> bool; 8] = [
            |l| l.a.pop().is_some(),
            |l| l.b.pop().is_some(),
            |l| l.start.pop().is_some(),
            |l| l.x.pop().is_some(),
            |l| l.y.pop().is_some(),
            |l| l.answers.pop().is_some(),
            |l| l.names.pop().is_some(),
            |l| l.work.pop().is_some(),
        ];
        for pop in shorten {
            let mut short = l.clone();
            if pop(&mut short) {
                let got = short.compare();
                assert_eq!(got.reply, Err((2, 0)));
                assert_eq!((got.answers, got.names), (short.answers, short.names));
                assert_eq!(got.work, short.work);
            }
        }
    }
}

// A change of a list, and the number by which it is refused where that is before 12.
type Fault = (fn(&mut List), Option<usize>);

/// Each of the five tables longer, alone and beside every other refusal: 1 and 2 before it, the others behind it.
#[test]
fn a_replay_with_one_table_longer() {
    let lengthen: [fn(&mut List, u16); 5] = [
        |l, v| l.a.push(v),
        |l, v| l.b.push(v),
        |l, v| l.start.push(v),
        |l, v| l.x.push(v),
        |l, v| l.y.push(v),
    ];
    // A fault, and its refusal where that comes before 12.
    let faults: [Fault; 13] = [
        (|_| (), None),
        (|l| l.n = 4097, Some(1)),
        (|l| l.m = 8193, Some(1)),
        (|l| l.t = 4097, Some(1)),
        (|l| l.answers.truncate(l.t - 1), Some(2)),
        (|l| l.names.truncate(l.t - 1), Some(2)),
        (|l| l.work.truncate(l.required() - 1), Some(2)),
        (|l| l.p = 13, None),
        (|l| l.b[0] = 5000, None),
        (|l| l.start[0] = 2, None),
        (|l| l.x[0] = 5000, None),
        (|l| (l.start[0], l.x[0], l.y[0]) = (1, OPENS, 0), None),
        (|l| (l.start[0], l.x[0], l.y[0]) = (0, CLOSES, 0), None),
    ];
    let mut lists = 0;
    for seed in 0..300 {
        let mut r = Numbers::from(60_000 + seed);
        let mut l = random_list(&mut r, 6, 8, 12);
        if l.m == 0 || l.t == 0 {
            continue;
        }
        lists += 1;
        l.fill_with_junk(&mut r);
        for push in lengthen {
            for (spoil, before) in faults {
                let mut long = l.clone();
                spoil(&mut long);
                push(&mut long, r.below(65536) as u16);
                let got = long.compare();
                assert_eq!(got.reply, Err((before.unwrap_or(12), 0)));
                assert_eq!((got.answers, got.names), (long.answers, long.names));
                assert_eq!(got.work, long.work);
            }
        }
        // One of them longer and another one short.
        for short in 0..5 {
            for long in (0..5).filter(|&long| long != short) {
                let mut uneven = l.clone();
                lengthen[long](&mut uneven, 0);
                let l = &mut uneven;
                [&mut l.a, &mut l.b, &mut l.start, &mut l.x, &mut l.y][short].pop();
                assert_eq!(uneven.compare().reply, Err((2, 0)));
            }
        }
    }
    assert!(lists > 200, "{lists} lists have segments and events");
}

#[test]
fn a_contraction_with_one_table_short() {
    for seed in 0..200 {
        let mut r = Numbers::from(80_000 + seed);
        let mut g = random_graph(&mut r, 6, 8, 6);
        for table in [
            &mut g.map,
            &mut g.out_from,
            &mut g.out_to,
            &mut g.out_names,
            &mut g.pieces,
        ] {
            *table = r.junk(table.len());
        }
        g.work = r.junk(g.work.len()).iter().map(|v| *v as u32).collect();
        assert!(g.compare().reply.is_ok());
        let shorten: [fn(&mut Graph) -> bool; 10] = [
            |g| g.from.pop().is_some(),
            |g| g.to.pop().is_some(),
            |g| g.names.pop().is_some(),
            |g| g.active.pop().is_some(),
            |g| g.map.pop().is_some(),
            |g| g.out_from.pop().is_some(),
            |g| g.out_to.pop().is_some(),
            |g| g.out_names.pop().is_some(),
            |g| g.pieces.pop().is_some(),
            |g| g.work.pop().is_some(),
        ];
        for pop in shorten {
            let mut short = g.clone();
            if pop(&mut short) {
                let got = short.compare();
                assert_eq!(got.reply, Err((2, 0)));
                assert_eq!((got.map, got.work), (short.map, short.work));
                assert_eq!((got.out_from, got.out_to), (short.out_from, short.out_to));
                assert_eq!((got.out_names, got.pieces), (short.out_names, short.pieces));
            }
        }
    }
}

#[test]
fn junk_changes_no_answer() {
    for seed in 0..500 {
        let mut r = Numbers::from(90_000 + seed);
        let clean = random_list(&mut r, 8, 10, 16);
        let mut filled = clean.clone();
        filled.fill_with_junk(&mut r);
        let (plain, got) = (clean.compare(), filled.compare());
        assert_eq!(got.reply, plain.reply);
        assert_eq!(got.answers[..clean.t], plain.answers[..]);
        assert_eq!(got.answers[clean.t..], filled.answers[clean.t..]);
        assert_eq!(got.names[..clean.t], plain.names[..]);
        assert_eq!(got.names[clean.t..], filled.names[clean.t..]);
        let required = clean.work.len();
        assert!(got.work[..required].iter().all(|w| *w == 0));
        assert_eq!(got.work[required..], filled.work[required..]);
    }
}

#[test]
fn junk_changes_no_contraction() {
    for seed in 0..500 {
        let mut r = Numbers::from(100_000 + seed);
        let clean = random_graph(&mut r, 8, 9, 8);
        let mut filled = clean.clone();
        filled.fill_with_junk(&mut r);
        let (plain, got) = (clean.compare(), filled.compare());
        assert_eq!(got.reply, plain.reply);
        let (k, edges) = (clean.k, got.reply.unwrap().1);
        assert_eq!(got.map[..k], plain.map[..]);
        assert_eq!(got.map[k..], filled.map[k..]);
        assert_eq!(got.pieces[..k], plain.pieces[..]);
        assert_eq!(got.pieces[k..], filled.pieces[k..]);
        assert_eq!(got.out_from[..edges], plain.out_from[..edges]);
        assert_eq!(got.out_from[edges..], filled.out_from[edges..]);
        assert_eq!(got.out_to[..edges], plain.out_to[..edges]);
        assert_eq!(got.out_to[edges..], filled.out_to[edges..]);
        assert_eq!(got.out_names[..edges], plain.out_names[..edges]);
        assert_eq!(got.out_names[edges..], filled.out_names[edges..]);
    }
}

#[test]
fn refusals_change_nothing() {
    for seed in 0..500 {
        let mut r = Numbers::from(110_000 + seed);
        let mut l = random_list(&mut r, 6, 8, 12);
        l.fill_with_junk(&mut r);
        l.p = 3;
        let got = l.compare();
        assert_eq!(got.reply, Err((3, 0)));
        assert_eq!((got.answers, got.work), (l.answers.clone(), l.work.clone()));
        assert_eq!(got.names, l.names);
        l.p = 8;
        if l.t > 0 {
            // The last event names nothing, so that all others are looked at first.
            l.x[l.t - 1] = 5000;
            let got = l.compare();
            assert_eq!(got.reply, Err((5, l.t - 1)));
            assert_eq!((got.answers, got.work), (l.answers.clone(), l.work.clone()));
            assert_eq!(got.names, l.names);
        }
        if l.m > 0 {
            // Before every event, and after all other entries.
            l.start[l.m - 1] = 2 + r.below(65534) as u16;
            let got = l.compare();
            assert_eq!(got.reply, Err((11, l.m - 1)));
            assert_eq!((got.answers, got.names, got.work), (l.answers, l.names, l.work));
        }
        let mut g = random_graph(&mut r, 6, 8, 6);
        g.fill_with_junk(&mut r);
        if g.k > 0 {
            g.active[g.k - 1] = g.n as u16;
            let got = g.compare();
            assert_eq!(got.reply, Err((8, g.k - 1)));
            assert_eq!((got.map, got.work), (g.map, g.work));
            assert_eq!((got.out_from, got.out_to), (g.out_from, g.out_to));
            assert_eq!((got.out_names, got.pieces), (g.out_names, g.pieces));
        }
    }
}
