//! The vectors of the repository's test programs, through the calls on tables; the slow version must give them too.

mod common;

use common::{vectors, Graph, List, Numbers};

// What a vector lends, with junk in the tables that are written.
fn lent(r: &mut Numbers, v: &vectors::Replay) -> List {
    let [answers, names, work] = v.lengths;
    List {
        n: v.n,
        m: v.m,
        t: v.t,
        p: v.p,
        a: v.a.clone(),
        b: v.b.clone(),
        start: v.start.clone(),
        x: v.x.clone(),
        y: v.y.clone(),
        answers: r.junk(answers).iter().map(|v| *v as u8).collect(),
        names: r.junk(names),
        work: r.junk(work).iter().map(|v| *v as u32).collect(),
    }
}

fn run_replay(r: &mut Numbers, v: vectors::Replay) {
    let got = lent(r, &v).compare();
    assert_eq!(
        got.reply,
        v.reply.as_ref().map(|r| (r.queries, r.open, r.kept)).map_err(|e| *e)
    );
    if let Ok(want) = v.reply {
        assert_eq!(got.answers[..v.t], want.answers);
        if let Some(names) = want.names {
            assert_eq!(got.names[..v.t], names);
        }
    }
}

#[test]
fn replays() {
    let mut r = Numbers::from(300_000);
    let all = vectors::replays();
    assert_eq!(all.len(), 55);
    all.into_iter().for_each(|v| run_replay(&mut r, v));
}

// By the loss of a junction.
#[test]
fn junctions() {
    let mut r = Numbers::from(330_000);
    let all = vectors::junctions();
    assert_eq!(all.len(), 80);
    for v in all {
        let got = lent(&mut r, &v).compare_junctions();
        let want = v.reply.as_ref().map(|r| (r.queries, r.open)).map_err(|e| *e);
        assert_eq!(got.reply, want);
        if let Ok(want) = v.reply {
            assert_eq!(got.answers[..v.t], want.answers);
        }
    }
}

// The package has no program: what the program reads is lent to the call, and what it prints is held to the reply.
#[test]
fn programs() {
    let mut r = Numbers::from(310_000);
    let all = vectors::programs();
    assert_eq!(all.len(), 65);
    all.into_iter().for_each(|v| run_replay(&mut r, v));
}

fn run_contraction(r: &mut Numbers, v: vectors::Contraction) {
    let [map, out_from, out_to, out_names, pieces, work] = v.lengths;
    let g = Graph {
        n: v.n,
        m: v.m,
        k: v.k,
        from: v.from,
        to: v.to,
        names: v.names,
        active: v.active,
        map: r.junk(map),
        out_from: r.junk(out_from),
        out_to: r.junk(out_to),
        out_names: r.junk(out_names),
        pieces: r.junk(pieces),
        work: r.junk(work).iter().map(|v| *v as u32).collect(),
    };
    let got = g.compare();
    assert_eq!(
        got.reply,
        v.reply.as_ref().map(|r| (r.nodes, r.out_from.len())).map_err(|e| *e)
    );
    if let Ok(want) = v.reply {
        let edges = want.out_from.len();
        assert_eq!((&got.map[..v.k], &got.pieces[..v.k]), (&want.map[..], &want.pieces[..]));
        assert_eq!(
            (&got.out_from[..edges], &got.out_to[..edges]),
            (&want.out_from[..], &want.out_to[..])
        );
        assert_eq!(got.out_names[..edges], want.out_names);
    }
}

#[test]
fn contractions() {
    let mut r = Numbers::from(320_000);
    let all = vectors::contractions();
    assert_eq!(all.len(), 110);
    all.into_iter().for_each(|v| run_contraction(&mut r, v));
}
