//! How much stack a call takes: the least stack, in steps of 4 KB, of a thread on which it returns. Each try is a process of its own, for
//! one that runs out of stack is ended by the system. With two words, a call and a number of KB, the program is such a try.

use bench::graphs::{graph, Shape};
use bench::lists::{list, Kind};
use bench::random::Random;
use bench::MOST_EVENTS;
use lumzhasel::tables::{self, ContractTables, ReplayJunctionsTables, ReplayTables};
use std::process::{Command, ExitCode, Stdio};
use std::thread;

/// Replays by their shares, those by the loss of a junction with a j before it, and the contraction.
const CALLS: [&str; 10] = [
    "nothing",
    "4",
    "5",
    "8",
    "12",
    "j4",
    "j5",
    "j8",
    "j12",
    "contraction",
];
const STEP: usize = 4;
/// Threads have at least 16 KB.
const LEAST: usize = 16;
const MOST: usize = 4096;

/// The full sizes. How deep a replay goes depends on the number of events and on the share alone.
fn replay(share: usize) -> impl FnOnce() + Send {
    let list = list(Kind::Fleet, MOST_EVENTS, &mut Random::new(1));
    let (n, m, t) = (list.n, list.m, list.events());
    let (mut answers, mut names) = (vec![0; t], vec![0; t]);
    let mut work = vec![0; tables::replay_work(n, m, t)];
    move || {
        let lent = ReplayTables {
            n,
            m,
            t,
            p: share,
            a: &list.a,
            b: &list.b,
            start: &list.start,
            x: &list.x,
            y: &list.y,
            answers: &mut answers,
            names: &mut names,
            work: &mut work,
        };
        tables::replay(lent).expect("the list is in order");
    }
}

/// The same by the loss of a junction.
fn replay_junctions(share: usize) -> impl FnOnce() + Send {
    let list = list(Kind::Fleet, MOST_EVENTS, &mut Random::new(1));
    let (n, m, t) = (list.n, list.m, list.events());
    let mut answers = vec![0; t];
    let mut work = vec![0; tables::replay_junctions_work(n, m, t)];
    move || {
        let lent = ReplayJunctionsTables {
            n,
            m,
            t,
            p: share,
            a: &list.a,
            b: &list.b,
            start: &list.start,
            x: &list.x,
            y: &list.y,
            answers: &mut answers,
            work: &mut work,
        };
        tables::replay_junctions(lent).expect("the list is in order");
    }
}

fn contract() -> impl FnOnce() + Send {
    let (n, m) = (4096, 8192);
    let g = graph(Shape::Random, n, &mut Random::new(1));
    let k = g.active.len();
    let (mut map, mut pieces) = (vec![0; k], vec![0; k]);
    let [mut from, mut to, mut names] = [0; 3].map(|_| vec![0; 2 * k]);
    let mut work = vec![0; tables::contract_work(n, m)];
    move || {
        let lent = ContractTables {
            n,
            m,
            k,
            from: &g.from,
            to: &g.to,
            names: &g.names,
            active: &g.active,
            map: &mut map,
            out_from: &mut from,
            out_to: &mut to,
            out_names: &mut names,
            pieces: &mut pieces,
            work: &mut work,
        };
        tables::contract(lent).expect("the graph is in order");
    }
}

/// Makes the call on a thread with so much stack; its tables are made outside it.
fn run(call: &str, kb: usize) {
    let call: Box<dyn FnOnce() + Send> = match call {
        "nothing" => Box::new(|| {}),
        "contraction" => Box::new(contract()),
        share => match share.strip_prefix('j') {
            Some(share) => Box::new(replay_junctions(share.parse().expect("a share"))),
            None => Box::new(replay(share.parse().expect("a share"))),
        },
    };
    let thread = thread::Builder::new().stack_size(kb * 1024).spawn(call);
    let ended = thread.expect("a thread").join();
    ended.expect("the call returns");
}

fn returns(call: &str, kb: usize) -> bool {
    let me = std::env::current_exe().expect("the program's own path");
    let status = Command::new(me)
        .args([call, &kb.to_string()])
        .stderr(Stdio::null())
        .status();
    status.expect("a process").success()
}

/// By halving: what is enough, and what is not.
fn least(call: &str) -> usize {
    let (mut not, mut enough) = (LEAST - STEP, MOST);
    while enough - not > STEP {
        let middle = (not + enough) / 2 / STEP * STEP;
        if returns(call, middle) {
            enough = middle;
        } else {
            not = middle;
        }
    }
    enough
}

fn main() -> ExitCode {
    let words: Vec<String> = std::env::args().skip(1).collect();
    match &words[..] {
        [] => {
            println!("| call at the full sizes | least stack of a thread, KB |\n|---|---|");
            for call in CALLS {
                let name = match call {
                    "nothing" => "none".to_string(),
                    "contraction" => "the contraction".to_string(),
                    share => match share.strip_prefix('j') {
                        Some(share) => {
                            format!("a replay by the loss of a junction with the share {share}")
                        }
                        None => format!("a replay with the share {share}"),
                    },
                };
                println!("| {name} | {} |", least(call));
            }
        }
        [call, kb] => run(call, kb.parse().expect("a number of KB")),
        _ => return ExitCode::from(2),
    }
    ExitCode::SUCCESS
}
