//! How the proved contraction's time grows with the graph, by the number of graphs that are contracted in turn:
//! nanoseconds a node, the least of nine rounds, each of which goes over all sizes and numbers. With few graphs the
//! processor learns their branches by heart.

use bench::graphs::{graph, Graph, Shape};
use bench::random::Random;
use lumzhasel::tables::{contract, contract_work, ContractTables};
use std::time::Instant;

const NODES: [usize; 4] = [512, 1024, 2048, 4096];
const TURNS: [usize; 7] = [1, 2, 4, 8, 16, 64, 256];
const ROUNDS: usize = 9;

fn nanoseconds_a_node(graphs: &[Graph]) -> f64 {
    let n = graphs[0].n;
    let (m, k) = (2 * n, n / 4);
    let (mut map, mut pieces) = (vec![0; k], vec![0; k]);
    let [mut from, mut to, mut names] = [0; 3].map(|_| vec![0; 2 * k]);
    let mut work = vec![0; contract_work(n, m)];
    let calls = (204_800 / n).div_ceil(graphs.len()) * graphs.len();
    let began = Instant::now();
    for g in graphs.iter().cycle().take(calls) {
        contract(ContractTables {
            n,
            m,
            k,
            from: &g.from,
            to: &g.to,
            names: &g.names,
            active: &g.active,
            map: &mut map,
            out_from: &mut from,
            out_to: &mut to,
            out_names: &mut names,
            pieces: &mut pieces,
            work: &mut work,
        })
        .expect("the graph is in order");
    }
    began.elapsed().as_nanos() as f64 / (calls * n) as f64
}

fn main() {
    let graphs = NODES.map(|n| {
        let mut random = Random::new(n as u64);
        let most = TURNS[TURNS.len() - 1];
        (0..most)
            .map(|_| graph(Shape::Random, n, &mut random))
            .collect::<Vec<_>>()
    });
    let mut least = [[f64::MAX; TURNS.len()]; NODES.len()];
    for _ in 0..ROUNDS {
        for (row, all) in least.iter_mut().zip(&graphs) {
            for (cell, turns) in row.iter_mut().zip(TURNS) {
                *cell = cell.min(nanoseconds_a_node(&all[..turns]));
            }
        }
    }
    println!("| n | {} |", TURNS.map(|t| t.to_string()).join(" | "));
    println!("|---|{}", "---|".repeat(TURNS.len()));
    for (n, row) in NODES.iter().zip(least) {
        println!("| {n} | {} |", row.map(|t| format!("{t:.0}")).join(" | "));
    }
}
