//! Document 01's example, a triangle whose segments open one after the other, with two queries of junctions 0 and 2:
//! prints what the program `replay` prints. An argument is taken as the share in the place of 8.

use lumzhasel::{Error, List, Network};
use std::process::ExitCode;

fn replay(share: usize) -> Result<(), Error> {
    let network = Network::with_segments(3, [(0, 1), (1, 2), (2, 0)]);
    let mut list = List::new().with_share(share);
    list.open(0).open(1).query(0, 2).open(2).query(0, 2);

    let replayed = network.replay(&list)?;
    for (event, answer) in replayed.queries() {
        println!("{event} {}", answer.byte());
    }
    let totals = replayed.totals;
    println!("asks {} open {} kept {}", totals.queries, totals.open, totals.kept);
    Ok(())
}

fn main() -> ExitCode {
    let share = std::env::args().nth(1).map_or(Ok(List::SHARE), |word| word.parse());
    let Ok(share) = share else {
        eprintln!("the share is a number");
        return ExitCode::from(2);
    };
    match replay(share) {
        Ok(()) => ExitCode::SUCCESS,
        Err(error) => {
            eprintln!("{error}");
            ExitCode::FAILURE
        }
    }
}
