//! A flooded crossing: two rings of roads in a yard meet at junction 2, and one list is answered by the loss of a road and
//! by the loss of a junction.

use lumzhasel::{Answer, Error, Event, List, Network};

fn main() -> Result<(), Error> {
    // The rings 0, 1, 2 and 2, 3, 4; a road past the crossing, 1 to 3, which is closed at the start; and the only road to 5.
    let roads = [(0, 1), (1, 2), (2, 0), (2, 3), (3, 4), (4, 2), (1, 3), (4, 5)];
    let network = Network::with_segments(6, roads).with_open([0, 1, 2, 3, 4, 5, 7]);
    let mut list = List::new();
    list.query(0, 4).query(0, 2).query(4, 5).query(0, 5);
    list.open(6).query(0, 4).query(0, 5);

    let by_roads = network.replay(&list)?;
    let by_junctions = network.replay_junctions(&list)?;
    let answers = by_roads.answers.iter().zip(&by_junctions.answers);
    for (event, (road, junction)) in list.events().iter().zip(answers) {
        match event {
            Event::Query(u, v) => {
                let [road, junction] = [road, junction].map(|answer| answer.map_or(3, Answer::byte));
                println!("{u} to {v}: by roads {road}, by junctions {junction}");
            }
            Event::Open(s) => println!("segment {s} opens"),
            event => unreachable!("the list has no {event:?}"),
        }
    }
    let totals = by_junctions.totals;
    println!("{} queries, {} segments open at the end", totals.queries, totals.open);
    Ok(())
}
