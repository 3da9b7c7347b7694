//! What planners watch: beside each answer 1 the road that it hangs on, by its ends; then the open roads contracted to
//! the ends of the row, where the one edge has the smallest name along it.

use lumzhasel::{Error, Event, List, Network};

fn main() -> Result<(), Error> {
    // 0 - 1 - (2, 3) - 4, where 1, 2 and 3 are a ring. Segments 1 and 5 are one road, road 1, of which only segment 5 is
    // open at the start.
    let network =
        Network::with_segments(5, [(3, 4), (0, 1), (1, 2), (2, 3), (3, 1), (1, 0)]).with_open([0, 2, 3, 4, 5]);
    let mut list = List::new();
    list.query(0, 1).query(1, 3).query(0, 4).close(4).query(2, 1);

    let replayed = network.replay(&list)?;
    for (event, road) in replayed.watched() {
        if let Event::Query(u, v) = list.events()[event] {
            let (a, b) = network.segments()[road];
            println!("{u} to {v} hangs on road {road}, {a} to {b}");
        }
    }

    // One edge for each road that is open at the start, by its name.
    let roads = Network::with_segments(5, [(3, 4), (0, 1), (1, 2), (2, 3), (3, 1)]);
    let small = roads.contract(&[0, 4])?;
    for (&(u, v), name) in small.edges.iter().zip(&small.names) {
        println!("edge {u} to {v} has the name {name}");
    }
    Ok(())
}
