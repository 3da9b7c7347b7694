//! Draws unjoined areas in different colours: the pieces of some junctions, one of them asked for twice.

use lumzhasel::{Error, Network};

fn main() -> Result<(), Error> {
    // Junctions 0, 2, 4 and 6 hang together, and so do 1, 3 and 5.
    let network = Network::with_segments(7, [(0, 2), (2, 4), (4, 0), (4, 6), (1, 3), (3, 5)]);
    let drawn = [6, 1, 0, 5, 6, 1];

    let small = network.contract(&drawn)?;
    for (junction, colour) in drawn.iter().zip(&small.pieces) {
        println!("junction {junction} colour {colour}");
    }
    Ok(())
}
