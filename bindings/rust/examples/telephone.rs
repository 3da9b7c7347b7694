//! Two offices with the same list compare their answers by voice, and find by halving an event at which they differ.

use lumzhasel::{tables, Error, List, Network};

fn main() -> Result<(), Error> {
    let network = Network::with_segments(3, [(0, 1), (1, 2), (2, 0)]);
    let mut list = List::new();
    list.open(0).open(1).query(0, 2).open(2).query(0, 2);
    let ours = network.replay(&list)?;
    // The other office's bytes, with another answer to event 2.
    let theirs = [3, 3, 2, 3, 2];

    let events = theirs.len();
    println!(
        "{events} events: {} and {}",
        ours.check_number(events)?,
        tables::check_number(&theirs, events)?
    );
    // The numbers of the first `agree` bytes agree, those of the first `differ` do not.
    let (mut agree, mut differ) = (0, events);
    while differ - agree > 1 {
        let half = (agree + differ) / 2;
        if ours.check_number(half)? == tables::check_number(&theirs, half)? {
            agree = half;
        } else {
            differ = half;
        }
    }
    let our_byte = ours.answers[agree].map_or(tables::NO_QUERY, |answer| answer.byte());
    println!("the answers to event {agree} differ: {our_byte} and {}", theirs[agree]);
    Ok(())
}
