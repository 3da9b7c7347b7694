//! The kinds of the events in document 01's example, and of an X that is of no kind.

use lumzhasel::tables::{kind_of, Kind, OPENS};
use lumzhasel::Error;

fn main() -> Result<(), Error> {
    // The example's X, and junction 3, which the example does not have.
    for (event, x) in [OPENS, OPENS, 0, OPENS, 0, 3].into_iter().enumerate() {
        let word = match kind_of(x, 3)? {
            Kind::Query => "query",
            Kind::Opens => "opens",
            Kind::Closes => "closes",
            Kind::None => "none",
        };
        println!("event {event}: {word}");
    }
    Ok(())
}
