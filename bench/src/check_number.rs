//! The check number in plain Rust.

use crate::{Refusal, MOST_EVENTS};

/// The check number of the first t bytes of a table.
pub fn check_number(table: &[u8], t: usize) -> Result<u32, Refusal> {
    if t > MOST_EVENTS {
        return Err(Refusal::new(1, 0));
    }
    let bytes = table.get(..t).ok_or(Refusal::new(2, 0))?;
    Ok(bytes.iter().fold(1, |h: u32, &a| {
        h.wrapping_mul(31).wrapping_add(u32::from(a) + 1)
    }))
}
