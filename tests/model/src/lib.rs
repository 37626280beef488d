//! A model of the module: what each call has to answer, and what the program replay has to print for a script. It follows documents 01 and 02
//! over another team's LSH (reference/lsh_ref), and has nothing of the module.
//!
//! Each file of src/calls has one kind of calls, and at its end the lines of a script that make them.

pub mod lsh;
pub mod record;
pub mod script;

// The modules of src/calls, and the lines of all of them.
include!(concat!(env!("OUT_DIR"), "/calls.rs"));

/// What a call gives, or the number that it refuses with.
pub type Answer<T> = Result<T, u32>;

/// The most bytes of a message or of an order.
pub const MOST_BYTES: u64 = 1 << 40;

/// A test of a call: it refuses with the number if the test does not hold.
pub fn needs(holds: bool, otherwise: u32) -> Answer<()> {
    if holds {
        Ok(())
    } else {
        Err(otherwise)
    }
}
