//! An independent implementation of the engine, in plain Rust, written from document 01 and not
//! from the engine's code. The differential test holds the engine to it, and the benchmark compares
//! their times.

pub mod avoiders;
pub mod clock;
pub mod containment;
pub mod counting;
pub mod engine;
pub mod finder;
pub mod guarded;
pub mod inputs;
pub mod inversion_inputs;
pub mod inversions;
pub mod judging;
pub mod list_inputs;
pub mod listing;
pub mod model;
pub mod notation;
pub mod published;
pub mod random;
pub mod set_inputs;
pub mod table;
pub mod wellformed;
pub mod witness;
pub mod word;
pub mod worst;
