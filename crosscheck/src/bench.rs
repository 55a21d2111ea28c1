//! The benchmark: the library, over the C boundary, beside the plain
//! implementation, on the same rows of events.

mod count;
mod measure;
mod programs;
mod random_mix;
mod rows;
mod sides;

pub use count::{count_once, counts, Counts, ONCE};
pub use measure::{Bench, Nanoseconds};
pub use rows::{rows, Row};
