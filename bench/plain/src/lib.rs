//! What the plain programs share. They are the yardsticks of the benchmarks, so they are written
//! straight on, as one writes Rust that nobody proves.

pub mod chart;
pub mod draft;
pub mod gather;
pub mod order;
pub mod rows;
pub mod run;
pub mod writing;
