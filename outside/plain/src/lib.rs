//! Two plain planners, to be set beside the proved one, and makers of lists for a benchmark.
//!
//! Both planners take three lists of readings, the reference, P and Q, and a buffer for rows; both
//! return number, place and block count, by the rules of 01. `nested` is 01's search as worded,
//! quadratic at worst; `sweep` is the linear sweep with two hulls of document 001. Neither
//! allocates.

pub mod made;
pub mod nested;
mod rules;
pub mod sweep;

pub use nested::nested;
pub use sweep::sweep;
