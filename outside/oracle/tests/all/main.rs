//! All tests of the oracle's public interface.

mod floor_rolls;
mod floors;
mod helpers;
mod plan_checks;
mod random;
mod readings;
mod refusals;
mod sizes;
mod slips;
mod sums;
mod table;
mod writings;
