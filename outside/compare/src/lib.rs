//! Compares the library with the independent program (`oracle`): its planner on lists and on rolls, its
//! reader on rolls, its writer on lists, and the program `rollplan`. `case` says what is compared and how
//! a case is written down, `judge` compares one, `made` makes cases, `wrong` holds planners, readers and
//! writers that are wrong on purpose, so that the comparer is itself tested, and `tally` counts.
#![forbid(unsafe_code)]

pub mod case;
pub mod judge;
pub mod made;
pub mod tally;
pub mod wrong;
