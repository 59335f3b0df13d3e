//! An independent answerer for lists of reports and for roll files.
//!
//! This file holds the public interface: what is handed in (`List`), what comes back (`Answer`,
//! `Reading`, `Carried`, `Written`), and the entry points for a plain list, for a roll, for the whole
//! input of the program, for the reading of a roll alone and for the writing of one.
//! The rules stand in `rules`, the rows are found in `spans`, rolls are read in `roll` and written in
//! `write`, which share nothing, and `check` tests an accepted answer against the definitions themselves.
#![forbid(unsafe_code)]
#![warn(missing_docs)]

pub mod check;
mod fraction;
mod roll;
mod rules;
mod spans;
mod write;

pub use roll::Carried;

/// The most reports a roll may carry.
const MOST_REPORTS: usize = 1_024;
/// Numbers in a row: first report, last report, start, end, operations.
const ROW_NUMBERS: usize = 5;
/// The longest input the program takes, in bytes.
const LONGEST_INPUT: usize = 65_536;

/// What is handed to the planner, or to the writer of rolls.
pub struct List<'a> {
    /// Arrival readings.
    pub arrivals: &'a [u32],
    /// Deadline readings.
    pub deadlines: &'a [u32],
    /// Operations of each report.
    pub operations: &'a [u32],
    /// The reference reading.
    pub reference: u32,
    /// P of the fastest pace P/Q.
    pub p: u32,
    /// Q of the fastest pace P/Q.
    pub q: u32,
    /// R and T of the slowest pace R/T, where one is given (W2). The writer does not look at it.
    pub floor: Option<(u32, u32)>,
    /// Length of the row buffer in 32-bit numbers. The writer has none, and does not look at it.
    pub room: usize,
}

/// Number, place, and the rows (empty on a refusal); a row is [first, last, start, end, operations].
#[derive(Clone, Debug, PartialEq, Eq)]
pub struct Answer {
    /// 0 for an accepted list, otherwise the number of the refusal.
    pub number: u32,
    /// The least report at fault, 0 where no report is.
    pub place: u64,
    /// The blocks in order.
    pub rows: Vec<[u32; 5]>,
}

/// What is read of a roll; on a refusal all but its number are 0, and there is no floor.
#[derive(Clone, Copy, Debug, Default, PartialEq, Eq)]
pub struct Reading {
    /// 0 for a roll that is read, otherwise the number of the refusal, 10 to 13.
    pub number: u32,
    /// The record count.
    pub count: u32,
    /// The reference reading.
    pub reference: u32,
    /// P of the fastest pace P/Q.
    pub p: u32,
    /// Q of the fastest pace P/Q.
    pub q: u32,
    /// R and T of the slowest pace R/T, in a roll marked "AF" alone.
    pub floor: Option<(u32, u32)>,
    /// Where the first record starts, or would, in bytes from the roll's first.
    pub at: usize,
    /// How many bytes the records have together.
    pub size: usize,
}

/// What the writer of rolls gives back, and what the buffer then holds.
#[derive(Clone, Debug, PartialEq, Eq)]
pub struct Written {
    /// 0 for a roll that is written, otherwise the number of the refusal: 1, 2, 4 or 15.
    pub number: u32,
    /// 0: no report is at fault.
    pub place: usize,
    /// How many bytes were written, 0 on a refusal.
    pub bytes: usize,
    /// The whole buffer.
    pub buffer: Vec<u8>,
}

/// Offsets of an accepted list, with its operations, its fastest pace and its slowest, for the checks.
pub struct Reports {
    /// Arrival offsets.
    pub arrival: Vec<u64>,
    /// Deadline offsets.
    pub deadline: Vec<u64>,
    /// Operations.
    pub operations: Vec<u64>,
    /// P of the fastest pace P/Q.
    pub p: u64,
    /// Q of the fastest pace P/Q.
    pub q: u64,
    /// R and T of the slowest pace R/T, where there is one.
    pub floor: Option<(u64, u64)>,
}

/// The answer that refuses with this number at this place.
fn refused(number: u32, place: u64) -> Answer {
    Answer {
        number,
        place,
        rows: Vec::new(),
    }
}

/// The answer for a plain list: rules 1 to 9 in order, with 16 and 17 of a floor directly after 4, each
/// over the whole list before the next; then the rows, which are the same with a floor and without.
pub fn answer_list(list: &List) -> Answer {
    match rules::refusal(list) {
        Some((number, place)) => refused(number, place),
        None => Answer {
            number: 0,
            place: 0,
            rows: spans::rows(&reports(list), false),
        },
    }
}

/// The answer for a roll: rules 10 to 13 first, then all others on the list in the roll.
pub fn answer_roll(roll: &[u8], room: usize) -> Answer {
    match roll::read(roll) {
        Err(number) => refused(number, 0),
        Ok(reading) => {
            let carried = list_in(roll, &reading);
            answer_list(&List {
                arrivals: &carried.arrivals,
                deadlines: &carried.deadlines,
                operations: &carried.operations,
                reference: reading.reference,
                p: reading.p,
                q: reading.q,
                floor: reading.floor,
                room,
            })
        }
    }
}

/// What the reader of rolls gives back: the trailer's numbers and where the records lie, by rules 10 to
/// 13 alone.
pub fn read_roll(roll: &[u8]) -> Reading {
    roll::read(roll).unwrap_or_else(|number| Reading {
        number,
        ..Reading::default()
    })
}

/// The list in a roll, of which this was read; empty where it was refused.
pub fn list_in(roll: &[u8], reading: &Reading) -> Carried {
    roll::carried(&roll[reading.at..][..reading.size])
}

/// What the writer of rolls gives back for this list, and what this buffer then holds, where the roll is
/// to stand from byte `at` on: refusals 1, 2, 4 (here for P or Q above 65,535 only) and 15, in this
/// order, no other.
pub fn write_roll(list: &List, buffer: &[u8], at: usize) -> Written {
    write::write(list, buffer, at)
}

/// What program `rollplan` prints for this input: refusal 14 before all others, row room for
/// 1,024 reports.
pub fn answer_program(input: &[u8]) -> Vec<u8> {
    let answer = if input.len() > LONGEST_INPUT {
        refused(14, 0)
    } else {
        answer_roll(input, ROW_NUMBERS * MOST_REPORTS)
    };
    let mut text = format!(
        "plan {} {} {}\n",
        answer.number,
        answer.place,
        answer.rows.len()
    );
    for [first, last, start, end, operations] in answer.rows {
        text.push_str(&format!("{first} {last} {start} {end} {operations}\n"));
    }
    text.into_bytes()
}

/// The offsets of the list's readings from its reference, modulo 2^32.
pub fn reports(list: &List) -> Reports {
    let offset = |reading: &u32| u64::from(reading.wrapping_sub(list.reference));
    Reports {
        arrival: list.arrivals.iter().map(offset).collect(),
        deadline: list.deadlines.iter().map(offset).collect(),
        operations: list.operations.iter().map(|&o| u64::from(o)).collect(),
        p: u64::from(list.p),
        q: u64::from(list.q),
        floor: list.floor.map(|(r, t)| (u64::from(r), u64::from(t))),
    }
}
