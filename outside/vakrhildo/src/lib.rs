//! Vakrhildo for Rust: the proved planner, the roll's reader and its writer behind safe functions.
//!
//! `plan` takes three lists of readings, `plan_floor` the same with a slowest pace, `plan_roll` a roll; all
//! write rows of five numbers to the front of a buffer of the caller's and give back the number of rows,
//! or a refusal that has left the buffer as it was. `read` gives back the numbers of a roll's trailer and
//! the part of its bytes that holds the records. `write` writes the roll of three lists into a buffer of
//! bytes from a place on. Every input of whatever length and content is answered. `plan_raw`,
//! `plan_floor_raw`, `plan_roll_raw`, `read_raw` and `write_raw` give the library's own numbers, of which
//! the others make a `Result`. `Row::runs_at` is the pace that a row's reports run at under a floor.
#![warn(missing_docs)]

use std::fmt;

/// The most reports a list may have.
pub const REPORTS: usize = 1024;
/// Numbers of a row. A buffer of `ROW * REPORTS` numbers is long enough for the rows of every list.
pub const ROW: usize = 5;
/// Bytes of the longest roll that is written: a trailer of 16, and 12 for each report. A buffer with so
/// many behind the place is long enough for the roll of every list.
pub const ROLL: usize = 16 + 12 * REPORTS;

/// A refusal: its number, and the report it concerns, 0 where no report is.
#[derive(Clone, Copy, Debug, PartialEq, Eq)]
pub struct Refusal {
    /// The number of the rule that was given.
    pub number: u32,
    /// The report it concerns.
    pub place: usize,
}

impl Refusal {
    /// What the rule says. 4 is the planner's wording, and true of the writer's as well: a P or Q above
    /// 65,535 is outside. The writer does not give it for a P or Q of 0, which it writes.
    pub fn meaning(&self) -> &'static str {
        match self.number {
            1 => "the three lists differ in length",
            2 => "more than 1,024 reports",
            3 => "row buffer shorter than 5 times the reports",
            4 => "P or Q outside 1 to 65,535",
            5 => "operations 0 or above 65,535",
            6 => "arrival offset above 2,147,483,647",
            7 => "deadline offset above 2,147,483,647",
            8 => "arrival offset below that of the report before",
            9 => "no allowed plan for the reports up to this one",
            10 => "roll shorter than 16 bytes, or marked AF and shorter than 20",
            11 => "mark neither AQ nor AF",
            12 => "back distance is not 16 (AF: 20) + 12 times the count",
            13 => "back distance exceeds the roll's length",
            15 => "too little room in the buffer behind the place",
            16 => "R or T outside 1 to 65,535",
            17 => "R/T below P/Q",
            _ => "unknown refusal",
        }
    }
}

impl fmt::Display for Refusal {
    fn fmt(&self, f: &mut fmt::Formatter) -> fmt::Result {
        write!(
            f,
            "refusal {} at {}: {}",
            self.number,
            self.place,
            self.meaning()
        )
    }
}

impl std::error::Error for Refusal {}

/// A floor: no report runs slower than R/T, in ticks per operation.
#[derive(Clone, Copy, Debug, PartialEq, Eq)]
pub struct Floor {
    /// R of the slowest pace R/T.
    pub r: u32,
    /// T of the slowest pace R/T.
    pub t: u32,
}

/// A block: reports `first` to `last` run from tick `start` to tick `end` after the reference, at
/// (end - start) / operations ticks per operation. Under a floor they run at the faster of that pace and
/// R/T (`runs_at`), and may be done before `end`.
#[derive(Clone, Copy, Debug, PartialEq, Eq)]
pub struct Row {
    /// First report, counted from 0.
    pub first: u32,
    /// Last report.
    pub last: u32,
    /// Start offset.
    pub start: u32,
    /// End offset.
    pub end: u32,
    /// Operations of its reports together.
    pub operations: u32,
}

impl Row {
    /// The pace at which the reports of a planned row run under a floor, in ticks per operation, as a
    /// fraction of two whole numbers: the faster of the row's own, (end - start) / operations, and R/T.
    /// Each report starts at the later of its arrival and the finish of the report before, and finishes
    /// its operations times this pace later.
    ///
    /// ```
    /// use vakrhildo::{plan_floor, rows, Floor};
    ///
    /// let mut buffer = [0; 10];
    /// let floor = Floor { r: 3, t: 1 };
    /// let blocks = plan_floor(&[0, 0], &[4, 12], &[2, 2], 0, 1, 1, floor, &mut buffer)?;
    /// let run: Vec<_> = rows(&buffer, blocks).map(|row| row.runs_at(floor)).collect();
    /// // the first in two ticks an operation, from 0 to 4; the second in three and not four, from 4 to 10
    /// assert_eq!(run, [(4, 2), (3, 1)]);
    /// # Ok::<(), vakrhildo::Refusal>(())
    /// ```
    pub fn runs_at(&self, floor: Floor) -> (u32, u32) {
        let ticks = self.end.saturating_sub(self.start);
        let cross = |one: u32, other: u32| u64::from(one) * u64::from(other);
        if cross(ticks, floor.t) <= cross(floor.r, self.operations) {
            (ticks, self.operations)
        } else {
            (floor.r, floor.t)
        }
    }
}

/// The first `blocks` rows of a buffer; fewer where it is shorter.
pub fn rows(buffer: &[u32], blocks: usize) -> impl Iterator<Item = Row> + '_ {
    buffer.chunks_exact(ROW).take(blocks).map(|n| Row {
        first: n[0],
        last: n[1],
        start: n[2],
        end: n[3],
        operations: n[4],
    })
}

/// What is read of a roll: the trailer's numbers, and the part of the caller's bytes that holds the
/// records, 12 bytes each. Rules 1 to 9, 16 and 17 are not tried: the count may be up to 65,535, and P, Q,
/// R and T may be 0.
#[derive(Clone, Copy, Debug, PartialEq, Eq)]
pub struct Reading<'a> {
    /// The record count.
    pub count: u32,
    /// The reference.
    pub reference: u32,
    /// P of the fastest pace P/Q.
    pub p: u32,
    /// Q of the fastest pace P/Q.
    pub q: u32,
    /// The floor, which a roll marked AF has and one marked AQ has not.
    pub floor: Option<Floor>,
    /// The records.
    pub part: &'a [u8],
}

/// The library's own reply for a list (`answers::Reply`): all three numbers, as they came.
#[repr(C)]
#[derive(Clone, Copy, Debug, PartialEq, Eq)]
pub struct Reply {
    /// 0, a plan; else the refusal.
    pub number: u32,
    /// The report that a refusal concerns, 0 where no report is.
    pub place: usize,
    /// How many rows were written; 0 on a refusal.
    pub blocks: usize,
}

/// The library's own numbers of a roll (`roll::Numbers`), as they came; on a refusal all but the first
/// are 0.
#[repr(C)]
#[derive(Clone, Copy, Debug, PartialEq, Eq)]
pub struct Numbers {
    /// 0, or the refusal.
    pub number: u32,
    /// The record count.
    pub count: u32,
    /// The reference.
    pub reference: u32,
    /// P of the fastest pace P/Q.
    pub p: u32,
    /// Q of the fastest pace P/Q.
    pub q: u32,
    /// 1 where the roll is marked AF, 0 where it is marked AQ.
    pub floor: u32,
    /// R of the slowest pace R/T, 0 where there is none.
    pub r: u32,
    /// T of the slowest pace R/T, 0 where there is none.
    pub t: u32,
    /// Where the part with the records starts in the roll.
    pub at: usize,
    /// The bytes of that part.
    pub size: usize,
}

/// The library's own reply of the writer (`writer::WriteReply`): all three numbers, as they came.
#[repr(C)]
#[derive(Clone, Copy, Debug, PartialEq, Eq)]
pub struct WriteReply {
    /// 0, the roll is written; else the refusal: 1, 2, 4 or 15.
    pub number: u32,
    /// 0 always: no report is at fault.
    pub place: usize,
    /// How many bytes were written; 0 on a refusal.
    pub bytes: usize,
}

// The functions of crates/vakrhildo: a slice is a pointer and a length.
extern "C" {
    fn vakrhildo_plan(
        arrivals: *const u32,
        arrivals_length: usize,
        deadlines: *const u32,
        deadlines_length: usize,
        operations: *const u32,
        operations_length: usize,
        reference: u32,
        p: u32,
        q: u32,
        rows: *mut u32,
        rows_length: usize,
    ) -> Reply;

    fn vakrhildo_plan_floor(
        arrivals: *const u32,
        arrivals_length: usize,
        deadlines: *const u32,
        deadlines_length: usize,
        operations: *const u32,
        operations_length: usize,
        reference: u32,
        p: u32,
        q: u32,
        r: u32,
        t: u32,
        rows: *mut u32,
        rows_length: usize,
    ) -> Reply;

    fn vakrhildo_plan_roll(
        roll: *const u8,
        roll_length: usize,
        rows: *mut u32,
        rows_length: usize,
    ) -> Reply;

    fn vakrhildo_read(roll: *const u8, roll_length: usize) -> Numbers;

    fn vakrhildo_write(
        arrivals: *const u32,
        arrivals_length: usize,
        deadlines: *const u32,
        deadlines_length: usize,
        operations: *const u32,
        operations_length: usize,
        reference: u32,
        p: u32,
        q: u32,
        out: *mut u8,
        out_length: usize,
        at: usize,
    ) -> WriteReply;
}

/// How many rows or bytes were written, or the refusal.
fn written(number: u32, place: usize, many: usize) -> Result<usize, Refusal> {
    match number {
        0 => Ok(many),
        _ => Err(Refusal { number, place }),
    }
}

/// Plans a list: arrival and deadline readings, operations, the reference, P and Q of the fastest pace
/// P/Q. The rows stand at the front of `rows`; the numbers behind them stay as they were. There is no
/// floor: a report may be drawn out as far as its room allows.
pub fn plan(
    arrivals: &[u32],
    deadlines: &[u32],
    operations: &[u32],
    reference: u32,
    p: u32,
    q: u32,
    rows: &mut [u32],
) -> Result<usize, Refusal> {
    let reply = plan_raw(arrivals, deadlines, operations, reference, p, q, rows);
    written(reply.number, reply.place, reply.blocks)
}

/// Plans a list, as `plan` does: the library's own reply.
pub fn plan_raw(
    arrivals: &[u32],
    deadlines: &[u32],
    operations: &[u32],
    reference: u32,
    p: u32,
    q: u32,
    rows: &mut [u32],
) -> Reply {
    // Safety: each pointer and length is a slice's own, `rows` is borrowed alone, and the function
    // asks nothing else: its contract has no `requires`.
    unsafe {
        vakrhildo_plan(
            arrivals.as_ptr(),
            arrivals.len(),
            deadlines.as_ptr(),
            deadlines.len(),
            operations.as_ptr(),
            operations.len(),
            reference,
            p,
            q,
            rows.as_mut_ptr(),
            rows.len(),
        )
    }
}

/// Plans a list, as `plan` does, with a floor. Rule 16, R or T outside 1 to 65,535, and rule 17, R/T below
/// P/Q, are tried directly after 4; where neither is given, the result and the rows are those of `plan`.
/// What runs is not the rows: each report runs at the faster of its row's pace and R/T (`Row::runs_at`).
#[allow(clippy::too_many_arguments)] // the library's own, in its order
pub fn plan_floor(
    arrivals: &[u32],
    deadlines: &[u32],
    operations: &[u32],
    reference: u32,
    p: u32,
    q: u32,
    floor: Floor,
    rows: &mut [u32],
) -> Result<usize, Refusal> {
    let reply = plan_floor_raw(
        arrivals, deadlines, operations, reference, p, q, floor, rows,
    );
    written(reply.number, reply.place, reply.blocks)
}

/// Plans a list with a floor, as `plan_floor` does: the library's own reply.
#[allow(clippy::too_many_arguments)]
pub fn plan_floor_raw(
    arrivals: &[u32],
    deadlines: &[u32],
    operations: &[u32],
    reference: u32,
    p: u32,
    q: u32,
    floor: Floor,
    rows: &mut [u32],
) -> Reply {
    // Safety: as in `plan_raw`.
    unsafe {
        vakrhildo_plan_floor(
            arrivals.as_ptr(),
            arrivals.len(),
            deadlines.as_ptr(),
            deadlines.len(),
            operations.as_ptr(),
            operations.len(),
            reference,
            p,
            q,
            floor.r,
            floor.t,
            rows.as_mut_ptr(),
            rows.len(),
        )
    }
}

/// Plans the list in a roll: without a floor where it is marked AQ, with the trailer's where it is marked
/// AF.
pub fn plan_roll(roll: &[u8], rows: &mut [u32]) -> Result<usize, Refusal> {
    let reply = plan_roll_raw(roll, rows);
    written(reply.number, reply.place, reply.blocks)
}

/// Plans the list in a roll, as `plan_roll` does: the library's own reply.
pub fn plan_roll_raw(roll: &[u8], rows: &mut [u32]) -> Reply {
    // Safety: as in `plan_raw`.
    unsafe { vakrhildo_plan_roll(roll.as_ptr(), roll.len(), rows.as_mut_ptr(), rows.len()) }
}

/// Reads a roll: rules 10 to 13, then the trailer's numbers and the records, which are not copied.
pub fn read(roll: &[u8]) -> Result<Reading<'_>, Refusal> {
    let numbers = read_raw(roll);
    let (r, t) = (numbers.r, numbers.t);
    match numbers.number {
        0 => Ok(Reading {
            count: numbers.count,
            reference: numbers.reference,
            p: numbers.p,
            q: numbers.q,
            floor: (numbers.floor != 0).then_some(Floor { r, t }),
            part: &roll[numbers.at..numbers.at + numbers.size],
        }),
        number => Err(Refusal { number, place: 0 }),
    }
}

/// Reads a roll, as `read` does: the library's own numbers.
pub fn read_raw(roll: &[u8]) -> Numbers {
    // Safety: as in `plan_raw`.
    unsafe { vakrhildo_read(roll.as_ptr(), roll.len()) }
}

/// Writes the roll of a list into a buffer, from byte `at` on: the records, then the trailer. It gives
/// back how many bytes were written; the bytes before and behind them stay as they were, and on a
/// refusal all of them. `read` and `plan_roll` take `&out[..at + bytes]`, in which what stands before
/// `at` is the preface. Rules 1 and 2 are tried, 4 for a P or Q above 65,535, then 15, too little room
/// behind `at`; no other, so lists are written that have no plan. The roll is marked AQ: no floor is
/// written.
#[allow(clippy::too_many_arguments)] // the library's own, in its order
pub fn write(
    arrivals: &[u32],
    deadlines: &[u32],
    operations: &[u32],
    reference: u32,
    p: u32,
    q: u32,
    out: &mut [u8],
    at: usize,
) -> Result<usize, Refusal> {
    let reply = write_raw(arrivals, deadlines, operations, reference, p, q, out, at);
    written(reply.number, reply.place, reply.bytes)
}

/// Writes the roll of a list, as `write` does: the library's own reply.
#[allow(clippy::too_many_arguments)]
pub fn write_raw(
    arrivals: &[u32],
    deadlines: &[u32],
    operations: &[u32],
    reference: u32,
    p: u32,
    q: u32,
    out: &mut [u8],
    at: usize,
) -> WriteReply {
    // Safety: as in `plan_raw`, with `out` borrowed alone; `at` may be any number.
    unsafe {
        vakrhildo_write(
            arrivals.as_ptr(),
            arrivals.len(),
            deadlines.as_ptr(),
            deadlines.len(),
            operations.as_ptr(),
            operations.len(),
            reference,
            p,
            q,
            out.as_mut_ptr(),
            out.len(),
            at,
        )
    }
}
