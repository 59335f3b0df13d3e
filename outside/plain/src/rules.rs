//! What the two planners share: rules 1 to 9 in 01's order, each over the whole list before the
//! next, the offsets they are about, and the writing of a row. How the blocks are found is handed
//! in, and is only asked once the list is known to have an allowed plan.

/// The most reports of a list.
pub const REPORTS: usize = 1024;
/// The most operations of a report.
const OPERATIONS: u32 = 65_535;
/// The largest usable offset.
const OFFSET: u32 = 2_147_483_647;
/// The largest P and Q.
const PACE: u32 = 65_535;

/// What is given beside the reports: the reference reading, and the fastest pace P/Q.
#[derive(Clone, Copy)]
pub struct Roll {
    pub reference: u32,
    pub p: u32,
    pub q: u32,
}

/// A list of reports by their offsets; the three parts are equally long.
#[derive(Clone, Copy)]
pub struct List<'a> {
    pub arrivals: &'a [u32],
    pub deadlines: &'a [u32],
    pub operations: &'a [u32],
}

/// Tries the rules in order; where none refuses, asks `blocks` for the rows and their count.
#[inline]
pub fn plan(
    arrivals: &[u32],
    deadlines: &[u32],
    operations: &[u32],
    roll: Roll,
    rows: &mut [u32],
    blocks: impl FnOnce(List, &mut [u32]) -> usize,
) -> (u32, usize, usize) {
    let n = arrivals.len();
    if deadlines.len() != n || operations.len() != n {
        return (1, 0, 0);
    }
    if n > REPORTS {
        return (2, 0, 0);
    }
    if rows.len() < 5 * n {
        return (3, 0, 0);
    }
    if !(1..=PACE).contains(&roll.p) || !(1..=PACE).contains(&roll.q) {
        return (4, 0, 0);
    }
    let mut arrival_offsets = [0; REPORTS];
    let mut deadline_offsets = [0; REPORTS];
    let list = List {
        arrivals: offsets(arrivals, roll.reference, &mut arrival_offsets),
        deadlines: offsets(deadlines, roll.reference, &mut deadline_offsets),
        operations,
    };
    match refusal(list, roll) {
        Some((number, place)) => (number, place, 0),
        None => (0, 0, blocks(list, rows)),
    }
}

/// The offsets of all readings, written at the front of `out`.
fn offsets<'a>(readings: &[u32], reference: u32, out: &'a mut [u32; REPORTS]) -> &'a [u32] {
    let out = &mut out[..readings.len()];
    for (offset, reading) in out.iter_mut().zip(readings) {
        *offset = reading.wrapping_sub(reference);
    }
    out
}

/// Rules 5 to 9: the number and the place of the first that refuses.
fn refusal(list: List, roll: Roll) -> Option<(u32, usize)> {
    let busy = |&operations: &u32| operations == 0 || operations > OPERATIONS;
    if let Some(place) = list.operations.iter().position(busy) {
        return Some((5, place));
    }
    if let Some(place) = list.arrivals.iter().position(|&offset| offset > OFFSET) {
        return Some((6, place));
    }
    if let Some(place) = list.deadlines.iter().position(|&offset| offset > OFFSET) {
        return Some((7, place));
    }
    if let Some(before) = list.arrivals.windows(2).position(|pair| pair[1] < pair[0]) {
        return Some((8, before + 1));
    }
    first_without_plan(list, roll).map(|place| (9, place))
}

/// The pass at the fastest pace, all times multiplied by Q: the first report whose finish is past
/// its deadline, if there is one.
fn first_without_plan(list: List, roll: Roll) -> Option<usize> {
    let (p, q) = (u64::from(roll.p), u64::from(roll.q));
    let mut finish = 0;
    let reports = list
        .arrivals
        .iter()
        .zip(list.deadlines)
        .zip(list.operations);
    for (place, ((&arrival, &deadline), &operations)) in reports.enumerate() {
        finish = finish.max(q * u64::from(arrival)) + p * u64::from(operations);
        if finish > q * u64::from(deadline) {
            return Some(place);
        }
    }
    None
}

/// Writes row `k`: first report, last report, start offset, end offset, operations.
#[inline]
pub fn put_row(rows: &mut [u32], k: usize, row: [u32; 5]) {
    rows[5 * k..5 * k + 5].copy_from_slice(&row);
}
