//! The nested search of 01 ("Blocks"), as worded: an outer loop over block starts and, for each, an
//! inner loop over reports with the last least high and the last greatest low so far. Paces are
//! compared by cross products. Quadratic in the reports at worst.

use crate::rules::{self, put_row, List, Roll};

/// Plans a list; gives number, place and block count, and writes the rows of an accepted list.
pub fn nested(
    arrivals: &[u32],
    deadlines: &[u32],
    operations: &[u32],
    reference: u32,
    p: u32,
    q: u32,
    rows: &mut [u32],
) -> (u32, usize, usize) {
    let roll = Roll { reference, p, q };
    rules::plan(arrivals, deadlines, operations, roll, rows, blocks)
}

/// A high or a low: its report, and the pace from the block's start as ticks over operations.
#[derive(Clone, Copy)]
struct Mark {
    report: usize,
    ticks: u32,
    operations: u32,
}

impl Mark {
    /// Whether this pace is below the other.
    #[inline]
    fn below(self, other: Mark) -> bool {
        u64::from(self.ticks) * u64::from(other.operations)
            < u64::from(other.ticks) * u64::from(self.operations)
    }
}

/// Finds the blocks of a list that has an allowed plan, writes their rows and counts them.
fn blocks(list: List, rows: &mut [u32]) -> usize {
    let mut count = 0;
    let mut first = 0;
    let mut ended = 0;
    while first < list.arrivals.len() {
        let start = ended.max(list.arrivals[first]);
        let block = next_block(list, first, start);
        ended = start + block.ticks;
        let (from, to) = (first as u32, block.report as u32);
        put_row(rows, count, [from, to, start, ended, block.operations]);
        count += 1;
        first = block.report + 1;
    }
    count
}

/// The search for the block that starts with report `first` at `start`: the mark it ends at.
#[inline]
fn next_block(list: List, first: usize, start: u32) -> Mark {
    let arrivals = list.arrivals;
    let deadlines = &list.deadlines[..arrivals.len()];
    let operations = &list.operations[..arrivals.len()];
    // The pace to a time, nil where that time is past.
    let pace_to = |report, time: u32, operations| Mark {
        report,
        ticks: time.saturating_sub(start),
        operations,
    };
    // The next arrival; the deadline instead, where the next arrival is past it or there is none.
    let floor = |j: usize| match arrivals.get(j + 1) {
        Some(&next) => next.min(deadlines[j]),
        None => deadlines[j],
    };

    let mut sum = operations[first];
    let mut high = pace_to(first, deadlines[first], sum);
    let mut least = high;
    let mut greatest = pace_to(first, floor(first), sum);
    for j in first + 1..arrivals.len() {
        if arrivals[j] > deadlines[j - 1] {
            break;
        }
        #[cfg(test)]
        steps::count();
        sum += operations[j];
        high = pace_to(j, deadlines[j], sum);
        let low = pace_to(j, floor(j), sum);
        if least.below(low) {
            return least;
        }
        if high.below(greatest) {
            return greatest;
        }
        if !least.below(high) {
            least = high;
        }
        if !low.below(greatest) {
            greatest = low;
        }
    }
    high
}

/// Counts the steps of the inner loop, in tests only.
#[cfg(test)]
pub mod steps {
    use std::cell::Cell;

    thread_local!(static STEPS: Cell<usize> = const { Cell::new(0) });

    pub fn count() {
        STEPS.set(STEPS.get() + 1);
    }

    /// The steps since this was last asked, on this thread.
    pub fn taken() -> usize {
        STEPS.replace(0)
    }
}
