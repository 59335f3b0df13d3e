//! The linear sweep with two hulls (document 001, section 4, put right by 003).
//!
//! Over the operations done so far, the finishes of a stretch run as a taut string through a
//! corridor: at report j it passes between the low, the next arrival, and the high, the deadline;
//! it is tied to the stretch's start and to the last deadline. From the last knot (where the last
//! block ended) the sweep keeps two hulls: the highs that bound the string from above, each pace
//! between neighbours greater than the one before, and the lows that bound it from below, each
//! pace less. A new high that drops every other high from its hull may lie below lows: the string
//! bends at those lows, and each ends a block. A new low does the same with the highs. Of corners
//! on one line the last is kept, so a block is a longest run. A report enters each hull once and
//! leaves it once, so the work is linear in the reports, however deadlines rise and fall.

use crate::rules::{self, put_row, List, Roll, REPORTS};

/// Plans a list; gives number, place and block count, and writes the rows of an accepted list.
pub fn sweep(
    arrivals: &[u32],
    deadlines: &[u32],
    operations: &[u32],
    reference: u32,
    p: u32,
    q: u32,
    rows: &mut [u32],
) -> (u32, usize, usize) {
    let roll = Roll { reference, p, q };
    rules::plan(arrivals, deadlines, operations, roll, rows, blocks)
}

/// A point of the corridor: the operations of the whole list up to there, and a time.
#[derive(Clone, Copy)]
struct Corner {
    operations: u32,
    time: u32,
}

/// Whether the pace from `from` to `a` is below the pace from `from` to `b`.
#[inline(always)]
fn below(from: Corner, a: Corner, b: Corner) -> bool {
    #[cfg(test)]
    steps::count();
    let ticks = |to: Corner| i64::from(to.time) - i64::from(from.time);
    let operations = |to: Corner| i64::from(to.operations - from.operations);
    ticks(a) * operations(b) < ticks(b) * operations(a)
}

/// The corners of a hull behind the knot, by their reports, in order. They leave at both sides.
struct Hull {
    reports: [u16; REPORTS],
    front: usize,
    back: usize,
}

impl Hull {
    fn new() -> Hull {
        Hull {
            reports: [0; REPORTS],
            front: 0,
            back: 0,
        }
    }

    /// The corners that are in.
    #[inline(always)]
    fn corners(&self) -> &[u16] {
        &self.reports[self.front..self.back]
    }

    #[inline(always)]
    fn push(&mut self, report: usize) {
        self.reports[self.back] = report as u16;
        self.back += 1;
    }

    /// Takes all corners out.
    #[inline(always)]
    fn clear(&mut self) {
        self.front = 0;
        self.back = 0;
    }
}

/// Where the sweep stands: the last knot and the report behind it, the hulls from there on, and
/// the rows written.
struct Sweep<'a> {
    list: List<'a>,
    /// The operations of the whole list up to and with each report.
    sums: [u32; REPORTS],
    highs: Hull,
    lows: Hull,
    knot: Corner,
    first: usize,
    rows: &'a mut [u32],
    count: usize,
}

/// Finds the blocks of a list that has an allowed plan, writes their rows and counts them.
fn blocks(list: List, rows: &mut [u32]) -> usize {
    let mut sweep = Sweep {
        list,
        sums: [0; REPORTS],
        highs: Hull::new(),
        lows: Hull::new(),
        knot: Corner {
            operations: 0,
            time: 0,
        },
        first: 0,
        rows,
        count: 0,
    };
    let mut sum = 0;
    for (j, operations) in list.operations.iter().enumerate() {
        // Only a stretch's end puts the knot right before report j.
        if sweep.first == j {
            sweep.knot.time = list.arrivals[j];
        }
        sum += operations;
        sweep.sums[j] = sum;
        let deadline = list.deadlines[j];
        if list
            .arrivals
            .get(j + 1)
            .is_some_and(|&next| next <= deadline)
        {
            sweep.take_low(j);
            sweep.take_high(j);
        } else {
            sweep.end_stretch(j);
        }
    }
    sweep.count
}

impl Sweep<'_> {
    /// The corner at which report j ends at its deadline.
    #[inline(always)]
    fn high(&self, j: usize) -> Corner {
        Corner {
            operations: self.sums[j],
            time: self.list.deadlines[j],
        }
    }

    /// The corner at which report j, not the last of its stretch, ends at the next arrival.
    #[inline(always)]
    fn low(&self, j: usize) -> Corner {
        Corner {
            operations: self.sums[j],
            time: self.list.arrivals[j + 1],
        }
    }

    /// Report j's low joins the lows.
    #[inline(always)]
    fn take_low(&mut self, j: usize) {
        let new = self.low(j);
        self.drop_lows_under(new);
        if self.lows.corners().is_empty() {
            self.bend_at_highs(new);
        }
        self.lows.push(j);
    }

    /// Report j's high joins the highs.
    #[inline(always)]
    fn take_high(&mut self, j: usize) {
        let new = self.high(j);
        self.drop_highs_over(new);
        if self.highs.corners().is_empty() {
            self.bend_at_lows(new);
        }
        self.highs.push(j);
    }

    /// Report j ends the stretch at its deadline: the string is drawn to there.
    fn end_stretch(&mut self, j: usize) {
        let end = self.high(j);
        self.drop_lows_under(end);
        if self.lows.corners().is_empty() {
            self.bend_at_highs(end);
        } else {
            self.bend_at_lows(end);
        }
        self.put_block(j, end);
        self.highs.clear();
        self.lows.clear();
    }

    /// Drops from the back the lows on or under the way to `new`.
    #[inline(always)]
    fn drop_lows_under(&mut self, new: Corner) {
        while let [rest @ .., last] = self.lows.corners() {
            let before = rest.last().map_or(self.knot, |&j| self.low(j.into()));
            if below(before, new, self.low((*last).into())) {
                break;
            }
            self.lows.back -= 1;
        }
    }

    /// Drops from the back the highs on or over the way to `new`.
    #[inline(always)]
    fn drop_highs_over(&mut self, new: Corner) {
        while let [rest @ .., last] = self.highs.corners() {
            let before = rest.last().map_or(self.knot, |&j| self.high(j.into()));
            if below(before, self.high((*last).into()), new) {
                break;
            }
            self.highs.back -= 1;
        }
    }

    /// Ends a block at each high, from the front, that lies below the way to `new`.
    #[inline(always)]
    fn bend_at_highs(&mut self, new: Corner) {
        while let Some(&report) = self.highs.corners().first() {
            let high = self.high(report.into());
            if !below(self.knot, high, new) {
                break;
            }
            self.put_block(report.into(), high);
            self.highs.front += 1;
        }
    }

    /// Ends a block at each low, from the front, that lies above the way to `new`.
    #[inline(always)]
    fn bend_at_lows(&mut self, new: Corner) {
        while let Some(&report) = self.lows.corners().first() {
            let low = self.low(report.into());
            if !below(self.knot, new, low) {
                break;
            }
            self.put_block(report.into(), low);
            self.lows.front += 1;
        }
    }

    /// The block from the knot to the end of report `last` at `end`: its row. The knot is now there.
    #[inline(always)]
    fn put_block(&mut self, last: usize, end: Corner) {
        let operations = end.operations - self.knot.operations;
        let (from, to) = (self.first as u32, last as u32);
        let row = [from, to, self.knot.time, end.time, operations];
        put_row(self.rows, self.count, row);
        self.count += 1;
        self.first = last + 1;
        self.knot = end;
    }
}

/// Counts the comparisons of two paces, in tests only.
#[cfg(test)]
pub mod steps {
    use std::cell::Cell;

    thread_local!(static STEPS: Cell<usize> = const { Cell::new(0) });

    pub fn count() {
        STEPS.set(STEPS.get() + 1);
    }

    /// The comparisons since this was last asked, on this thread.
    pub fn taken() -> usize {
        STEPS.replace(0)
    }
}
