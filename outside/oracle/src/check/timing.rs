//! Starts and finishes of the reports in the plan of given rows, by the rule of what a plan is.

use crate::fraction::Fraction;
use crate::Reports;
use std::cmp::Ordering;

/// Start, finish and pace of a report, each as a whole multiple of 1/`scale`; the scale is the
/// operations of its row. Offsets are below 2^32 and scales below 2^27, so products of three stay
/// far inside 128 bits.
pub struct Timing {
    start: i128,
    finish: i128,
    pace: i128,
    scale: i128,
}

impl Timing {
    /// The order of the finish and a whole offset.
    pub fn finish_beside(&self, offset: u64) -> Ordering {
        self.finish.cmp(&(i128::from(offset) * self.scale))
    }

    /// The finish itself; `None` where the row has no operations.
    pub fn finish(&self) -> Option<Fraction> {
        Fraction::new(self.finish, self.scale)
    }

    /// Whether the next report starts later than this one finishes.
    pub fn idle_before(&self, next: &Timing) -> bool {
        next.start * self.scale > self.finish * next.scale
    }

    /// The order of this report's pace and the other's.
    pub fn pace_beside(&self, other: &Timing) -> Ordering {
        (self.pace * other.scale).cmp(&(other.pace * self.scale))
    }

    /// The finish in whole units of which `units` make a tick, the rest dropped.
    pub fn finish_in(&self, units: i128) -> i128 {
        (self.finish * units).div_euclid(self.scale)
    }
}

/// The timings of all reports in the plan of these rows: report i starts at the later of its
/// arrival and the finish of report i-1, and finish = start + operations times pace. The error
/// names the first row that does not start where its first report starts, or does not end where
/// its last report finishes. Rows must cover the reports and have their sums of operations.
pub fn timings(r: &Reports, rows: &[[u32; 5]]) -> Result<Vec<Timing>, String> {
    let mut times = Vec::new();
    let mut end_before = 0;
    for (k, &[first, last, start, end, operations]) in rows.iter().enumerate() {
        let first_start = r.arrival[first as usize].max(end_before);
        if u64::from(start) != first_start {
            return Err(format!("row {k}: its first report starts at {first_start}"));
        }
        let scale = i128::from(operations);
        let pace = i128::from(end) - i128::from(start);
        let mut finish = i128::from(start) * scale;
        for i in first as usize..=last as usize {
            let start = finish.max(i128::from(r.arrival[i]) * scale);
            finish = start + i128::from(r.operations[i]) * pace;
            times.push(Timing {
                start,
                finish,
                pace,
                scale,
            });
        }
        if finish != i128::from(end) * scale {
            let text = format!("row {k}: its last report finishes at {finish}/{scale}");
            return Err(text);
        }
        end_before = u64::from(end);
    }
    Ok(times)
}
