//! What runs (W2). The rows stay as they are, but each report runs at the faster of its row's pace and the
//! floor R/T, its start still the later of its arrival and the finish before. Without a floor the rows'
//! own paces run.
//!
//! Times stay on small denominators here too. A row at its own pace starts at its whole start: idle time
//! or a fall of the pace lets it start at an arrival, and before a rise stands a row that ends where it is
//! said to. All other rows run at R/T, in whole multiples of 1/T.

use super::timing::timings;
use super::{covering, finishes, kept, paces, Paces};
use crate::fraction::Fraction;
use crate::Reports;

/// R/T as two numbers, where there is a floor.
fn slowest(r: &Reports) -> Option<(i128, i128)> {
    r.floor.map(|(r, t)| (i128::from(r), i128::from(t)))
}

/// Whether the first of two paces is above the second, that is slower.
fn slower(one: (i128, i128), other: (i128, i128)) -> bool {
    one.0 * other.1 > other.0 * one.1
}

/// Each of these paces, or R/T where that is the faster.
pub fn no_slower(r: &Reports, mut paces: Paces) -> Paces {
    if let Some(slowest) = slowest(r) {
        for pace in paces.iter_mut().filter(|pace| slower(**pace, slowest)) {
            *pace = slowest;
        }
    }
    paces
}

/// Whether a threshold num/den is above R/T: demand 3 then speaks of rivals no slower than R/T alone.
pub fn above_the_floor(r: &Reports, num: u64, den: u64) -> bool {
    slowest(r).is_some_and(|slowest| slower((i128::from(num), i128::from(den)), slowest))
}

/// The paces that run where these rows are the plan's, one for each report.
pub fn paces_run(r: &Reports, rows: &[[u32; 5]]) -> Paces {
    no_slower(r, paces(rows))
}

/// Checks the paces that are said to run where these rows are the plan's: each is the faster of its row's
/// and R/T, so none is above R/T; none is below P/Q; with starts and finishes by the definition of a plan
/// every deadline is kept, and no report finishes later than in the rows. The error names the first thing
/// that fails. The rows' own properties are those of `plan`.
pub fn run(r: &Reports, rows: &[[u32; 5]], run: &[(i128, i128)]) -> Result<(), String> {
    covering(r, rows)?;
    let of_rows = paces(rows);
    if run.len() != of_rows.len() {
        return Err("there is not one pace for each report".to_string());
    }
    for (i, (&pace, &of_row)) in run.iter().zip(&of_rows).enumerate() {
        faster_of_both(r, pace, of_row).map_err(|what| format!("report {i}: {what}"))?;
    }
    let finishes = finishes(r, run)?;
    kept(r, &finishes)?;
    no_later(r, rows, &finishes)
}

/// A pace that runs: it is above neither its row's nor R/T, equal to one of them, and not below P/Q.
fn faster_of_both(
    r: &Reports,
    pace: (i128, i128),
    of_row: (i128, i128),
) -> Result<(), &'static str> {
    let both = [Some(of_row), slowest(r)];
    let mut both = both.into_iter().flatten();
    if pace.1 <= 0 {
        Err("the pace that runs has no denominator")
    } else if slowest(r).is_some_and(|slowest| slower(pace, slowest)) {
        Err("the pace that runs is above R/T")
    } else if slower(pace, of_row) {
        Err("the pace that runs is above its row's")
    } else if slower((i128::from(r.p), i128::from(r.q)), pace) {
        Err("the pace that runs is below P/Q")
    } else if both.all(|other| slower(other, pace)) {
        Err("the pace that runs is below both its row's and R/T")
    } else {
        Ok(())
    }
}

/// No report finishes later than in the plan of the rows.
fn no_later(r: &Reports, rows: &[[u32; 5]], finishes: &[Fraction]) -> Result<(), String> {
    for (i, (time, finish)) in timings(r, rows)?.iter().zip(finishes).enumerate() {
        if time.finish().is_none_or(|of_row| *finish > of_row) {
            return Err(format!("report {i}: it finishes later than in its row"));
        }
    }
    Ok(())
}
