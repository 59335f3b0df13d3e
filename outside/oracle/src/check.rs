//! Checks of an accepted answer against the definitions themselves, independent of how its rows
//! were found: what a plan is, the four properties of the plan wanted, what a block is, what runs
//! where a floor is given, and the comparison of its sum of shortfalls with those of rival plans.
//!
//! All of it is exact for every accepted list (up to 1,024 reports) and every threshold num/den:
//! - Inside a row all times are whole multiples of 1/operations of that row, since the row starts
//!   at a whole offset; so `plan` counts in those.
//! - The shortfalls of one whole row come to (operations * num - length * den) / den. So the sums
//!   of `sum_at` over the paces of rows stay on small denominators, and so do those of the rivals,
//!   whose finishes lie on one fixed grid or whose paces are all the same.

mod rivals;
mod running;
mod timing;

pub use running::{paces_run, run};

use crate::fraction::Fraction;
use crate::Reports;
use running::{above_the_floor, no_slower};
use timing::{timings, Timing};

/// Paces of the reports as fractions.
type Paces = Vec<(i128, i128)>;

/// Checks an accepted answer: rows cover the reports in order without gaps, operations are sums,
/// every pace is positive and not below P/Q, starts and ends are those of the plan of these rows,
/// every finish is at or before its deadline, properties 1 to 4 hold, and blocks are longest runs.
/// The error names the first thing that fails. A floor is not looked at: all of this is of the rows.
pub fn plan(r: &Reports, rows: &[[u32; 5]]) -> Result<(), String> {
    covering(r, rows)?;
    allowed_paces(r, rows)?;
    let times = timings(r, rows)?;
    kept_deadlines(r, &times)?;
    property_1(r, &times)?;
    properties_2_and_3(r, &times)?;
    property_4(r, &times)?;
    longest_runs(rows, &times)
}

/// Rows cover reports 0 to n-1 in order without gaps, and operations are sums.
fn covering(r: &Reports, rows: &[[u32; 5]]) -> Result<(), String> {
    let count = r.arrival.len();
    let mut next = 0;
    for (k, &[first, last, _, _, operations]) in rows.iter().enumerate() {
        let (first, last) = (first as usize, last as usize);
        if first != next || last < first || last >= count {
            return Err(format!("row {k}: reports {first} to {last} do not follow"));
        }
        let sum: u64 = r.operations[first..=last].iter().sum();
        if sum != u64::from(operations) {
            return Err(format!("row {k}: operations {operations} are not {sum}"));
        }
        next = last + 1;
    }
    if next != count {
        return Err(format!("rows end before report {next}"));
    }
    Ok(())
}

/// Every pace is positive and not below P/Q.
fn allowed_paces(r: &Reports, rows: &[[u32; 5]]) -> Result<(), String> {
    for (k, &[_, _, start, end, operations]) in rows.iter().enumerate() {
        let length = i128::from(end) - i128::from(start);
        if length <= 0 {
            return Err(format!("row {k}: pace is not positive"));
        }
        if length * i128::from(r.q) < i128::from(r.p) * i128::from(operations) {
            return Err(format!("row {k}: pace is below P/Q"));
        }
    }
    Ok(())
}

/// Every finish is at or before its deadline.
fn kept_deadlines(r: &Reports, times: &[Timing]) -> Result<(), String> {
    for (i, time) in times.iter().enumerate() {
        if time.finish_beside(r.deadline[i]).is_gt() {
            return Err(format!("report {i}: finish is after its deadline"));
        }
    }
    Ok(())
}

/// Property 1: where the next arrival is later than the deadline, the report ends at its deadline
/// and there is idle time; elsewhere it ends at or after the next arrival and there is none.
fn property_1(r: &Reports, times: &[Timing]) -> Result<(), String> {
    for i in 1..times.len() {
        let (before, next) = (&times[i - 1], &times[i]);
        let idle = before.idle_before(next);
        let holds = if r.arrival[i] > r.deadline[i - 1] {
            before.finish_beside(r.deadline[i - 1]).is_eq() && idle
        } else {
            before.finish_beside(r.arrival[i]).is_ge() && !idle
        };
        if !holds {
            return Err(format!("report {}: property 1 fails", i - 1));
        }
    }
    Ok(())
}

/// Properties 2 and 3: without idle time, pace rises only at the deadline of the report before
/// and falls only at the arrival of the next.
fn properties_2_and_3(r: &Reports, times: &[Timing]) -> Result<(), String> {
    for i in 1..times.len() {
        let (before, next) = (&times[i - 1], &times[i]);
        if before.idle_before(next) {
            continue;
        }
        let change = next.pace_beside(before);
        if change.is_gt() && before.finish_beside(r.deadline[i - 1]).is_ne() {
            return Err(format!("report {}: property 2 fails", i - 1));
        }
        if change.is_lt() && before.finish_beside(r.arrival[i]).is_ne() {
            return Err(format!("report {}: property 3 fails", i - 1));
        }
    }
    Ok(())
}

/// Property 4: the last report ends at its deadline.
fn property_4(r: &Reports, times: &[Timing]) -> Result<(), String> {
    match (times.last(), r.deadline.last()) {
        (Some(time), Some(&deadline)) if time.finish_beside(deadline).is_ne() => {
            Err("the last report: property 4 fails".to_string())
        }
        _ => Ok(()),
    }
}

/// Each row is a run without idle time, and no longer run of its pace goes on into the next row.
fn longest_runs(rows: &[[u32; 5]], times: &[Timing]) -> Result<(), String> {
    for (k, &[first, last, ..]) in rows.iter().enumerate() {
        let (first, last) = (first as usize, last as usize);
        if (first..last).any(|i| times[i].idle_before(&times[i + 1])) {
            return Err(format!("row {k}: idle time inside the block"));
        }
        let Some(next) = times.get(last + 1) else {
            continue;
        };
        if !times[last].idle_before(next) && next.pace_beside(&times[last]).is_eq() {
            return Err(format!("row {k}: the block is not the longest run"));
        }
    }
    Ok(())
}

/// The paces of the reports of rows, as fractions (end - start, operations), one for each report.
pub fn paces(rows: &[[u32; 5]]) -> Paces {
    let mut paces = Vec::new();
    for &[first, last, start, end, operations] in rows {
        let length = i128::from(end) - i128::from(start);
        paces.extend((first..=last).map(|_| (length, i128::from(operations))));
    }
    paces
}

/// The sum over reports of operations times shortfall at the threshold pace num/den, as an exact
/// fraction (numerator, denominator) in lowest terms. The shortfall of a report is threshold minus
/// pace where its pace is below the threshold, else 0.
///
/// # Panics
/// If there is not one pace for each report, a denominator is not positive, or the sum does not
/// fit 128 bits on the way. It always fits for the paces of rows and for the rivals of `least`.
pub fn sum_at(r: &Reports, paces: &[(i128, i128)], num: u64, den: u64) -> (i128, i128) {
    assert_eq!(paces.len(), r.operations.len(), "one pace for each report");
    let sum = sum_of_shortfalls(r, paces, num, den).expect("sum on fitting denominators");
    (sum.num, sum.den)
}

/// The sum of `sum_at`, `None` where a denominator is not positive or a number does not fit.
fn sum_of_shortfalls(r: &Reports, paces: &[(i128, i128)], num: u64, den: u64) -> Option<Fraction> {
    let threshold = Fraction::new(i128::from(num), i128::from(den))?;
    let mut sum = Fraction::whole(0);
    for (&(pace_num, pace_den), &operations) in paces.iter().zip(&r.operations) {
        let pace = Fraction::new(pace_num, pace_den)?;
        if pace < threshold {
            sum = sum.plus(threshold.minus(pace)?.times(operations)?)?;
        }
    }
    Some(sum)
}

/// The finishes of the plan with these paces, by the definition of a plan: report i starts at the
/// later of its arrival and the finish before, and finish = start + operations times pace. The error
/// names a pace that is not positive, or a finish that does not fit.
fn finishes(r: &Reports, paces: &[(i128, i128)]) -> Result<Vec<Fraction>, String> {
    let mut finishes: Vec<Fraction> = Vec::new();
    for (i, &(num, den)) in paces.iter().enumerate() {
        let arrival = Fraction::whole(r.arrival[i]);
        let before = finishes.last();
        let start = before.map_or(arrival, |finish| finish.later(arrival));
        let pace = Fraction::new(num, den).filter(|pace| pace.num > 0);
        let pace = pace.ok_or_else(|| format!("report {i}: pace is not positive"))?;
        let length = pace.times(r.operations[i]);
        let finish = length.and_then(|length| start.plus(length));
        finishes.push(finish.ok_or_else(|| format!("report {i}: finish does not fit"))?);
    }
    Ok(finishes)
}

/// Whether each of these finishes is at or before its deadline. The error names the first that is not.
fn kept(r: &Reports, finishes: &[Fraction]) -> Result<(), String> {
    let mut beside = finishes.iter().zip(&r.deadline);
    match beside.position(|(finish, &deadline)| *finish > Fraction::whole(deadline)) {
        Some(i) => Err(format!("report {i}: finish is after its deadline")),
        None => Ok(()),
    }
}

/// Whether the plan with these paces keeps the list. The error says why not.
fn keeps(r: &Reports, paces: &[(i128, i128)]) -> Result<(), String> {
    kept(r, &finishes(r, paces)?)
}

/// Compares the sum at the threshold num/den of what runs where these rows are the plan's with those
/// of several rival plans, made with a random generator from `seed`; they keep the list but need not
/// respect P/Q, nor, at a threshold up to a floor R/T, be no slower than it. At a threshold above R/T
/// each is first made no slower. Every rival is then verified to keep the list by the definition; one
/// that does not (this happens only where the list has no allowed plan) is left out. Returns the
/// number of rivals compared, the error names a rival with a smaller sum. An empty list has no rivals.
pub fn least(r: &Reports, rows: &[[u32; 5]], num: u64, den: u64, seed: u64) -> Result<u32, String> {
    covering(r, rows)?;
    if den == 0 {
        return Err("the threshold has no denominator".to_string());
    }
    let own_paces = paces_run(r, rows);
    keeps(r, &own_paces).map_err(|why| format!("the plan does not keep the list: {why}"))?;
    let unfit = || "a sum does not fit".to_string();
    let own = sum_of_shortfalls(r, &own_paces, num, den).ok_or_else(unfit)?;
    let above = above_the_floor(r, num, den);
    let mut compared = 0;
    for (name, mut rival) in rivals::all(r, rows, num, den, seed) {
        if above {
            rival = no_slower(r, rival);
        }
        if rival.len() != r.arrival.len() || keeps(r, &rival).is_err() {
            continue;
        }
        let sum = sum_of_shortfalls(r, &rival, num, den).ok_or_else(unfit)?;
        if sum < own {
            let (a, b, c, d) = (sum.num, sum.den, own.num, own.den);
            return Err(format!("rival \"{name}\" has {a}/{b}, the plan {c}/{d}"));
        }
        compared += 1;
    }
    Ok(compared)
}
