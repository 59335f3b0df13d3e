//! Refusals 1 to 9 of a list, in their order, each tried over the whole list before the next; where a
//! floor is given, 16 and 17 directly after 4.

use crate::{reports, List, Reports, MOST_REPORTS, ROW_NUMBERS};

const MOST_OPERATIONS: u64 = 65_535;
const TOP_OFFSET: u64 = 2_147_483_647;
/// The greatest P and Q, and R and T of a floor.
const TOP_OF_A_PACE: u32 = 65_535;

/// Number and place of the refusal of this list, if it is refused.
pub fn refusal(list: &List) -> Option<(u32, u64)> {
    if let Some(number) = fault_of_the_whole(list) {
        return Some((number, 0));
    }
    let reports = reports(list);
    fault_of_a_report(&reports).or_else(|| no_allowed_plan(&reports))
}

/// Whether one of a pace's two numbers is outside.
fn outside(pace: (u32, u32)) -> bool {
    let inside = 1..=TOP_OF_A_PACE;
    !inside.contains(&pace.0) || !inside.contains(&pace.1)
}

/// Rules 1 to 4, then 16 and 17.
fn fault_of_the_whole(list: &List) -> Option<u32> {
    let count = list.arrivals.len();
    if list.deadlines.len() != count || list.operations.len() != count {
        Some(1)
    } else if count > MOST_REPORTS {
        Some(2)
    } else if list.room < ROW_NUMBERS * count {
        Some(3)
    } else if outside((list.p, list.q)) {
        Some(4)
    } else {
        fault_of_the_floor(list)
    }
}

/// Rules 16 and 17, of a list whose P and Q are inside.
fn fault_of_the_floor(list: &List) -> Option<u32> {
    let (r, t) = list.floor?;
    if outside((r, t)) {
        return Some(16);
    }
    let below = u64::from(r) * u64::from(list.q) < u64::from(list.p) * u64::from(t);
    below.then_some(17)
}

/// Rules 5 to 8, with the least report at fault by the first of them that fails.
fn fault_of_a_report(r: &Reports) -> Option<(u32, u64)> {
    let least = |number: u32, at_fault: &dyn Fn(usize) -> bool| {
        let place = (0..r.arrival.len()).find(|&i| at_fault(i))?;
        Some((number, place as u64))
    };
    least(5, &|i| {
        r.operations[i] == 0 || r.operations[i] > MOST_OPERATIONS
    })
    .or_else(|| least(6, &|i| r.arrival[i] > TOP_OFFSET))
    .or_else(|| least(7, &|i| r.deadline[i] > TOP_OFFSET))
    .or_else(|| least(8, &|i| i > 0 && r.arrival[i] < r.arrival[i - 1]))
}

/// Rule 9. The finish of report q in any allowed plan is at least arrival p + operations of p..q
/// times P/Q, for every p <= q; and the plan with every pace P/Q reaches the greatest of these
/// bounds. So reports 0..i have an allowed plan exactly when every span p..q with q <= i fits
/// between arrival p and deadline q, and the place is the least q that ends a span that does not.
fn no_allowed_plan(r: &Reports) -> Option<(u32, u64)> {
    let sums = prefix_sums(&r.operations);
    let fits = |p: usize, q: usize| {
        let length = i128::from(r.deadline[q]) - i128::from(r.arrival[p]);
        let operations = i128::from(sums[q + 1] - sums[p]);
        length * i128::from(r.q) >= operations * i128::from(r.p)
    };
    let place = (0..r.arrival.len()).find(|&q| (0..=q).any(|p| !fits(p, q)))?;
    Some((9, place as u64))
}

/// Element j is the operations of all reports before j.
pub fn prefix_sums(operations: &[u64]) -> Vec<u64> {
    let mut sums = vec![0];
    for (i, own) in operations.iter().enumerate() {
        sums.push(sums[i] + own);
    }
    sums
}
