//! Random small lists: accepted rows pass the checks and have the least sums, refusal 9 is given
//! exactly where the fastest plan misses a deadline, and by exhaustion the rows are the only ones
//! that pass.

use crate::helpers::{owned, Owned, Random, Row};
use crate::sums::RIVALS;
use oracle::{answer_roll, check, Reports};

/// A list of 1 to `most` reports with arrivals in order and windows that mostly have room.
pub fn random_list(random: &mut Random, most: u32, horizon: u32) -> Owned {
    let count = 1 + random.below(most);
    let mut arrivals: Vec<u32> = (0..count).map(|_| random.below(horizon)).collect();
    arrivals.sort();
    let operations: Vec<u32> = (0..count).map(|_| 1 + random.below(4)).collect();
    let slack = 1 + random.below(horizon);
    let mut earliest = 0;
    let mut deadlines = Vec::new();
    for (&arrival, &own) in arrivals.iter().zip(&operations) {
        earliest = arrival.max(earliest) + own;
        deadlines.push((earliest + random.below(slack)).saturating_sub(random.below(4) / 3));
    }
    let (p, q) = match random.below(3) {
        0 => (1, 1),
        1 => (1 + random.below(3), 1 + random.below(4)),
        _ => (1, 2 + random.below(50)),
    };
    owned(&arrivals, &deadlines, &operations).with_pace(p, q)
}

/// The first report that misses its deadline when every pace is P/Q, finishes counted in 1/Q
/// ticks. No allowed plan finishes any report earlier than this one does.
fn first_missed_at_fastest(r: &Reports) -> Option<usize> {
    let mut finish = 0;
    (0..r.arrival.len()).find(|&i| {
        finish = finish.max(r.arrival[i] * r.q) + r.operations[i] * r.p;
        finish > r.deadline[i] * r.q
    })
}

/// Thresholds of interest: the paces of the rows and one at random.
fn thresholds(rows: &[Row], random: &mut Random) -> Vec<(u64, u64)> {
    let pace = |row: &Row| (u64::from(row[3] - row[2]), u64::from(row[4]));
    let mut all = vec![(u64::from(random.below(60)), u64::from(1 + random.below(12)))];
    let one = random.below(rows.len() as u32) as usize;
    all.push(pace(&rows[one]));
    all
}

#[test]
fn small_lists_pass_the_checks() {
    let mut random = Random(20_261);
    let (mut accepted, mut refused) = (0, 0);
    for round in 0..20_000 {
        let reference = random.next() as u32;
        let list = random_list(&mut random, 5, 24).with_reference(reference);
        let (answer, r) = (list.answer(), list.reports());
        let expected = first_missed_at_fastest(&r);
        if answer.number == 9 {
            assert_eq!(Some(answer.place as usize), expected, "{list:?}");
            refused += 1;
            continue;
        }
        assert_eq!((answer.number, answer.place, expected), (0, 0, None));
        assert_eq!(check::plan(&r, &answer.rows), Ok(()), "{list:?}");
        for (num, den) in thresholds(&answer.rows, &mut random) {
            let compared = check::least(&r, &answer.rows, num, den, round);
            assert_eq!(compared, Ok(RIVALS), "{list:?} {num}/{den}");
        }
        accepted += 1;
    }
    assert!(accepted > 5_000 && refused > 2_000, "{accepted} {refused}");
}

#[test]
fn rolls_answer_as_their_lists() {
    let mut random = Random(77);
    for _ in 0..2_000 {
        let reference = random.next() as u32;
        let mut list = random_list(&mut random, 5, 24).with_reference(reference);
        if random.below(4) == 0 {
            let at = random.below(list.arrivals.len() as u32) as usize;
            list.arrivals[at] = random.next() as u32;
            list.operations[at] = random.below(70_000);
        }
        let preface: Vec<u8> = (0..random.below(40)).map(|byte| byte as u8).collect();
        assert_eq!(answer_roll(&list.roll(&preface), list.room), list.answer());
    }
}

/// Shows to `visit` every list of rows that goes on from `rows` and covers the reports. Starts are
/// given by the definition; all whole ends up to the last deadline are tried.
fn search(r: &Reports, rows: &mut Vec<Row>, visit: &mut impl FnMut(&[Row])) {
    let first = rows.last().map_or(0, |row| row[1] as usize + 1);
    if first == r.arrival.len() {
        visit(rows);
        return;
    }
    let before = rows.last().map_or(0, |row| row[3]);
    let start = before.max(r.arrival[first] as u32);
    let latest = *r.deadline.iter().max().unwrap() as u32;
    for last in first..r.arrival.len() {
        let operations: u64 = r.operations[first..=last].iter().sum();
        for end in start + 1..=latest {
            rows.push([first as u32, last as u32, start, end, operations as u32]);
            search(r, rows, visit);
            rows.pop();
        }
    }
}

#[test]
fn rows_are_the_only_ones_that_pass() {
    let mut random = Random(4_242);
    let mut accepted = 0;
    for _ in 0..3_000 {
        let list = random_list(&mut random, 4, 8);
        let (answer, r) = (list.answer(), list.reports());
        let mut found = Vec::new();
        search(&r, &mut Vec::new(), &mut |rows| {
            if check::plan(&r, rows).is_ok() {
                found.push(rows.to_vec());
            }
        });
        if answer.number == 0 {
            assert_eq!(found, [answer.rows], "{list:?}");
            accepted += 1;
        } else {
            assert_eq!(answer.number, 9, "{list:?}");
            assert!(found.is_empty(), "{list:?} {found:?}");
        }
    }
    assert!((500..2_800).contains(&accepted), "{accepted}");
}

/// Whether the rows are beaten at one of these thresholds, or are no plan that keeps the list.
fn beaten(r: &Reports, rows: &[Row], thresholds: &[(i128, i128)]) -> bool {
    thresholds
        .iter()
        .any(|&(num, den)| check::least(r, rows, num as u64, den as u64, 1).is_err())
}

/// The rivals are strong enough: every other plan with whole ends is beaten at one of the paces
/// of either plan. (Sums are straight lines between paces, so no other threshold is needed.)
#[test]
fn every_other_plan_is_beaten() {
    let mut random = Random(31);
    let mut others = 0;
    for _ in 0..150 {
        let list = random_list(&mut random, 3, 6);
        let (answer, r) = (list.answer(), list.reports());
        if answer.number != 0 {
            continue;
        }
        let own = check::paces(&answer.rows);
        search(&r, &mut Vec::new(), &mut |rows| {
            let mut thresholds = check::paces(rows);
            let paces = own.iter().zip(&thresholds);
            if paces.clone().all(|(a, b)| a.0 * b.1 == b.0 * a.1) {
                return;
            }
            thresholds.extend(&own);
            assert!(beaten(&r, rows, &thresholds), "{list:?} {rows:?}");
            others += 1;
        });
    }
    assert!(others > 1_000, "{others}");
}
