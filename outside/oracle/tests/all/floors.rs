//! A floor (W2): refusals 16 and 17 on both sides of their lines and in their order, rows that stay as they
//! are, what runs, and the sums of demand 3 over what runs.

use crate::helpers::{accepted, owned, refused, Owned, Random};
use crate::random::random_list;
use crate::sums::RIVALS;
use crate::table::accepted_table;
use oracle::check::{self, least, paces, paces_run, run, sum_at};
use oracle::{answer_program, answer_roll};

/// 01's single report: from 0 to 10 with four operations.
fn single() -> Owned {
    owned(&[0], &[10], &[4])
}

#[test]
fn refusal_16_r_or_t_outside() {
    for (r, t, number) in [
        (0, 1, 16),
        (1, 0, 16),
        (0, 0, 16),
        (65_536, 1, 16),
        (65_535, 65_536, 16),
        (u32::MAX, 1, 16),
        (1, u32::MAX, 16),
        (1, 1, 0),
        (65_535, 65_535, 0),
        (65_535, 1, 0),
        (1, 65_535, 17),
    ] {
        assert_eq!(single().with_floor(r, t).answer().number, number, "{r}/{t}");
    }
    let empty = owned(&[], &[], &[]).with_floor(0, 1);
    assert_eq!(empty.answer(), refused(16, 0));
    assert_eq!(answer_program(&empty.roll(b"")), b"plan 16 0 0\n");
}

#[test]
fn refusal_17_floor_below_the_fastest_pace() {
    let answer = |p, q, r, t| single().with_pace(p, q).with_floor(r, t).answer();
    for (p, q, r, t, number) in [
        (2, 3, 2, 3, 0),
        (2, 3, 4, 6, 0),
        (4, 6, 2, 3, 0),
        (2, 3, 1, 2, 17),
        (2, 3, 5, 7, 0),
        (2, 3, 43_689, 65_534, 17),
        (2, 3, 43_690, 65_534, 0),
        (1, 65_535, 1, 65_535, 0),
        (2, 65_535, 1, 65_535, 17),
        (65_534, 65_535, 65_533, 65_534, 17),
        (65_533, 65_534, 65_534, 65_535, 0),
    ] {
        assert_eq!(answer(p, q, r, t).number, number, "{p}/{q} {r}/{t}");
    }
    assert_eq!(answer(2, 1, 1, 1), refused(17, 0));
    let roll = single().with_pace(2, 1).with_floor(1, 1).roll(b"pre");
    assert_eq!(answer_program(&roll), b"plan 17 0 0\n");
}

/// A list that breaks 3, 4, 16, 17, 5 and 8 at once is mended rule by rule.
#[test]
fn both_stand_between_4_and_5() {
    let mut list = owned(&[5, 4], &[20, 20], &[2, 0])
        .with_pace(0, 1)
        .with_floor(0, 1);
    list.room = 9;
    assert_eq!(list.answer(), refused(3, 0));
    list.room = 10;
    assert_eq!(list.answer(), refused(4, 0));
    list.p = 2;
    assert_eq!(list.answer(), refused(16, 0));
    list.floor = Some((1, 1));
    assert_eq!(list.answer(), refused(17, 0));
    assert_eq!(answer_roll(&list.roll(b""), 10), refused(17, 0));
    list.floor = Some((2, 1));
    assert_eq!(list.answer(), refused(5, 1));
    list.operations[1] = 2;
    assert_eq!(list.answer(), refused(8, 1));
    // without a floor neither is tried
    list.floor = None;
    assert_eq!(list.answer(), refused(8, 1));
}

#[test]
fn rows_stay_as_they_are() {
    for (list, rows) in accepted_table() {
        for (r, t) in [(1, 1), (3, 2), (2, 1), (65_535, 1)] {
            let list = list.clone().with_floor(r, t);
            assert_eq!(list.answer(), accepted(&rows), "{list:?}");
            assert_eq!(answer_roll(&list.roll(b"any"), list.room), accepted(&rows));
            let reports = list.reports();
            assert_eq!(check::plan(&reports, &rows), Ok(()));
            assert_eq!(run(&reports, &rows, &paces_run(&reports, &rows)), Ok(()));
        }
    }
}

#[test]
fn what_runs_by_hand() {
    let list = owned(&[0, 0, 9, 9], &[6, 20, 20, 12], &[2, 2, 1, 1]);
    let rows = [[0, 1, 0, 9, 4], [2, 3, 9, 12, 2]];
    let runs = |r, t| paces_run(&list.clone().with_floor(r, t).reports(), &rows);
    assert_eq!(paces_run(&list.reports(), &rows), paces(&rows));
    assert_eq!(runs(9, 4), paces(&rows));
    assert_eq!(runs(5, 1), paces(&rows));
    assert_eq!(runs(2, 1), [(2, 1), (2, 1), (3, 2), (3, 2)]);
    assert_eq!(runs(5, 4), [(5, 4); 4]);
}

/// Paces that are not what runs are named: the slower for the faster, R/T for every report, the rows'.
#[test]
fn other_paces_do_not_run() {
    let reports = |r, t| {
        let list = owned(&[0, 0], &[4, 12], &[2, 2]);
        list.with_floor(r, t).reports()
    };
    let rows = [[0, 0, 0, 4, 2], [1, 1, 4, 12, 2]];
    let fault = |r, t, paces: &[(i128, i128)]| run(&reports(r, t), &rows, paces).unwrap_err();
    assert_eq!(run(&reports(3, 1), &rows, &[(2, 1), (3, 1)]), Ok(()));
    assert!(fault(3, 1, &[(3, 1), (4, 1)]).contains("above"));
    assert!(fault(3, 1, &[(2, 1), (4, 1)]).contains("report 1: the pace that runs is above R/T"));
    assert!(
        fault(3, 1, &[(3, 1), (3, 1)]).contains("report 0: the pace that runs is above its row")
    );
    assert!(fault(3, 1, &[(2, 1), (2, 1)]).contains("report 1: the pace that runs is below both"));
    assert!(fault(3, 1, &[(1, 2), (3, 1)]).contains("below P/Q"));
    assert!(fault(3, 1, &[(2, 1)]).contains("one pace for each report"));
    assert!(fault(3, 1, &[(2, 1), (3, 0)]).contains("no denominator"));
    // rows that are no plan: what runs then misses a deadline
    let late = run(&reports(9, 1), &[[0, 1, 0, 12, 4]], &[(3, 1), (3, 1)]).unwrap_err();
    assert!(late.contains("report 0: finish is after its deadline"));
}

/// Up to R/T the sums of what runs are those of the rows; above it a rival slower than R/T may have a
/// smaller one, so that demand 3 speaks of none there.
#[test]
fn above_the_floor_a_slower_rival_has_a_smaller_sum() {
    let reports = single().with_floor(2, 1).reports();
    let rows = [[0, 0, 0, 10, 4]];
    let (runs, rival) = (paces_run(&reports, &rows), [(10, 4)]);
    assert_eq!(runs, [(2, 1)]);
    assert_eq!(sum_at(&reports, &runs, 2, 1), (0, 1));
    assert_eq!(sum_at(&reports, &rival, 2, 1), (0, 1));
    assert_eq!(sum_at(&reports, &runs, 3, 1), (4, 1));
    assert_eq!(sum_at(&reports, &rival, 3, 1), (2, 1));
    // `least` lets rivals that are no slower than R/T alone stand there
    for (num, den) in [(1, 1), (2, 1), (201, 100), (5, 2), (3, 1), (100, 1)] {
        assert_eq!(least(&reports, &rows, num, den, 1), Ok(RIVALS));
    }
}

/// A random floor: equal to P/Q, at or about the pace of a row, or anything from P/Q on.
fn random_floor(random: &mut Random, list: &Owned, rows: &[[u32; 5]]) -> (u32, u32) {
    let [_, _, start, end, operations] = rows[random.below(rows.len() as u32) as usize];
    let some = 1 + random.below(9);
    let (r, t) = match random.below(4) {
        0 => (list.p * some, list.q * some),
        1 => (end - start, operations),
        2 => (some * (end - start) + 1, some * operations),
        _ => (list.p * some + random.below(30), list.q * some),
    };
    if r * list.q < t * list.p {
        (list.p, list.q)
    } else {
        (r, t)
    }
}

/// Thresholds on both sides of R/T, and at it; at the pace of a row, and anywhere.
fn thresholds(random: &mut Random, floor: (u32, u32), rows: &[[u32; 5]]) -> [(u64, u64); 5] {
    let (r, t) = (u64::from(floor.0), u64::from(floor.1));
    let [_, _, start, end, operations] = rows[random.below(rows.len() as u32) as usize];
    [
        (r, t),
        (8 * r - 1, 8 * t),
        (8 * r + 1, 8 * t),
        (u64::from(end - start), u64::from(operations)),
        (u64::from(random.below(60)), u64::from(1 + random.below(12))),
    ]
}

#[test]
fn what_runs_keeps_the_list_and_has_the_least_sums() {
    let mut random = Random(2_602);
    let (mut floored, mut slower) = (0, 0);
    for round in 0..6_000 {
        let list = random_list(&mut random, 5, 24);
        let without = list.answer();
        if without.number != 0 {
            continue;
        }
        let (r, t) = random_floor(&mut random, &list, &without.rows);
        let list = list.with_floor(r, t);
        assert_eq!(list.answer(), without, "{list:?}");
        let reports = list.reports();
        let runs = paces_run(&reports, &without.rows);
        assert_eq!(run(&reports, &without.rows, &runs), Ok(()), "{list:?}");
        for (num, den) in thresholds(&mut random, (r, t), &without.rows) {
            let compared = least(&reports, &without.rows, num, den, round);
            assert_eq!(compared, Ok(RIVALS), "{list:?} {num}/{den}");
        }
        floored += 1;
        slower += u32::from(runs != paces(&without.rows));
    }
    assert!(floored > 2_000 && slower > 1_000, "{floored} {slower}");
}
