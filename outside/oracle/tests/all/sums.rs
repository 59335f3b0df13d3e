//! `check::paces`, `check::sum_at` and `check::least` on lists small enough to do by hand.

use crate::helpers::owned;
use crate::table::accepted_table;
use oracle::check::{least, paces, sum_at};

/// Rivals compared for every list that has an allowed plan.
pub const RIVALS: u32 = 16;

#[test]
fn paces_of_reports() {
    let rows = [[0, 1, 0, 9, 4], [2, 3, 9, 12, 2]];
    assert_eq!(paces(&rows), [(9, 4), (9, 4), (3, 2), (3, 2)]);
    assert_eq!(paces(&[]), []);
}

#[test]
fn sums_by_hand() {
    let r = owned(&[0, 0, 9, 9], &[6, 20, 20, 12], &[2, 2, 1, 1]).reports();
    let own = [(9, 4), (9, 4), (3, 2), (3, 2)];
    assert_eq!(sum_at(&r, &own, 3, 2), (0, 1));
    assert_eq!(sum_at(&r, &own, 2, 1), (1, 1));
    assert_eq!(sum_at(&r, &own, 9, 4), (3, 2));
    assert_eq!(sum_at(&r, &own, 3, 1), (6, 1));
    assert_eq!(sum_at(&r, &own, 0, 1), (0, 1));
    assert_eq!(
        sum_at(&r, &[(1, 3), (2, 7), (1, 1), (5, 1)], 1, 1),
        (58, 21)
    );
}

#[test]
fn table_has_the_least_sums() {
    for (list, rows) in accepted_table() {
        let count = if rows.is_empty() { 0 } else { RIVALS };
        for (num, den) in [
            (1, 3),
            (1, 1),
            (3, 2),
            (9, 4),
            (5, 1),
            (u64::MAX, 1),
            (1, u64::MAX),
        ] {
            for seed in 0..20 {
                assert_eq!(least(&list.reports(), &rows, num, den, seed), Ok(count));
            }
        }
    }
}

/// Plans that keep the list but are not the one wanted have a greater sum at some threshold.
#[test]
fn other_plans_are_beaten() {
    let beaten = |list: crate::helpers::Owned, rows: &[[u32; 5]], num, den| {
        let fault = least(&list.reports(), rows, num, den, 1).unwrap_err();
        assert!(fault.contains("rival"), "{fault}");
    };
    // All at P/Q where there is slack.
    beaten(owned(&[0], &[10], &[4]), &[[0, 0, 0, 4, 4]], 2, 1);
    // A rise before the deadline, at the pace between.
    let list = owned(&[0, 0], &[4, 12], &[2, 2]);
    beaten(list, &[[0, 0, 0, 3, 2], [1, 1, 3, 12, 2]], 2, 1);
    // Idle time that is not needed.
    let list = owned(&[0, 6], &[10, 10], &[2, 2]);
    beaten(list, &[[0, 0, 0, 5, 2], [1, 1, 6, 10, 2]], 3, 1);
    // A finish rounded down.
    let list = owned(&[0, 0], &[7, 7], &[2, 2]);
    beaten(list, &[[0, 0, 0, 3, 2], [1, 1, 3, 7, 2]], 7, 4);
}

#[test]
fn rows_that_are_no_plan_are_named() {
    let r = owned(&[0, 0], &[4, 12], &[2, 2]).reports();
    let fault = least(&r, &[[0, 1, 0, 12, 4]], 1, 1, 0).unwrap_err();
    assert!(fault.contains("does not keep the list"), "{fault}");
    assert!(least(&r, &[[0, 0, 0, 4, 2]], 1, 1, 0).is_err());
    let rows = [[0, 0, 0, 4, 2], [1, 1, 4, 12, 2]];
    assert!(least(&r, &rows, 1, 0, 0).is_err());
}
