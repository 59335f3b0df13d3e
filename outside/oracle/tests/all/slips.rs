//! The slips named in "Slips we have seen others make", each with a list that shows it.

use crate::helpers::{accepted, owned};
use crate::table::wrapped;
use oracle::check;

#[test]
fn finishes_are_not_rounded() {
    // Pace 7/3: the finishes are 7/3, 14/3 and 7.
    let list = owned(&[0, 0, 0], &[7, 7, 7], &[1, 1, 1]);
    assert_eq!(list.answer(), accepted(&[[0, 2, 0, 7, 3]]));
    let r = list.reports();
    let rounded = [[0, 0, 0, 2, 1], [1, 1, 2, 4, 1], [2, 2, 4, 7, 1]];
    assert!(check::plan(&r, &rounded).is_err());
    assert!(check::plan(&r, &[[0, 2, 0, 6, 3]]).is_err());
}

#[test]
fn lows_count_for_the_first_pace() {
    let list = owned(&[0, 6], &[10, 10], &[2, 2]);
    assert_eq!(
        list.answer(),
        accepted(&[[0, 0, 0, 6, 2], [1, 1, 6, 10, 2]])
    );
    let idling = [[0, 0, 0, 5, 2], [1, 1, 6, 10, 2]];
    assert!(check::plan(&list.reports(), &idling).is_err());
}

#[test]
fn block_ends_at_the_last_report_with_the_least_high() {
    let list = owned(&[0, 0, 0], &[4, 8, 20], &[2, 2, 2]);
    assert_eq!(
        list.answer(),
        accepted(&[[0, 1, 0, 8, 4], [2, 2, 8, 20, 2]])
    );
    let two_of_one_pace = [[0, 0, 0, 4, 2], [1, 1, 4, 8, 2], [2, 2, 8, 20, 2]];
    assert!(check::plan(&list.reports(), &two_of_one_pace).is_err());
}

#[test]
fn arrival_at_the_deadline_before_does_not_split() {
    let list = owned(&[0, 4], &[4, 8], &[2, 2]);
    assert_eq!(list.answer(), accepted(&[[0, 1, 0, 8, 4]]));
    // With idle time between, two blocks may have one pace.
    let list = owned(&[0, 5], &[4, 9], &[2, 2]);
    assert_eq!(list.answer(), accepted(&[[0, 0, 0, 4, 2], [1, 1, 5, 9, 2]]));
}

#[test]
fn raw_readings_are_not_compared() {
    assert_eq!(wrapped().answer(), accepted(&[[0, 1, 5, 20, 4]]));
    // Readings that rise though the offsets fall.
    let mut list = owned(&[3, 4_294_967_295], &[9, 14], &[2, 2]);
    list.reference = 4_294_967_290;
    assert_eq!((list.answer().number, list.answer().place), (8, 1));
}
