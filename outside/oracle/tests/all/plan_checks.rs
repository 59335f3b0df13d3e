//! `check::plan` accepts the right rows of the table and names what fails in wrong ones.

use crate::helpers::{owned, Owned, Row};
use crate::table::{accepted_table, wrapped};
use oracle::check;

/// Asserts that these rows are rejected for this reason.
fn rejected(list: &Owned, rows: &[Row], reason: &str) {
    let fault = check::plan(&list.reports(), rows).expect_err("wrong rows accepted");
    assert!(fault.contains(reason), "{fault}, not {reason}");
}

#[test]
fn right_rows_are_accepted() {
    for (list, rows) in accepted_table() {
        assert_eq!(check::plan(&list.reports(), &rows), Ok(()));
    }
    let r = wrapped().reports();
    assert_eq!(check::plan(&r, &[[0, 1, 5, 20, 4]]), Ok(()));
}

#[test]
fn rounded() {
    let list = owned(&[0, 0], &[7, 7], &[2, 2]);
    rejected(&list, &[[0, 0, 0, 3, 2], [1, 1, 3, 7, 2]], "property 2");
    rejected(&list, &[[0, 0, 0, 4, 2], [1, 1, 4, 7, 2]], "property 3");
    rejected(&list, &[[0, 1, 0, 4, 4]], "property 4");
    rejected(&list, &[[0, 1, 0, 8, 4]], "after its deadline");
}

#[test]
fn split_at_equality() {
    let list = owned(&[0, 4], &[4, 8], &[2, 2]);
    let rows = [[0, 0, 0, 4, 2], [1, 1, 4, 8, 2]];
    rejected(&list, &rows, "not the longest run");
}

#[test]
fn lumped() {
    let list = owned(&[0, 0], &[4, 12], &[2, 2]);
    rejected(&list, &[[0, 1, 0, 12, 4]], "report 0: finish is after");
    let list = owned(&[0, 6], &[10, 10], &[2, 2]);
    rejected(&list, &[[0, 1, 0, 10, 4]], "finishes at 44/4");
    let list = owned(&[0, 10], &[4, 14], &[2, 2]);
    rejected(&list, &[[0, 1, 0, 14, 4]], "its last report finishes at");
    let list = owned(&[0, 0, 12], &[4, 20, 16], &[2, 2, 2]);
    let rows = [[0, 0, 0, 4, 2], [1, 2, 4, 16, 4]];
    rejected(&list, &rows, "its last report finishes at");
}

#[test]
fn idle_before_the_deadline() {
    let list = owned(&[0, 10], &[4, 14], &[2, 2]);
    rejected(&list, &[[0, 0, 0, 3, 2], [1, 1, 10, 14, 2]], "property 1");
    let list = owned(&[0, 6], &[10, 10], &[2, 2]);
    rejected(&list, &[[0, 0, 0, 5, 2], [1, 1, 6, 10, 2]], "property 1");
}

#[test]
fn rise_before_the_deadline() {
    let list = owned(&[0, 0], &[4, 12], &[2, 2]);
    rejected(&list, &[[0, 0, 0, 3, 2], [1, 1, 3, 12, 2]], "property 2");
}

#[test]
fn fall_after_the_arrival() {
    let list = owned(&[0, 6], &[10, 10], &[2, 2]);
    rejected(&list, &[[0, 0, 0, 7, 2], [1, 1, 7, 10, 2]], "property 3");
}

#[test]
fn early_last_end() {
    let list = owned(&[0], &[10], &[4]);
    rejected(&list, &[[0, 0, 0, 9, 4]], "property 4");
    let list = owned(&[0, 10], &[4, 14], &[2, 2]);
    rejected(&list, &[[0, 0, 0, 4, 2], [1, 1, 10, 13, 2]], "property 4");
}

#[test]
fn pace_below_the_fastest() {
    let list = owned(&[0], &[4], &[5]);
    rejected(&list, &[[0, 0, 0, 4, 5]], "below P/Q");
    rejected(&list, &[[0, 0, 4, 4, 5]], "not positive");
    rejected(&list, &[[0, 0, 4, 3, 5]], "not positive");
}

#[test]
fn rows_that_do_not_cover() {
    let list = owned(&[0, 0], &[4, 12], &[2, 2]);
    rejected(&list, &[], "rows end before report 0");
    rejected(&list, &[[0, 0, 0, 4, 2]], "rows end before report 1");
    rejected(&list, &[[1, 1, 4, 12, 2]], "do not follow");
    rejected(&list, &[[0, 0, 0, 4, 2], [0, 1, 4, 12, 4]], "do not follow");
    rejected(&list, &[[0, u32::MAX, 0, 12, 4]], "do not follow");
    rejected(&list, &[[0, 0, 0, 4, 2], [1, 0, 4, 12, 2]], "do not follow");
    rejected(&list, &[[0, 0, 0, 4, 2], [1, 1, 4, 12, 3]], "operations");
}

#[test]
fn starts_that_are_not_those_of_the_first_report() {
    let list = owned(&[1, 3], &[4, 12], &[2, 2]);
    assert_eq!(list.answer().rows, [[0, 0, 1, 4, 2], [1, 1, 4, 12, 2]]);
    rejected(&list, &[[0, 0, 0, 4, 2], [1, 1, 4, 12, 2]], "starts at 1");
    rejected(&list, &[[0, 0, 1, 4, 2], [1, 1, 5, 12, 2]], "starts at 4");
    rejected(&list, &[[0, 0, 1, 4, 2], [1, 1, 3, 12, 2]], "starts at 4");
}
