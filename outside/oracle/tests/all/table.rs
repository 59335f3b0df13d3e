//! Every row of the table "Lists on both sides of a line", the list whose clock runs past its top,
//! and the sample roll to the byte.

use crate::helpers::{accepted, owned, refused, Owned, Row};
use oracle::{answer_program, answer_roll, check, Answer};

/// The accepted rows of the table, starred ones first.
pub fn accepted_table() -> Vec<(Owned, Vec<Row>)> {
    vec![
        (owned(&[], &[], &[]), vec![]),
        (owned(&[0], &[10], &[4]), vec![[0, 0, 0, 10, 4]]),
        (owned(&[0], &[4], &[4]), vec![[0, 0, 0, 4, 4]]),
        (
            owned(&[0, 0], &[4, 12], &[2, 2]),
            vec![[0, 0, 0, 4, 2], [1, 1, 4, 12, 2]],
        ),
        (
            owned(&[0, 6], &[10, 10], &[2, 2]),
            vec![[0, 0, 0, 6, 2], [1, 1, 6, 10, 2]],
        ),
        (
            owned(&[0, 10], &[4, 14], &[2, 2]),
            vec![[0, 0, 0, 4, 2], [1, 1, 10, 14, 2]],
        ),
        (owned(&[0, 4], &[4, 8], &[2, 2]), vec![[0, 1, 0, 8, 4]]),
        (owned(&[0, 0], &[10, 5], &[3, 2]), vec![[0, 1, 0, 5, 5]]),
        (
            owned(&[0, 0, 9, 9], &[6, 20, 20, 12], &[2, 2, 1, 1]),
            vec![[0, 1, 0, 9, 4], [2, 3, 9, 12, 2]],
        ),
        (
            owned(&[0, 0, 12], &[4, 20, 16], &[2, 2, 2]),
            vec![[0, 0, 0, 4, 2], [1, 1, 4, 12, 2], [2, 2, 12, 16, 2]],
        ),
        (
            owned(&[0], &[2], &[3]).with_pace(2, 3),
            vec![[0, 0, 0, 2, 3]],
        ),
        (
            owned(&[0], &[2_147_483_647], &[1]),
            vec![[0, 0, 0, 2_147_483_647, 1]],
        ),
    ]
}

/// The refused rows of the table.
fn refused_table() -> Vec<(Owned, Answer)> {
    vec![
        (owned(&[0], &[4], &[5]), refused(9, 0)),
        (owned(&[0], &[2], &[4]).with_pace(2, 3), refused(9, 0)),
        (owned(&[0], &[2_147_483_648], &[1]), refused(7, 0)),
        (owned(&[5, 4], &[20, 20], &[2, 2]), refused(8, 1)),
        (owned(&[5, 4], &[20, 20], &[2, 0]), refused(5, 1)),
    ]
}

/// The list with reference 4,294,967,290.
pub fn wrapped() -> Owned {
    let mut list = owned(&[4_294_967_295, 3], &[9, 14], &[2, 2]);
    list.reference = 4_294_967_290;
    list
}

#[test]
fn accepted_lists_of_the_table() {
    for (list, rows) in accepted_table() {
        for reference in [0, 1, 7, 2_147_483_648, 4_294_967_290, 4_294_967_295] {
            let list = list.clone().with_reference(reference);
            assert_eq!(list.answer(), accepted(&rows), "{list:?}");
            assert_eq!(check::plan(&list.reports(), &rows), Ok(()), "{list:?}");
        }
        let roll = list.roll(b"any preface");
        assert_eq!(answer_roll(&roll, list.room), accepted(&rows));
    }
}

#[test]
fn refused_lists_of_the_table() {
    for (list, answer) in refused_table() {
        for reference in [0, 1, 4_294_967_290] {
            let list = list.clone().with_reference(reference);
            assert_eq!(list.answer(), answer, "{list:?}");
            assert_eq!(answer_roll(&list.roll(b""), list.room), answer);
        }
    }
}

#[test]
fn clock_that_runs_past_its_top() {
    let r = wrapped().reports();
    assert_eq!((r.arrival, r.deadline), (vec![5, 9], vec![15, 20]));
    assert_eq!(wrapped().answer(), accepted(&[[0, 1, 5, 20, 4]]));
    let text = answer_program(&wrapped().roll(&[0; 3]));
    assert_eq!(text, b"plan 0 0 1\n0 1 5 20 4\n");
}

/// The sample's bytes as they are printed in the document.
const SAMPLE: &str = "64000000 68000000 02000000 64000000 70000000 02000000 \
                      28000000 64000000 0200 0100 0100 4151";

#[test]
fn sample_roll_to_the_byte() {
    let digits: Vec<char> = SAMPLE.chars().filter(|c| !c.is_whitespace()).collect();
    let sample: Vec<u8> = digits
        .chunks(2)
        .map(|pair| u8::from_str_radix(&pair.iter().collect::<String>(), 16).unwrap())
        .collect();
    assert_eq!(sample.len(), 40);
    let text = answer_program(&sample);
    assert_eq!(text, b"plan 0 0 2\n0 0 0 4 2\n1 1 4 12 2\n");
    let list = owned(&[0, 0], &[4, 12], &[2, 2]).with_reference(100);
    assert_eq!(list.roll(b""), sample);
}
