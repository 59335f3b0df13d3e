//! Each refusal 1 to 14 with its place, on both sides of its line, and the order of the rules.

use crate::helpers::{accepted, owned, refused, Owned};
use oracle::{answer_program, answer_roll};

/// Two reports that are accepted as they stand.
fn sound() -> Owned {
    owned(&[0, 2], &[10, 20], &[3, 4])
}

/// A sound list with one change.
fn changed(change: impl FnOnce(&mut Owned)) -> Owned {
    let mut list = sound();
    change(&mut list);
    list
}

#[test]
fn refusal_1_lists_differ_in_length() {
    for list in [
        changed(|list| list.arrivals.push(30)),
        changed(|list| list.deadlines.push(30)),
        changed(|list| list.operations.push(30)),
        changed(|list| list.arrivals.clear()),
        changed(|list| list.operations.clear()),
    ] {
        assert_eq!(list.answer(), refused(1, 0));
    }
}

#[test]
fn refusal_2_more_than_1024_reports() {
    let many = |count: usize| {
        let deadlines: Vec<u32> = (1..=count as u32).collect();
        owned(&vec![0; count], &deadlines, &vec![1; count])
    };
    assert_eq!(many(1024).answer(), accepted(&[[0, 1023, 0, 1024, 1024]]));
    assert_eq!(many(1025).answer(), refused(2, 0));
    assert_eq!(answer_program(&many(1025).roll(b"")), b"plan 2 0 0\n");
}

#[test]
fn refusal_3_row_buffer_too_short() {
    assert_eq!(changed(|list| list.room = 10).answer().number, 0);
    assert_eq!(changed(|list| list.room = 9).answer(), refused(3, 0));
    assert_eq!(answer_roll(&sound().roll(b""), 9), refused(3, 0));
    assert_eq!(owned(&[], &[], &[]).answer(), accepted(&[]));
}

#[test]
fn refusal_4_p_or_q_outside() {
    for (p, q, number) in [
        (0, 1, 4),
        (1, 0, 4),
        (65_536, 65_535, 4),
        (65_535, 65_536, 4),
        (u32::MAX, 1, 4),
        (65_535, 65_535, 0),
        (1, 65_535, 0),
        (65_535, 1, 9),
    ] {
        assert_eq!(sound().with_pace(p, q).answer().number, number, "{p}/{q}");
    }
    let empty = owned(&[], &[], &[]).with_pace(1, 0);
    assert_eq!(empty.answer(), refused(4, 0));
    assert_eq!(answer_program(&empty.roll(b"")), b"plan 4 0 0\n");
}

#[test]
fn refusal_5_operations() {
    let list = changed(|list| list.operations[1] = 0);
    assert_eq!(list.answer(), refused(5, 1));
    let list = changed(|list| list.operations[0] = 65_536);
    assert_eq!(list.answer(), refused(5, 0));
    assert_eq!(owned(&[0], &[65_535], &[65_535]).answer().number, 0);
}

#[test]
fn refusals_6_and_7_offsets_past_the_usable() {
    let top = 2_147_483_647;
    let list = changed(|list| list.arrivals[1] = top + 1);
    assert_eq!(list.answer(), refused(6, 1));
    let list = changed(|list| list.deadlines[1] = u32::MAX);
    assert_eq!(list.answer(), refused(7, 1));
    let list = changed(|list| list.reference = 1);
    assert_eq!(list.answer(), refused(6, 0));
    let list = owned(&[top - 1], &[top], &[1]);
    assert_eq!(list.answer(), accepted(&[[0, 0, top - 1, top, 1]]));
    assert_eq!(owned(&[top], &[top], &[1]).answer(), refused(9, 0));
}

#[test]
fn refusal_8_arrivals_fall() {
    let list = owned(&[0, 5, 5, 4, 3], &[90; 5], &[1; 5]);
    assert_eq!(list.answer(), refused(8, 3));
}

#[test]
fn refusal_9_no_allowed_plan() {
    let place = |arrivals: &[u32], deadlines: &[u32], operations: &[u32]| {
        let answer = owned(arrivals, deadlines, operations).answer();
        assert_eq!((answer.number, answer.rows.len()), (9, 0));
        answer.place
    };
    assert_eq!(place(&[0], &[0], &[1]), 0);
    assert_eq!(place(&[5], &[4], &[1]), 0);
    assert_eq!(place(&[0, 5], &[9, 4], &[1, 1]), 1);
    // The third deadline lies before the others and has no room for all three.
    assert_eq!(place(&[0, 0, 0], &[10, 10, 2], &[1, 1, 1]), 2);
    // Two spans do not fit; the one that ends first counts.
    assert_eq!(place(&[0, 0, 7, 7], &[9, 9, 9, 9], &[5, 4, 1, 1]), 2);
    // Only the span that starts at report 1 does not fit.
    assert_eq!(place(&[0, 8, 8], &[9, 20, 12], &[1, 3, 2]), 2);
}

#[test]
fn refusal_9_is_exact_for_fractions() {
    let list = owned(&[0, 0], &[9, 3], &[4, 3]).with_pace(3, 7);
    assert_eq!(list.answer(), accepted(&[[0, 1, 0, 3, 7]]));
    let list = list.with_pace(429, 1_000);
    assert_eq!(list.answer(), refused(9, 1));
}

#[test]
fn refusals_10_to_13_of_a_roll() {
    let sound = sound().roll(b"preface");
    let length = sound.len();
    assert_eq!(answer_roll(&sound, 10).number, 0);
    assert_eq!(answer_roll(b"", 10), refused(10, 0));
    assert_eq!(answer_roll(&sound[length - 15..], 10), refused(10, 0));
    for at in [length - 1, length - 2] {
        let mut roll = sound.clone();
        roll[at] ^= 0x10;
        assert_eq!(answer_roll(&roll, 10), refused(11, 0));
    }
    for at in [
        length - 16,
        length - 15,
        length - 14,
        length - 13,
        length - 8,
        length - 7,
    ] {
        let mut roll = sound.clone();
        roll[at] ^= 0x80;
        assert_eq!(answer_roll(&roll, 10), refused(12, 0));
    }
    assert_eq!(answer_roll(&sound[7..], 10).number, 0);
    assert_eq!(answer_roll(&sound[8..], 10), refused(13, 0));
    assert_eq!(answer_roll(&sound[length - 16..], 10), refused(13, 0));
}

/// A trailer alone with back distance and count as given and the right mark.
fn trailer(back: u32, count: u16) -> Vec<u8> {
    let mut trailer = back.to_le_bytes().to_vec();
    trailer.extend([0; 4]);
    trailer.extend(count.to_le_bytes());
    trailer.extend([1, 0, 1, 0, 0x41, 0x51]);
    trailer
}

#[test]
fn back_distance_may_be_huge() {
    assert_eq!(answer_roll(&trailer(16, 0), 0), accepted(&[]));
    assert_eq!(answer_roll(&trailer(u32::MAX, 0), 0), refused(12, 0));
    assert_eq!(answer_roll(&trailer(u32::MAX, 65_535), 0), refused(12, 0));
    let back = 16 + 12 * 65_535;
    assert_eq!(answer_roll(&trailer(back, 65_535), 0), refused(13, 0));
    let mut roll = vec![0; 12 * 65_535];
    roll.extend(trailer(back, 65_535));
    assert_eq!(answer_roll(&roll, 0), refused(2, 0));
}

#[test]
fn refusal_14_before_all_others() {
    let mut roll = sound().roll(&vec![7; 65_536 - 40]);
    assert_eq!(roll.len(), 65_536);
    assert_eq!(
        answer_program(&roll),
        b"plan 0 0 1\n0 1 0 20 7\n"[..].to_vec()
    );
    roll.insert(0, 7);
    assert_eq!(answer_program(&roll), b"plan 14 0 0\n");
    assert_eq!(answer_program(&[0; 65_537]), b"plan 14 0 0\n");
    assert_eq!(answer_program(&[0; 65_536]), b"plan 11 0 0\n");
    assert_eq!(answer_program(b""), b"plan 10 0 0\n");
}

/// A list that breaks every rule but 7 at once is mended rule by rule; each time the next rule
/// in the order answers.
#[test]
fn rules_are_tried_in_their_order() {
    let count = 1_025;
    let mut list = owned(&vec![9; count], &vec![5; count], &vec![1; count + 1]);
    (list.p, list.q, list.room) = (1, 0, 0);
    list.operations[1_023] = 0;
    list.arrivals[1_022] = 2_147_483_648;
    list.arrivals[1_021] = 4;
    list.deadlines[1_020] = 2_147_483_648;
    assert_eq!(list.answer(), refused(1, 0));
    list.operations.truncate(count);
    assert_eq!(list.answer(), refused(2, 0));
    list.arrivals.pop();
    list.deadlines.pop();
    list.operations.pop();
    assert_eq!(list.answer(), refused(3, 0));
    list.room = 5_120;
    assert_eq!(list.answer(), refused(4, 0));
    list.q = 1;
    assert_eq!(list.answer(), refused(5, 1_023));
    list.operations[1_023] = 1;
    assert_eq!(list.answer(), refused(6, 1_022));
    list.arrivals[1_022] = 9;
    assert_eq!(list.answer(), refused(7, 1_020));
    list.deadlines[1_020] = 5;
    assert_eq!(list.answer(), refused(8, 1_021));
    list.arrivals[1_021] = 9;
    assert_eq!(list.answer(), refused(9, 0));
}

#[test]
fn rules_of_the_roll_come_in_their_order() {
    let mut bad = trailer(17, 1);
    bad[15] = 0;
    assert_eq!(answer_roll(&bad[1..], 0), refused(10, 0));
    assert_eq!(answer_roll(&bad, 0), refused(11, 0));
    bad[15] = 0x51;
    assert_eq!(answer_roll(&bad, 0), refused(12, 0));
    bad[0] = 28;
    assert_eq!(answer_roll(&bad, 0), refused(13, 0));
    let mut roll = vec![0; 12];
    roll.extend(&bad);
    assert_eq!(answer_roll(&roll, 4), refused(3, 0));
    assert_eq!(answer_roll(&roll, 5), refused(5, 0));
}
