//! Rolls marked "AF" (W2): the trailer of 20 bytes, and 20 for 16 in refusals 10 and 12.

use crate::helpers::{owned, refused, Owned, Random};
use oracle::{answer_roll, read_roll, Reading};

/// Two reports with numbers that differ.
fn two() -> Owned {
    owned(&[3, 5], &[20, 30], &[7, 11])
        .with_pace(258, 772)
        .with_floor(1_286, 1_800)
        .with_reference(0xfeed_cafe)
}

/// What is read of `two` behind a preface of so many bytes.
fn read_at(at: usize) -> Reading {
    Reading {
        number: 0,
        count: 2,
        reference: 0xfeed_cafe,
        p: 258,
        q: 772,
        floor: Some((1_286, 1_800)),
        at,
        size: 24,
    }
}

/// The reading of a refusal.
fn not_read(number: u32) -> Reading {
    Reading {
        number,
        ..Reading::default()
    }
}

#[test]
fn the_order_of_the_fields() {
    let mut list = owned(&[], &[], &[])
        .with_pace(0x0e0d, 0x100f)
        .with_floor(0x0201, 0x0403);
    list.reference = 0x0c0b_0a09;
    let trailer = b"\x01\x02\x03\x04\x14\0\0\0\x09\x0a\x0b\x0c\0\0\x0d\x0e\x0f\x10AF";
    assert_eq!(list.roll(b""), trailer);
    let reading = read_roll(trailer);
    assert_eq!(reading.number, 0);
    assert_eq!(reading.floor, Some((0x0201, 0x0403)));
    assert_eq!((reading.p, reading.q), (0x0e0d, 0x100f));
    assert_eq!(reading.reference, 0x0c0b_0a09);
}

#[test]
fn the_records_lie_behind_the_preface() {
    for length in [0, 1, 11, 12, 13, 40, 1_000] {
        let roll = two().roll(&vec![0xaa; length]);
        assert_eq!(read_roll(&roll), read_at(length));
        assert_eq!(&roll[length..length + 24], &two().roll(b"")[..24]);
        assert_eq!(roll.len(), length + 24 + 20);
    }
}

#[test]
fn each_refusal_stands_alone() {
    let roll = two().roll(b"preface");
    let length = roll.len();
    let turned = |at: usize, bit: u8| {
        let mut turned = roll.clone();
        turned[at] ^= bit;
        read_roll(&turned)
    };
    for short in 0..20 {
        assert_eq!(read_roll(&roll[length - short..]), not_read(10));
    }
    assert_eq!(read_roll(&roll[length - 20..]), not_read(13));
    assert_eq!(read_roll(&roll[7..]), read_at(0));
    assert_eq!(read_roll(&roll[8..]), not_read(13));
    assert_eq!(read_roll(&roll[..length - 1]), not_read(11));
    for bit in (0..8).map(|k| 1 << k) {
        for at in [length - 1, length - 2] {
            assert_eq!(turned(at, bit), not_read(11));
        }
        for at in (length - 16..length - 12).chain(length - 8..length - 6) {
            assert_eq!(turned(at, bit), not_read(12));
        }
        for at in 0..length - 20 {
            assert_eq!(turned(at, bit), read_at(7));
        }
    }
    // R and T are any numbers of two bytes
    assert_eq!(turned(length - 20, 1).floor, Some((1_287, 1_800)));
    assert_eq!(turned(length - 17, 0x80).floor, Some((1_286, 34_568)));
}

/// The mark decides how long the trailer is: with the other mark the back distance is wrong.
#[test]
fn the_other_mark_makes_the_back_distance_wrong() {
    let mut roll = two().roll(b"preface");
    *roll.last_mut().unwrap() = b'Q';
    assert_eq!(read_roll(&roll), not_read(12));
    let mut list = two();
    list.floor = None;
    let mut roll = list.roll(b"preface");
    *roll.last_mut().unwrap() = b'F';
    assert_eq!(read_roll(&roll), not_read(12));
}

/// A trailer without records, of either mark, with as many of its last bytes as there are.
#[test]
fn short_files() {
    let plain = owned(&[], &[], &[]);
    for length in 0..=24 {
        let end = |roll: Vec<u8>| roll[roll.len() - length..].to_vec();
        let floored = end(plain.clone().with_floor(2, 1).roll(&[7; 4]));
        let number = if length < 20 { 10 } else { 0 };
        assert_eq!(read_roll(&floored).number, number, "{length}");
        assert_eq!(answer_roll(&floored, 0), refused(number, 0));
        let unfloored = end(plain.roll(&[7; 8]));
        let number = if length < 16 { 10 } else { 0 };
        assert_eq!(read_roll(&unfloored).number, number, "{length}");
    }
}

#[test]
fn rolls_answer_as_their_lists() {
    let mut random = Random(78);
    let mut numbers = [0; 18];
    for _ in 0..4_000 {
        let mut list = crate::random::random_list(&mut random, 5, 24);
        list.floor = Some((random.below(9), random.below(5)));
        let preface: Vec<u8> = (0..random.below(40)).map(|byte| byte as u8).collect();
        let answer = answer_roll(&list.roll(&preface), list.room);
        assert_eq!(answer, list.answer());
        numbers[answer.number as usize] += 1;
    }
    for number in [0, 9, 16, 17] {
        assert!(numbers[number] > 100, "{numbers:?}");
    }
}
