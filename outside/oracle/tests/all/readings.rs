//! What is read of a roll: the trailer's numbers and where the records lie, on both sides of each line.

use crate::helpers::{owned, Owned, Random};
use oracle::{read_roll, Reading};

/// Two reports with numbers that differ.
fn two() -> Owned {
    owned(&[3, 5], &[20, 30], &[7, 11])
        .with_pace(258, 772)
        .with_reference(0xfeed_cafe)
}

/// What is read of `two` behind a preface of so many bytes.
fn read_at(at: usize) -> Reading {
    Reading {
        number: 0,
        count: 2,
        reference: 0xfeed_cafe,
        p: 258,
        q: 772,
        floor: None,
        at,
        size: 24,
    }
}

/// A refusal: all numbers but its own are 0.
fn refused(number: u32) -> Reading {
    Reading {
        number,
        count: 0,
        reference: 0,
        p: 0,
        q: 0,
        floor: None,
        at: 0,
        size: 0,
    }
}

#[test]
fn the_records_lie_behind_the_preface() {
    for length in [0, 1, 11, 12, 13, 40, 1_000] {
        let roll = two().roll(&vec![0xaa; length]);
        assert_eq!(read_roll(&roll), read_at(length));
        assert_eq!(&roll[length..length + 24], &two().roll(b"")[..24]);
    }
}

#[test]
fn a_preface_with_the_same_bytes_is_not_looked_at() {
    let roll = two().roll(b"");
    assert_eq!(read_roll(&two().roll(&roll[..24])), read_at(24));
    assert_eq!(read_roll(&two().roll(&roll)), read_at(40));
}

#[test]
fn a_roll_without_records_has_an_empty_part_before_its_trailer() {
    let empty = |at| Reading {
        number: 0,
        count: 0,
        reference: 9,
        p: 1,
        q: 1,
        floor: None,
        at,
        size: 0,
    };
    let list = owned(&[], &[], &[]).with_reference(9);
    assert_eq!(read_roll(&list.roll(b"")), empty(0));
    assert_eq!(read_roll(&list.roll(b"any preface")), empty(11));
}

#[test]
fn the_rules_of_a_list_are_not_tried() {
    let many = owned(&vec![0; 65_535], &vec![0; 65_535], &vec![0; 65_535]).with_pace(0, 0);
    let wanted = Reading {
        number: 0,
        count: 65_535,
        reference: 0,
        p: 0,
        q: 0,
        floor: None,
        at: 3,
        size: 786_420,
    };
    assert_eq!(read_roll(&many.roll(b"pre")), wanted);
}

#[test]
fn each_refusal_stands_alone() {
    let roll = two().roll(b"preface");
    let length = roll.len();
    let turned = |at: usize, bit: u8| {
        let mut turned = roll.clone();
        turned[at] ^= bit;
        read_roll(&turned)
    };
    assert_eq!(read_roll(b""), refused(10));
    assert_eq!(read_roll(&roll[length - 15..]), refused(10));
    assert_eq!(read_roll(&roll[length - 16..]), refused(13));
    assert_eq!(read_roll(&roll[7..]), read_at(0));
    assert_eq!(read_roll(&roll[8..]), refused(13));
    assert_eq!(read_roll(&roll[..length - 1]), refused(11));
    for bit in (0..8).map(|k| 1 << k) {
        for at in [length - 1, length - 2] {
            assert_eq!(turned(at, bit), refused(11));
        }
        for at in (length - 16..length - 12).chain(length - 8..length - 6) {
            assert_eq!(turned(at, bit), refused(12));
        }
        for at in 0..length - 16 {
            assert_eq!(turned(at, bit), read_at(7));
        }
    }
}

/// Where the records lie, told from the other end: the part and the trailer fill the roll up.
#[test]
fn the_part_ends_at_the_trailer() {
    let mut random = Random(99);
    for _ in 0..2_000 {
        let count = random.below(30) as usize;
        let column: Vec<u32> = (0..count).map(|_| random.next() as u32).collect();
        let length = random.below(50) as usize;
        let preface: Vec<u8> = (0..length).map(|_| random.next() as u8).collect();
        let roll = owned(&column, &column, &column).roll(&preface);
        let reading = read_roll(&roll);
        assert_eq!((reading.number, reading.at), (0, length));
        assert_eq!(reading.size, 12 * count);
        assert_eq!(reading.at + reading.size + 16, roll.len());
    }
}
