//! Rolls that are written: their bytes, what stays around them, and each refusal on both sides of its
//! line.

use crate::helpers::{owned, Owned, Random};
use oracle::{list_in, read_roll, write_roll, Carried, Written};

/// 01's sample, as a list and as a roll.
fn sample() -> (Owned, Vec<u8>) {
    let list = owned(&[0, 0], &[4, 12], &[2, 2]).with_reference(100);
    let hex = "6400000068000000020000006400000070000000020000002800000064000000\
               0200010001004151";
    let roll = (0..40)
        .map(|i| u8::from_str_radix(&hex[2 * i..2 * i + 2], 16).unwrap())
        .collect();
    (list, roll)
}

/// Bytes to be written over, in which neighbours differ.
fn pattern(length: usize) -> Vec<u8> {
    (0..length).map(|i| 0xa0 ^ i as u8).collect()
}

/// The number of the refusal; it leaves the buffer alone, and gives no bytes and no place.
fn refusal(list: &Owned, room: usize, at: usize) -> u32 {
    let before = pattern(room);
    let written = write_roll(&list.list(), &before, at);
    let number = written.number;
    let wanted = Written {
        number,
        place: 0,
        bytes: 0,
        buffer: before,
    };
    assert_eq!(written, wanted);
    number
}

#[test]
fn the_sample_is_written() {
    let (list, roll) = sample();
    let written = write_roll(&list.list(), &pattern(40), 0);
    let wanted = Written {
        number: 0,
        place: 0,
        bytes: 40,
        buffer: roll,
    };
    assert_eq!(written, wanted);
}

#[test]
fn the_bytes_around_the_roll_stay() {
    let (list, roll) = sample();
    let before = pattern(60);
    for at in 0..=20 {
        let written = write_roll(&list.list(), &before, at);
        assert_eq!((written.number, written.bytes), (0, 40));
        let wanted = [&before[..at], &roll, &before[at + 40..]].concat();
        assert_eq!(written.buffer, wanted);
    }
}

#[test]
fn the_order_of_the_fields() {
    let mut list = owned(&[0x0403_0201], &[0x0807_0605], &[0x0c0b_0a09]);
    list.reference = 0x1413_1211;
    let written = write_roll(&list.with_pace(0x1817, 0x1a19).list(), &pattern(28), 0);
    let records: Vec<u8> = (1..=12).collect();
    assert_eq!(written.buffer[..12], records);
    let trailer = b"\x1c\0\0\0\x11\x12\x13\x14\x01\0\x17\x18\x19\x1aAQ";
    assert_eq!(written.buffer[12..], *trailer);
}

#[test]
fn an_empty_list_is_a_trailer() {
    let list = owned(&[], &[], &[]).with_pace(0, 65_535);
    let written = write_roll(&list.list(), &pattern(16), 0);
    let trailer = b"\x10\0\0\0\0\0\0\0\0\0\0\0\xff\xffAQ";
    assert_eq!((written.number, written.bytes), (0, 16));
    assert_eq!(written.buffer, trailer);
}

#[test]
fn too_little_room() {
    let (list, _) = sample();
    assert_eq!(refusal(&list, 39, 0), 15);
    assert_eq!(refusal(&list, 0, 0), 15);
    for at in [21, 59, 60, 61, usize::MAX - 40, usize::MAX - 39, usize::MAX] {
        assert_eq!(refusal(&list, 60, at), 15);
    }
    let empty = owned(&[], &[], &[]);
    assert_eq!(write_roll(&empty.list(), &pattern(60), 44).number, 0);
    assert_eq!(refusal(&empty, 60, 45), 15);
    assert_eq!(refusal(&empty, 60, usize::MAX - 15), 15);
}

#[test]
fn each_rule_stands_before_the_next() {
    let uneven = owned(&[0; 1025], &[0; 2], &[0; 1025]).with_pace(65_536, 1);
    assert_eq!(refusal(&uneven, 15, 0), 1);
    let uneven = owned(&[0; 2], &[0; 2], &[0; 1025]).with_pace(65_536, 1);
    assert_eq!(refusal(&uneven, 15, 0), 1);
    let many = owned(&[0; 1025], &[0; 1025], &[0; 1025]);
    assert_eq!(refusal(&many.clone().with_pace(65_536, 1), 15, 0), 2);
    assert_eq!(refusal(&many, 20_000, 0), 2);
    for (p, q) in [(65_536, 0), (0, 65_536), (u32::MAX, 1), (1, u32::MAX)] {
        let list = owned(&[0; 1024], &[0; 1024], &[0; 1024]).with_pace(p, q);
        assert_eq!(refusal(&list, 15, usize::MAX), 4);
        assert_eq!(refusal(&list, 20_000, 0), 4);
    }
    let list = owned(&[0; 1024], &[0; 1024], &[0; 1024]).with_pace(0, 65_535);
    assert_eq!(refusal(&list, 12_303, 0), 15);
    assert_eq!(write_roll(&list.list(), &pattern(12_304), 0).number, 0);
}

/// Reader and writer share nothing, so that each tests the other: what is read is what was written, and
/// what was read is written again as it was.
#[test]
fn what_is_written_reads_back() {
    let mut random = Random(5);
    for _ in 0..2_000 {
        let count = random.below(30) as usize;
        let mut column = || (0..count).map(|_| random.next() as u32).collect();
        let [arrivals, deadlines, operations]: [Vec<u32>; 3] = [column(), column(), column()];
        let mut list = owned(&arrivals, &deadlines, &operations)
            .with_pace(random.below(65_536), random.below(65_536));
        list.reference = random.next() as u32;
        let at = random.below(50) as usize;
        let before = pattern(at + 12 * count + 16 + random.below(20) as usize);
        let written = write_roll(&list.list(), &before, at);
        let roll = &written.buffer[..at + written.bytes];
        let reading = read_roll(roll);
        assert_eq!((reading.number, reading.at), (0, at));
        assert_eq!(
            (reading.reference, reading.p, reading.q),
            (list.reference, list.p, list.q)
        );
        let carried = Carried {
            arrivals,
            deadlines,
            operations,
        };
        assert_eq!(list_in(roll, &reading), carried);
        assert_eq!(roll[at..], list.roll(b""));
    }
}
