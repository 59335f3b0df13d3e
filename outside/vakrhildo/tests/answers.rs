//! The wrapper hands on what the library answers: rows, refusals with their places, buffers that stay,
//! the part of a roll that holds the records, and rolls that are written; with a floor and without.

use vakrhildo::{plan, plan_floor, plan_floor_raw, plan_raw, plan_roll, plan_roll_raw};
use vakrhildo::{read, read_raw, rows, write, write_raw};
use vakrhildo::{Floor, Numbers, Reading, Refusal, Reply, Row, WriteReply, REPORTS, ROLL, ROW};

const SAMPLE: [u8; 40] = [
    0x64, 0, 0, 0, 0x68, 0, 0, 0, 2, 0, 0, 0, 0x64, 0, 0, 0, 0x70, 0, 0, 0, 2, 0, 0, 0, 0x28, 0, 0,
    0, 0x64, 0, 0, 0, 2, 0, 1, 0, 1, 0, 0x41, 0x51,
];

/// The sample's list with the floor 3/2: R and T come first, the back distance is 44.
const FLOORED: [u8; 44] = [
    0x64, 0, 0, 0, 0x68, 0, 0, 0, 2, 0, 0, 0, 0x64, 0, 0, 0, 0x70, 0, 0, 0, 2, 0, 0, 0, 3, 0, 2, 0,
    0x2c, 0, 0, 0, 0x64, 0, 0, 0, 2, 0, 1, 0, 1, 0, 0x41, 0x46,
];

#[test]
fn rows_stand_at_the_front_and_the_rest_stays() {
    let mut buffer = [7u32; 12];
    assert_eq!(
        plan(&[0, 0], &[4, 12], &[2, 2], 0, 1, 1, &mut buffer),
        Ok(2)
    );
    assert_eq!(buffer, [0, 0, 0, 4, 2, 1, 1, 4, 12, 2, 7, 7]);
    let found: Vec<Row> = rows(&buffer, 2).collect();
    assert_eq!(
        found[1],
        Row {
            first: 1,
            last: 1,
            start: 4,
            end: 12,
            operations: 2
        }
    );
}

#[test]
fn a_roll_is_planned_as_its_list() {
    let mut buffer = [0u32; ROW * REPORTS];
    assert_eq!(plan_roll(&SAMPLE, &mut buffer), Ok(2));
    assert_eq!(buffer[..10], [0, 0, 0, 4, 2, 1, 1, 4, 12, 2]);
}

#[test]
fn a_refusal_has_its_number_and_place_and_writes_nothing() {
    let mut buffer = [7u32; 12];
    let refused = |number, place| Err(Refusal { number, place });
    assert_eq!(
        plan(&[0, 0], &[4], &[2, 2], 0, 1, 1, &mut buffer),
        refused(1, 0)
    );
    assert_eq!(
        plan(&[0; 1025], &[0; 1025], &[0; 1025], 0, 1, 1, &mut buffer),
        refused(2, 0)
    );
    assert_eq!(
        plan(&[0, 0, 0], &[9, 9, 9], &[1, 1, 1], 0, 1, 1, &mut buffer),
        refused(3, 0)
    );
    assert_eq!(
        plan(&[0], &[9], &[1], 0, 1, 65_536, &mut buffer),
        refused(4, 0)
    );
    assert_eq!(
        plan(&[5, 4], &[20, 20], &[2, 0], 0, 1, 1, &mut buffer),
        refused(5, 1)
    );
    assert_eq!(
        plan(&[3, 2], &[9, 9], &[1, 1], 3, 1, 1, &mut buffer),
        refused(6, 1)
    );
    assert_eq!(
        plan(&[0], &[2_147_483_648], &[1], 0, 1, 1, &mut buffer),
        refused(7, 0)
    );
    assert_eq!(
        plan(&[5, 4], &[20, 20], &[2, 2], 0, 1, 1, &mut buffer),
        refused(8, 1)
    );
    assert_eq!(
        plan(&[0, 0], &[4, 5], &[4, 2], 0, 1, 1, &mut buffer),
        refused(9, 1)
    );
    assert_eq!(plan_roll(&SAMPLE[..15], &mut buffer), refused(10, 0));
    assert_eq!(plan_roll(&SAMPLE[..39], &mut buffer), refused(11, 0));
    assert_eq!(plan_roll(&SAMPLE[1..], &mut buffer), refused(13, 0));
    assert_eq!(buffer, [7; 12]);
}

#[test]
fn the_librarys_own_reply_has_all_three_numbers() {
    let mut buffer = [7u32; 12];
    let reply = |number, place, blocks| Reply {
        number,
        place,
        blocks,
    };
    assert_eq!(
        plan_raw(&[0, 0], &[4, 12], &[2, 2], 0, 1, 1, &mut buffer),
        reply(0, 0, 2)
    );
    assert_eq!(
        plan_raw(&[0, 0], &[4, 5], &[4, 2], 0, 1, 1, &mut buffer),
        reply(9, 1, 0)
    );
    assert_eq!(plan_roll_raw(&SAMPLE, &mut buffer), reply(0, 0, 2));
    assert_eq!(plan_roll_raw(&SAMPLE[1..], &mut buffer), reply(13, 0, 0));
}

#[test]
fn a_reading_has_the_trailers_numbers_and_the_callers_own_bytes() {
    let roll = [&SAMPLE[..24], &[9], &SAMPLE].concat();
    let reading = read(&roll).expect("a roll");
    assert!(std::ptr::eq(reading.part, &roll[25..49]));
    assert_eq!(
        reading,
        Reading {
            count: 2,
            reference: 100,
            p: 1,
            q: 1,
            floor: None,
            part: &SAMPLE[..24]
        }
    );
    assert_eq!(
        read_raw(&roll),
        Numbers {
            number: 0,
            count: 2,
            reference: 100,
            p: 1,
            q: 1,
            floor: 0,
            r: 0,
            t: 0,
            at: 25,
            size: 24
        }
    );
}

#[test]
fn a_roll_that_is_not_read_has_its_refusal_and_no_other_number() {
    let (mut unlike, mut unlike_floored) = (SAMPLE, FLOORED);
    unlike[32] = 1;
    unlike_floored[28] = 40;
    for (roll, number) in [
        (&SAMPLE[..15], 10),
        (&FLOORED[25..], 10),
        (&FLOORED[28..], 10),
        (&SAMPLE[..39], 11),
        (&unlike[..], 12),
        (&unlike_floored, 12),
        (&SAMPLE[1..], 13),
        (&FLOORED[1..], 13),
        (&FLOORED[24..], 13),
    ] {
        assert_eq!(read(roll), Err(Refusal { number, place: 0 }));
        assert_eq!(
            read_raw(roll),
            Numbers {
                number,
                count: 0,
                reference: 0,
                p: 0,
                q: 0,
                floor: 0,
                r: 0,
                t: 0,
                at: 0,
                size: 0
            }
        );
    }
}

#[test]
fn a_reading_of_a_roll_with_a_floor_has_r_and_t() {
    let roll = [&b"pre"[..], &FLOORED].concat();
    let reading = read(&roll).expect("a roll");
    assert!(std::ptr::eq(reading.part, &roll[3..27]));
    assert_eq!((reading.count, reading.reference), (2, 100));
    assert_eq!((reading.p, reading.q), (1, 1));
    assert_eq!(reading.floor, Some(Floor { r: 3, t: 2 }));
    assert_eq!(
        read_raw(&roll),
        Numbers {
            number: 0,
            count: 2,
            reference: 100,
            p: 1,
            q: 1,
            floor: 1,
            r: 3,
            t: 2,
            at: 3,
            size: 24
        }
    );
    // R and T are handed on as they stand, though no list is planned with them
    let zero = [&FLOORED[..24], &[0; 4], &FLOORED[28..]].concat();
    let floor = read(&zero).map(|reading| reading.floor);
    assert_eq!(floor, Ok(Some(Floor { r: 0, t: 0 })));
}

/// Plans 01's sample with a floor, at P/Q.
fn plan_sample(p: u32, q: u32, r: u32, t: u32, buffer: &mut [u32]) -> Result<usize, Refusal> {
    let floor = Floor { r, t };
    plan_floor(&[0, 0], &[4, 12], &[2, 2], 0, p, q, floor, buffer)
}

#[test]
fn rows_are_the_same_with_a_floor() {
    for (r, t) in [(1, 1), (3, 2), (4, 1), (65_535, 1), (65_535, 65_535)] {
        let mut buffer = [7u32; 12];
        assert_eq!(plan_sample(1, 1, r, t, &mut buffer), Ok(2));
        assert_eq!(buffer, [0, 0, 0, 4, 2, 1, 1, 4, 12, 2, 7, 7]);
    }
    let mut buffer = [7u32; 12];
    assert_eq!(plan_roll(&FLOORED, &mut buffer), Ok(2));
    assert_eq!(buffer, [0, 0, 0, 4, 2, 1, 1, 4, 12, 2, 7, 7]);
}

#[test]
fn a_floor_that_may_not_be_is_refused_and_writes_nothing() {
    let mut buffer = [7u32; 12];
    let refused = |number, place| Err(Refusal { number, place });
    for (r, t) in [
        (0, 1),
        (1, 0),
        (65_536, 1),
        (1, 65_536),
        (u32::MAX, u32::MAX),
    ] {
        assert_eq!(plan_sample(1, 1, r, t, &mut buffer), refused(16, 0));
        assert_eq!(plan_sample(1, 0, r, t, &mut buffer), refused(4, 0));
    }
    assert_eq!(plan_sample(2, 3, 2, 3, &mut [0; 10]), Ok(2));
    assert_eq!(
        plan_sample(2, 3, 43_689, 65_534, &mut buffer),
        refused(17, 0)
    );
    assert_eq!(plan_sample(2, 3, 43_690, 65_534, &mut [0; 10]), Ok(2));
    assert_eq!(plan_sample(1, 1, 1, 2, &mut buffer[..9]), refused(3, 0));
    let mut planned = |operations: &[u32], r| {
        let floor = Floor { r, t: 2 };
        plan_floor(&[5, 4], &[20, 20], operations, 0, 1, 1, floor, &mut buffer)
    };
    assert_eq!(planned(&[2, 0], 1), refused(17, 0));
    assert_eq!(planned(&[2, 0], 2), refused(5, 1));
    assert_eq!(planned(&[2, 2], 2), refused(8, 1));
    let mut below = FLOORED;
    below[24] = 1;
    assert_eq!(plan_roll(&below, &mut buffer), refused(17, 0));
    below[24] = 0;
    assert_eq!(plan_roll(&below, &mut buffer), refused(16, 0));
    assert_eq!(plan_roll(&FLOORED[25..], &mut buffer), refused(10, 0));
    assert_eq!(buffer, [7; 12]);
}

#[test]
fn the_librarys_own_reply_with_a_floor() {
    let mut buffer = [7u32; 12];
    let mut planned = |r, deadline| {
        let floor = Floor { r, t: 1 };
        let reply = plan_floor_raw(&[0], &[deadline], &[4], 0, 1, 1, floor, &mut buffer);
        (reply.number, reply.place, reply.blocks)
    };
    assert_eq!(planned(2, 10), (0, 0, 1));
    assert_eq!(planned(0, 10), (16, 0, 0));
    assert_eq!(planned(2, 3), (9, 0, 0));
}

#[test]
fn the_faster_of_both_paces_runs() {
    let row = Row {
        first: 3,
        last: 5,
        start: 4,
        end: 14,
        operations: 4,
    };
    let runs = |r, t| row.runs_at(Floor { r, t });
    assert_eq!(runs(2, 1), (2, 1));
    assert_eq!(runs(249, 100), (249, 100));
    assert_eq!(runs(5, 2), (10, 4));
    assert_eq!(runs(251, 100), (10, 4));
    assert_eq!(runs(65_535, 1), (10, 4));
    let longest = Row {
        start: 0,
        end: 2_147_483_647,
        operations: 1,
        ..row
    };
    assert_eq!(longest.runs_at(Floor { r: 65_535, t: 1 }), (65_535, 1));
}

/// Writes the list of 01's sample.
fn write_sample(out: &mut [u8], at: usize) -> Result<usize, Refusal> {
    write(&[100, 100], &[104, 112], &[2, 2], 100, 1, 1, out, at)
}

#[test]
fn a_roll_is_written_from_the_place_on_and_the_rest_stays() {
    let mut exact = [7u8; 40];
    assert_eq!(write_sample(&mut exact, 0), Ok(40));
    assert_eq!(exact, SAMPLE);
    for at in [0, 1, 9, 20] {
        let mut out = [7u8; 60];
        assert_eq!(write_sample(&mut out, at), Ok(40));
        assert_eq!(out[..at], [7; 60][..at]);
        assert_eq!(out[at..at + 40], SAMPLE);
        assert_eq!(out[at + 40..], [7; 60][at + 40..]);
    }
}

#[test]
fn what_is_written_reads_and_plans_as_the_list_that_went_in() {
    let mut out = [7u8; 60];
    assert_eq!(write_sample(&mut out, 9), Ok(40));
    let roll = &out[..49];
    let reading = read(roll).expect("a roll");
    assert!(std::ptr::eq(reading.part, &out[9..33]));
    assert_eq!((reading.count, reading.reference), (2, 100));
    assert_eq!((reading.p, reading.q, reading.floor), (1, 1, None));
    let mut buffer = [7u32; 10];
    assert_eq!(plan_roll(roll, &mut buffer), Ok(2));
    assert_eq!(buffer, [0, 0, 0, 4, 2, 1, 1, 4, 12, 2]);
}

#[test]
fn a_refusal_of_the_writer_writes_nothing() {
    let many = [0; REPORTS + 1];
    let mut out = [7u8; ROLL + 12];
    let refused = |number| Err(Refusal { number, place: 0 });
    for (a, d, w) in [(1, 2, 2), (2, 1, 2), (2, 2, 1), (2, 2, 3)] {
        let (a, d, w) = (&many[..a], &many[..d], &many[..w]);
        assert_eq!(write(a, d, w, 0, 1, 1, &mut out, 0), refused(1));
    }
    assert_eq!(write(&many, &many, &many, 0, 1, 1, &mut out, 0), refused(2));
    for (p, q) in [(65_536, 1), (1, 65_536), (u32::MAX, 0), (0, u32::MAX)] {
        assert_eq!(write(&[0], &[9], &[1], 0, p, q, &mut out, 0), refused(4));
    }
    assert_eq!(write_sample(&mut out[..39], 0), refused(15));
    assert_eq!(write_sample(&mut [], 0), refused(15));
    let length = out.len();
    for at in [length - 39, length - 15, length, length + 1] {
        assert_eq!(write_sample(&mut out, at), refused(15));
    }
    for short in [0, 1, 39, 40, 41] {
        assert_eq!(write_sample(&mut out, usize::MAX - short), refused(15));
    }
    assert_eq!(out, [7; ROLL + 12]);
}

#[test]
fn the_rules_of_the_writer_are_tried_in_their_order() {
    let (few, many) = ([0; 2], [0; REPORTS + 1]);
    let mut out = [7u8; 15];
    let mut number = |a: &[u32], d: &[u32], p| write_raw(a, d, d, 0, p, 1, &mut out, 9).number;
    assert_eq!(number(&few, &many, 65_536), 1);
    assert_eq!(number(&many, &few, 65_536), 1);
    assert_eq!(number(&many, &many, 65_536), 2);
    assert_eq!(number(&few, &few, 65_536), 4);
    assert_eq!(number(&few, &few, 65_535), 15);
}

#[test]
fn a_roll_is_written_that_has_no_plan() {
    let mut out = [7u8; 40];
    // P and Q of 0, arrivals that fall, operations 0 and above 65,535
    let written = write(&[5, 4], &[0, u32::MAX], &[0, 65_536], 9, 0, 0, &mut out, 0);
    assert_eq!(written, Ok(40));
    assert_eq!(out[12..24], [4, 0, 0, 0, 255, 255, 255, 255, 0, 0, 1, 0]);
    assert_eq!(out[24..], *b"\x28\0\0\0\x09\0\0\0\x02\0\0\0\0\0AQ");
    let refused = Refusal {
        number: 4,
        place: 0,
    };
    assert_eq!(plan_roll(&out, &mut [0; 10]), Err(refused));
    assert_eq!(
        write(&[5], &[0], &[0], 9, 65_535, 258, &mut out, 12),
        Ok(28)
    );
    assert_eq!(out[34..], [255, 255, 2, 1, 0x41, 0x51]);
}

#[test]
fn the_shortest_and_the_longest_roll_are_written() {
    let mut out = [7u8; 16];
    assert_eq!(write(&[], &[], &[], 0, 1, 2, &mut out, 0), Ok(16));
    assert_eq!(out, *b"\x10\0\0\0\0\0\0\0\0\0\x01\0\x02\0AQ");
    let list: Vec<u32> = (0..REPORTS as u32).collect();
    let mut out = [7u8; ROLL];
    let written = write(&list, &list, &list, 0, 1, 2, &mut out, 0);
    assert_eq!(written, Ok(ROLL));
    assert_eq!(read(&out).map(|reading| reading.part.len()), Ok(ROLL - 16));
    assert_eq!(out[ROLL - 16..ROLL - 12], (ROLL as u32).to_le_bytes());
}

#[test]
fn the_writers_own_reply_has_all_three_numbers() {
    let mut out = [7u8; 30];
    let reply = |number, bytes| WriteReply {
        number,
        place: 0,
        bytes,
    };
    assert_eq!(
        write_raw(&[1], &[2], &[3], 0, 1, 1, &mut out, 2),
        reply(0, 28)
    );
    assert_eq!(
        write_raw(&[1], &[2], &[3], 0, 1, 1, &mut out, 3),
        reply(15, 0)
    );
}

#[test]
fn every_refusal_has_a_meaning() {
    for number in (1..=13).chain(15..=17) {
        let refusal = Refusal { number, place: 3 };
        assert_ne!(refusal.meaning(), "unknown refusal");
        assert!(refusal
            .to_string()
            .starts_with(&format!("refusal {number} at 3: ")));
    }
}

#[test]
fn nothing_is_answered_too() {
    assert_eq!(plan(&[], &[], &[], 0, 1, 1, &mut []), Ok(0));
    let floor = Floor { r: 1, t: 1 };
    let planned = plan_floor(&[], &[], &[], 0, 1, 1, floor, &mut []);
    assert_eq!(planned, Ok(0));
    let short = Refusal {
        number: 10,
        place: 0,
    };
    assert_eq!(plan_roll(&[], &mut []), Err(short));
    assert_eq!(read(&[]), Err(short));
    let no_room = Refusal {
        number: 15,
        place: 0,
    };
    assert_eq!(write(&[], &[], &[], 0, 1, 1, &mut [], 0), Err(no_room));
}
