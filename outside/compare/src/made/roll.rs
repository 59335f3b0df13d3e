//! Rolls, whole and damaged, and inputs of the program, with a floor (marked AF) and without (AQ). Some
//! prefaces hold the very bytes of the records behind them.

use super::floor::any_floor;
use super::{list, near, Dice, Done, Take, PACES, TOP};
use crate::case::{Case, List};
use crate::judge::ANSWER;
use vakrhildo::Floor;

const MARKS: [[u8; 2]; 2] = [*b"AQ", *b"AF"];

/// The roll of a list, without a preface; of numbers with two bytes the rest is dropped.
pub fn roll_of(l: &List) -> Vec<u8> {
    let mut bytes = Vec::new();
    let two_bytes = |number: u32| (number as u16).to_le_bytes();
    for i in 0..l.arrivals.len() {
        for number in [l.arrivals[i], l.deadlines[i], l.operations[i]] {
            bytes.extend(number.to_le_bytes());
        }
    }
    if let Some(Floor { r, t }) = l.floor {
        bytes.extend([two_bytes(r), two_bytes(t)].concat());
    }
    let mark = MARKS[usize::from(l.floor.is_some())];
    let trailer = trailer_of(mark) as u32;
    bytes.extend((trailer + 12 * l.arrivals.len() as u32).to_le_bytes());
    bytes.extend(l.reference.to_le_bytes());
    for number in [l.arrivals.len() as u32, l.p, l.q] {
        bytes.extend(two_bytes(number));
    }
    bytes.extend(mark);
    bytes
}

/// The bytes of a trailer with this mark.
fn trailer_of(mark: [u8; 2]) -> usize {
    if mark == *b"AF" {
        20
    } else {
        16
    }
}

/// 01's sample roll, and the same with the floor 3/2.
fn samples() -> [Vec<u8>; 2] {
    [None, Some(Floor { r: 3, t: 2 })].map(|floor| {
        roll_of(&List {
            reference: 100,
            floor,
            ..list(&[100, 100], &[104, 112], &[2, 2], 1, 1)
        })
    })
}

fn some_bytes(dice: &mut Dice, most: u64) -> Vec<u8> {
    (0..dice.below(most + 1))
        .map(|_| dice.roll() as u8)
        .collect()
}

/// A floor of any kind, of which all that does not fit two bytes is dropped.
fn some_floor(dice: &mut Dice, l: &List) -> Floor {
    any_floor(dice, l.p, l.q).unwrap_or(Floor { r: l.p, t: l.q })
}

/// A roll behind a preface of any bytes, with a floor or without; in some the preface starts with the
/// roll's records, or with all of it.
fn random_roll(dice: &mut Dice, floored: bool) -> (Vec<u8>, usize) {
    let n = dice.below(14) as usize;
    let numbers = 1 + dice.below(60);
    let mut l = near(dice, n, numbers, 40);
    l.floor = floored.then(|| some_floor(dice, &l));
    let roll = roll_of(&l);
    let alike = [0, 0, 0, 12 * n, roll.len()][dice.below(5) as usize];
    let preface = some_bytes(dice, 39);
    ([&roll[..alike], &preface, &roll].concat(), n)
}

/// Puts a back distance and a count into a roll's trailer.
fn point_back(bytes: &mut [u8], back: u32, count: u16) {
    let n = bytes.len();
    bytes[n - 16..n - 12].copy_from_slice(&back.to_le_bytes());
    bytes[n - 8..n - 6].copy_from_slice(&count.to_le_bytes());
}

/// Puts a number at an edge in the place of P, Q, R or T; the last two are there in a trailer of 20.
fn turn_pace(dice: &mut Dice, bytes: &mut [u8], trailer: usize) {
    let from_end = [6, 4, 20, 18];
    let fields = if trailer == 20 { 4 } else { 2 };
    let at = bytes.len() - from_end[dice.below(fields) as usize];
    let number = PACES[dice.below(3) as usize] as u16;
    bytes[at..at + 2].copy_from_slice(&number.to_le_bytes());
}

/// Damages a roll: cut or lengthened at either end, bits flipped, trailer numbers replaced, the mark
/// turned or exchanged for the other, the back distance off by a record or by the bytes of a floor, as
/// many records as the roll has room for or one more.
fn damage(dice: &mut Dice, bytes: &mut Vec<u8>) {
    let n = bytes.len();
    let count = u16::from_le_bytes([bytes[n - 8], bytes[n - 7]]);
    let trailer = trailer_of([bytes[n - 2], bytes[n - 1]]);
    let back_of = |count: u16| trailer as u32 + 12 * u32::from(count);
    match dice.below(15) {
        0 => bytes.truncate(dice.below(n as u64 + 1) as usize),
        1 => drop(bytes.drain(..dice.below(n as u64 + 1) as usize)),
        2 => {
            let at = dice.below(n as u64) as usize;
            bytes[at] ^= 1 << dice.below(8);
        }
        3 => {
            let at = n - 1 - dice.below(trailer as u64) as usize;
            bytes[at] = dice.roll() as u8;
        }
        4 => bytes.swap(n - 1, n - 2),
        5 => {
            let count = dice.below(1_100) as u16;
            point_back(bytes, back_of(count), count);
        }
        6 => point_back(bytes, back_of(count), dice.below(1_100) as u16),
        7 => point_back(bytes, dice.roll() as u32 >> dice.below(30), count),
        8 => point_back(
            bytes,
            back_of(count) - 12 + 24 * dice.below(2) as u32,
            count,
        ),
        9 => {
            let room = (n - trailer) as u64 / 12 + dice.below(2);
            point_back(bytes, back_of(room as u16), room as u16);
        }
        10 => bytes.extend(some_bytes(dice, 20)),
        11 => bytes[n - 1] = if trailer == 20 { b'Q' } else { b'F' },
        12 => turn_pace(dice, bytes, trailer),
        13 => point_back(bytes, 36 - trailer as u32 + 12 * u32::from(count), count),
        _ => drop(bytes.splice(0..0, some_bytes(dice, 20))),
    }
}

/// 01's sample, and the same with a floor.
pub fn damaged_samples(take: &mut Take) -> Done {
    let [plain, floored] = samples();
    damaged_sample(take, &plain, "damaged rolls: 01's sample, at every byte")?;
    damaged_sample(
        take,
        &floored,
        "damaged rolls with floors: 01's sample with one, at every byte",
    )
}

/// A sample behind a preface: every byte at every value; cut, and lengthened by what stands there, by any
/// number of bytes at either end.
fn damaged_sample(take: &mut Take, sample: &[u8], group: &'static str) -> Done {
    let roll = [b"preface", sample].concat();
    let mut give = |bytes: Vec<u8>| take(group, Case::Roll { bytes, room: 10 }, ANSWER);
    for at in 0..roll.len() {
        for byte in 0..=255 {
            let mut turned = roll.clone();
            turned[at] = byte;
            give(turned)?;
        }
    }
    for at in 0..=roll.len() {
        let (front, end) = roll.split_at(at);
        for bytes in [front, end, &[front, &roll].concat(), &[&roll, end].concat()] {
            give(bytes.to_vec())?;
        }
    }
    Ok(())
}

/// Rolls with prefaces, most of them damaged, and row buffers of any length.
pub fn rolls(take: &mut Take, dice: &mut Dice, times: u64) -> Done {
    let groups = ["rolls with prefaces", "damaged rolls"];
    rolls_of(take, dice, times, false, groups)
}

/// The same, marked AF.
pub fn floor_rolls(take: &mut Take, dice: &mut Dice, times: u64) -> Done {
    let groups = [
        "rolls with floors and prefaces",
        "damaged rolls with floors",
    ];
    rolls_of(take, dice, times, true, groups)
}

fn rolls_of(
    take: &mut Take,
    dice: &mut Dice,
    times: u64,
    floored: bool,
    groups: [&'static str; 2],
) -> Done {
    for k in 0..times {
        let (mut bytes, n) = random_roll(dice, floored);
        if k % 4 != 0 {
            damage(dice, &mut bytes);
        }
        let room = if dice.once_in(5) {
            dice.below(5 * n as u64 + 5) as usize
        } else {
            5 * n + dice.below(7) as usize
        };
        let group = groups[usize::from(k % 4 != 0)];
        take(group, Case::Roll { bytes, room }, ANSWER)?;
    }
    Ok(())
}

/// A file of any length that ends in a mark, or in as much of it as the length allows: zeros before it, any
/// bytes, or the trailer of no records behind any bytes.
fn short_file(dice: &mut Dice, length: usize, mark: [u8; 2], kind: u64) -> Vec<u8> {
    let mut l = list(&[], &[], &[], 1, 1);
    l.floor = (mark == *b"AF").then(|| some_floor(dice, &l));
    let mut bytes: Vec<u8> = (0..24).map(|_| dice.roll() as u8).collect();
    match kind {
        0 => bytes.fill(0),
        1 => {}
        _ => bytes.extend(roll_of(&l)),
    }
    let n = bytes.len();
    bytes[n - 2..].copy_from_slice(&mark);
    bytes.split_off(n - length)
}

/// Files of every length from 0 to 24 that end in either mark, as rolls and as inputs of the program.
pub fn short_files(take: &mut Take, dice: &mut Dice, times: u64) -> Done {
    for length in 0..=24 {
        for mark in MARKS {
            for kind in 0..times {
                let bytes = short_file(dice, length, mark, kind);
                if kind < 6 {
                    let bytes = bytes.clone();
                    let group = "inputs of rollplan: files of 0 to 24 bytes";
                    take(group, Case::Program { bytes }, ANSWER)?;
                }
                let group = "files of 0 to 24 bytes that end in a mark";
                take(group, Case::Roll { bytes, room: 5 }, ANSWER)?;
            }
        }
    }
    Ok(())
}

/// Rolls of about 1,024 records, and some of as many as a trailer can count; every other with a floor.
pub fn long_rolls(take: &mut Take, dice: &mut Dice, times: u64) -> Done {
    for k in 0..times {
        let n = match k % 100 {
            0 | 1 => 65_535,
            _ => 1_022 + dice.below(6) as usize,
        };
        let mut l = list(&vec![0; n], &vec![TOP as u32; n], &vec![1; n], 1, 1);
        l.floor = (k % 2 == 1).then(|| some_floor(dice, &l));
        take(
            "rolls of about 1,024 records, and of 65,535",
            Case::Roll {
                bytes: roll_of(&l),
                room: 5 * n,
            },
            ANSWER,
        )?;
    }
    Ok(())
}

/// Inputs of the program: every front and every end of both samples, rolls whole and damaged, and inputs
/// about 65,536 bytes long; every other roll with a floor.
pub fn inputs(take: &mut Take, dice: &mut Dice, times: u64) -> Done {
    sample_inputs(take)?;
    for k in 0..times {
        let (mut bytes, _) = random_roll(dice, k % 4 >= 2);
        if k % 2 != 0 {
            damage(dice, &mut bytes);
        }
        take(
            "inputs of rollplan: rolls, whole and damaged",
            Case::Program { bytes },
            ANSWER,
        )?;
    }
    for k in 0..times / 4 {
        let (roll, _) = random_roll(dice, k % 8 >= 4);
        let length = [65_536, 65_537, 65_535, 65_537 + dice.below(70_000) as usize][k as usize % 4];
        let mut bytes = vec![0xaa; length - roll.len()];
        bytes.extend(roll);
        take(
            "inputs of rollplan about 65,536 bytes long",
            Case::Program { bytes },
            ANSWER,
        )?;
    }
    Ok(())
}

/// Every front and every end of both samples.
fn sample_inputs(take: &mut Take) -> Done {
    for sample in samples() {
        for n in 0..=sample.len() {
            let (front, end) = sample.split_at(n);
            for bytes in [front, end].map(<[u8]>::to_vec) {
                let group = "inputs of rollplan: fronts and ends of the samples";
                take(group, Case::Program { bytes }, ANSWER)?;
            }
        }
    }
    Ok(())
}
