//! The reader of rolls: refusals 10 to 13, the numbers of the trailer and where the records lie, and
//! the list that they carry. A roll is taken apart from its end: the trailer's numbers one by one,
//! last first, then the records; what is left is the preface. A trailer marked "AF" has a floor's R and
//! T before all that one marked "AQ" has.

use crate::Reading;

const TRAILER: usize = 16;
const FLOOR_TRAILER: usize = 20;
const RECORD: usize = 12;
const MARK: [u8; 2] = [0x41, 0x51];
const FLOOR_MARK: &[u8] = b"AF";

/// The list in an accepted roll.
#[derive(Clone, Debug, PartialEq, Eq)]
pub struct Carried {
    /// Arrival readings.
    pub arrivals: Vec<u32>,
    /// Deadline readings.
    pub deadlines: Vec<u32>,
    /// Operations of each report.
    pub operations: Vec<u32>,
}

/// The little-endian number in these bytes.
fn number(bytes: &[u8]) -> u32 {
    bytes
        .iter()
        .rev()
        .fold(0, |value, &byte| value * 256 + u32::from(byte))
}

/// Takes the last bytes off what is left of a roll.
fn last<'a>(left: &mut &'a [u8], bytes: usize) -> &'a [u8] {
    let (front, end) = left.split_at(left.len() - bytes);
    *left = front;
    end
}

/// Reads a roll; the error is the number of the refusal.
pub fn read(roll: &[u8]) -> Result<Reading, u32> {
    let floored = roll.ends_with(FLOOR_MARK);
    let trailer = if floored { FLOOR_TRAILER } else { TRAILER };
    if roll.len() < trailer {
        return Err(10);
    }
    let mut left = roll;
    if last(&mut left, 2) != MARK && !floored {
        return Err(11);
    }
    let [q, p, count, reference, back] =
        [2, 2, 2, 4, 4].map(|bytes| number(last(&mut left, bytes)));
    if u64::from(back) != trailer as u64 + RECORD as u64 * u64::from(count) {
        return Err(12);
    }
    if u64::from(back) > roll.len() as u64 {
        return Err(13);
    }
    let floor = floored.then(|| {
        let [t, r] = [2, 2].map(|bytes| number(last(&mut left, bytes)));
        (r, t)
    });
    let size = (0..count).map(|_| last(&mut left, RECORD).len()).sum();
    Ok(Reading {
        number: 0,
        count,
        reference,
        p,
        q,
        floor,
        at: left.len(),
        size,
    })
}

/// The list in these records.
pub fn carried(records: &[u8]) -> Carried {
    let column = |at: usize| {
        records
            .chunks_exact(RECORD)
            .map(|record| number(&record[at..at + 4]))
            .collect()
    };
    Carried {
        arrivals: column(0),
        deadlines: column(4),
        operations: column(8),
    }
}
