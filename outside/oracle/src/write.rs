//! The writer of rolls, by W1's words: its refusals in their order; and the roll, packed by itself and
//! then set between what stands before it in the buffer and what stands behind. Nothing of the reader
//! is used here.

use crate::{List, Written, MOST_REPORTS};

/// The number of the refusal, if the list is not written into a buffer of `room` bytes from `at` on.
fn refusal(list: &List, room: usize, at: usize) -> Option<u32> {
    let lengths = [list.arrivals, list.deadlines, list.operations].map(<[u32]>::len);
    let count = lengths[0];
    let too_wide = |value: u32| u16::try_from(value).is_err();
    if lengths != [count; 3] {
        Some(1)
    } else if count > MOST_REPORTS {
        Some(2)
    } else if too_wide(list.p) || too_wide(list.q) {
        Some(4)
    } else {
        // The place may be so large that the roll's end is no number.
        let end = at.checked_add(16 + 12 * count);
        end.is_none_or(|end| end > room).then_some(15)
    }
}

/// The roll of a list, without preface.
fn packed(list: &List) -> Vec<u8> {
    let reports = list.arrivals.iter().zip(list.deadlines);
    let mut roll: Vec<u8> = reports
        .zip(list.operations)
        .flat_map(|((arrival, deadline), operations)| [arrival, deadline, operations])
        .flat_map(|number| number.to_le_bytes())
        .collect();
    let back = roll.len() as u32 + 16;
    for number in [back, list.reference] {
        roll.extend(number.to_le_bytes());
    }
    for number in [list.arrivals.len() as u32, list.p, list.q] {
        roll.extend((number as u16).to_le_bytes());
    }
    roll.extend(b"AQ");
    roll
}

/// What the writer gives back, and what the buffer then holds.
pub fn write(list: &List, before: &[u8], at: usize) -> Written {
    let refusal = refusal(list, before.len(), at);
    let (bytes, buffer) = match refusal {
        Some(_) => (0, before.to_vec()),
        None => {
            let roll = packed(list);
            let behind = &before[at + roll.len()..];
            (roll.len(), [&before[..at], &roll, behind].concat())
        }
    };
    Written {
        number: refusal.unwrap_or(0),
        place: 0,
        bytes,
        buffer,
    }
}
