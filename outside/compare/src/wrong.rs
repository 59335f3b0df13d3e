//! Planners and readers that are wrong on purpose, in `floor` about a floor, and in `write` writers. The
//! comparer has to catch each.

pub mod floor;
pub mod write;

use crate::case::{Library, List, Proved};
use vakrhildo::{Numbers, Reply};

/// Rounds each pace up to a whole tick, and so adds up finishes that are too late.
pub struct Rounded;

/// Ends a block at the first and not the last of equal reports: blocks of one pace, split.
pub struct FirstAtTies;

/// Writes one number behind its rows.
pub struct Spills;

/// Looks for the records' bytes from the roll's front on, and takes the first that are equal.
pub struct FirstAlike;

/// Turns a bit of what its planner was lent to read.
pub struct Touches;

/// Turns a bit of what its reader was lent.
pub struct ReaderTouches;

/// Has each reply spoilt, for a list and for a roll.
pub struct Replies(fn(&mut Reply));

/// Calls the report before the one at fault.
pub const PLACE_OFF: Replies = Replies(|reply| reply.place = reply.place.saturating_sub(1));

/// Gives a place with a plan.
pub const PLACE_OF_A_PLAN: Replies = Replies(|reply| {
    if reply.number == 0 {
        reply.place = 3;
    }
});

/// Gives a block with refusal 9.
pub const BLOCK_OF_A_REFUSAL: Replies = Replies(|reply| {
    if reply.number == 9 {
        reply.blocks = 1;
    }
});

/// Has the numbers of each accepted roll spoilt.
pub struct Readings(fn(&mut Numbers));

/// Starts the part with the records a byte early.
pub const BYTE_EARLY: Readings = Readings(|numbers| numbers.at = numbers.at.saturating_sub(1));

/// Ends it a byte early.
pub const BYTE_SHORT: Readings = Readings(|numbers| numbers.size = numbers.size.saturating_sub(1));

/// Has a number other than 0 left on each refusal of a roll.
pub struct Left(fn(&mut Numbers));

/// Each number that can be left.
pub const LEFT: [Left; 9] = [
    Left(|numbers| numbers.count = 1),
    Left(|numbers| numbers.reference = 1),
    Left(|numbers| numbers.p = 1),
    Left(|numbers| numbers.q = 1),
    Left(|numbers| numbers.floor = 1),
    Left(|numbers| numbers.r = 1),
    Left(|numbers| numbers.t = 1),
    Left(|numbers| numbers.at = 1),
    Left(|numbers| numbers.size = 1),
];

fn split_row(rows: &mut [u32], blocks: usize, k: usize, last: u32, end: u32, operations: u32) {
    rows.copy_within(5 * k..5 * blocks, 5 * (k + 1));
    let (front, behind) = rows.split_at_mut(5 * (k + 1));
    front[5 * k + 1] = last;
    front[5 * k + 3] = end;
    front[5 * k + 4] = operations;
    behind[0] = last + 1;
    behind[2] = end;
    behind[4] -= operations;
}

impl Library for Rounded {
    fn plan(&self, l: &mut List, rows: &mut [u32]) -> Reply {
        let reply = Proved.plan(l, rows);
        let mut end = 0;
        for row in rows.chunks_exact_mut(5).take(reply.blocks) {
            let pace = (row[3] - row[2]).div_ceil(row[4]);
            row[2] = row[2].max(end);
            row[3] = row[2].saturating_add(pace.saturating_mul(row[4]));
            end = row[3];
        }
        reply
    }
}

impl FirstAtTies {
    /// The first report inside a block at whose deadline the block's pace ends.
    fn tie(l: &List, row: &[u32]) -> Option<(u32, u32, u32)> {
        let mut done = 0u64;
        for i in row[0]..row[1] {
            done += u64::from(l.operations[i as usize]);
            let deadline = l.deadlines[i as usize].wrapping_sub(l.reference);
            let length = u64::from(row[3] - row[2]);
            if deadline > row[2]
                && u64::from(deadline - row[2]) * u64::from(row[4]) == length * done
            {
                return Some((i, deadline, done as u32));
            }
        }
        None
    }
}

impl Library for FirstAtTies {
    fn plan(&self, l: &mut List, rows: &mut [u32]) -> Reply {
        let mut reply = Proved.plan(l, rows);
        for k in 0..reply.blocks {
            let row = &rows[5 * k..5 * k + 5];
            if let Some((last, end, operations)) = FirstAtTies::tie(l, row) {
                split_row(rows, reply.blocks, k, last, end, operations);
                reply.blocks += 1;
                break;
            }
        }
        reply
    }
}

impl Library for Spills {
    fn plan(&self, l: &mut List, rows: &mut [u32]) -> Reply {
        let reply = Proved.plan(l, rows);
        if let Some(behind) = rows.get_mut(5 * reply.blocks) {
            *behind = 0;
        }
        reply
    }
}

impl Library for FirstAlike {
    fn read(&self, roll: &mut [u8]) -> Numbers {
        let mut numbers = Proved.read(roll);
        if numbers.size > 0 {
            let part = &roll[numbers.at..][..numbers.size];
            let alike = |at: &usize| roll[*at..].starts_with(part);
            numbers.at = (0..roll.len()).find(alike).unwrap_or(numbers.at);
        }
        numbers
    }
}

impl Library for Touches {
    fn plan(&self, l: &mut List, rows: &mut [u32]) -> Reply {
        let reply = Proved.plan(l, rows);
        if let Some(arrival) = l.arrivals.first_mut() {
            *arrival ^= 1;
        }
        reply
    }

    fn plan_roll(&self, roll: &mut [u8], rows: &mut [u32]) -> Reply {
        let reply = Proved.plan_roll(roll, rows);
        if let Some(byte) = roll.first_mut() {
            *byte ^= 1;
        }
        reply
    }
}

impl Library for ReaderTouches {
    fn read(&self, roll: &mut [u8]) -> Numbers {
        let numbers = Proved.read(roll);
        if let Some(byte) = roll.last_mut() {
            *byte ^= 1;
        }
        numbers
    }
}

impl Library for Replies {
    fn plan(&self, l: &mut List, rows: &mut [u32]) -> Reply {
        let mut reply = Proved.plan(l, rows);
        (self.0)(&mut reply);
        reply
    }

    fn plan_roll(&self, roll: &mut [u8], rows: &mut [u32]) -> Reply {
        let mut reply = Proved.plan_roll(roll, rows);
        (self.0)(&mut reply);
        reply
    }
}

impl Library for Readings {
    fn read(&self, roll: &mut [u8]) -> Numbers {
        let mut numbers = Proved.read(roll);
        if numbers.number == 0 {
            (self.0)(&mut numbers);
        }
        numbers
    }
}

impl Library for Left {
    fn read(&self, roll: &mut [u8]) -> Numbers {
        let mut numbers = Proved.read(roll);
        if numbers.number != 0 {
            (self.0)(&mut numbers);
        }
        numbers
    }
}
