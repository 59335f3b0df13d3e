//! Planners and readers that are wrong about a floor on purpose. Each answers as the proved one does, but for
//! what it is named after.

use crate::case::{Library, List, Proved};
use std::cmp::Ordering;
use vakrhildo::{Floor, Numbers, Reply, Row};

/// A planner of lists.
pub struct Planner(fn(&mut List, &mut [u32]) -> Reply);

impl Library for Planner {
    fn plan(&self, l: &mut List, rows: &mut [u32]) -> Reply {
        (self.0)(l, rows)
    }
}

/// Says at which pace a row's reports run.
pub struct Runs(fn(Row, Floor) -> (u32, u32));

impl Library for Runs {
    fn runs(&self, row: Row, floor: Floor) -> (u32, u32) {
        (self.0)(row, floor)
    }
}

/// A reader of rolls.
pub struct Reader(fn(&mut [u8]) -> Numbers);

impl Library for Reader {
    fn read(&self, roll: &mut [u8]) -> Numbers {
        (self.0)(roll)
    }
}

/// A planner of rolls.
pub struct RollPlanner(fn(&mut [u8], &mut [u32]) -> Reply);

impl Library for RollPlanner {
    fn plan_roll(&self, roll: &mut [u8], rows: &mut [u32]) -> Reply {
        (self.0)(roll, rows)
    }
}

fn refused(number: u32) -> Reply {
    Reply {
        number,
        place: 0,
        blocks: 0,
    }
}

fn not_read(number: u32) -> Numbers {
    Numbers {
        number,
        ..Proved.read(&mut [])
    }
}

/// The reply for a list without its floor; nothing is written.
fn unfloored(l: &List, room: usize) -> Reply {
    let mut without = List {
        floor: None,
        ..l.clone()
    };
    Proved.plan(&mut without, &mut vec![0; room])
}

/// Plans as if there were another floor, or none.
fn with_floor(l: &List, floor: Option<Floor>, rows: &mut [u32]) -> Reply {
    let mut other = List { floor, ..l.clone() };
    Proved.plan(&mut other, rows)
}

/// How R/T stands beside P/Q.
fn beside(l: &List, floor: Floor) -> Ordering {
    let cross = |one: u32, other: u32| u64::from(one) * u64::from(other);
    cross(floor.r, l.q).cmp(&cross(l.p, floor.t))
}

/// Whether R or T is outside.
fn outside(floor: Floor) -> bool {
    let inside = 1..=65_535;
    !inside.contains(&floor.r) || !inside.contains(&floor.t)
}

/// Answers as `given` says of a list, its floor and the proved reply: with a refusal of this number, for 0
/// as if there were no floor, else as the proved planner does.
fn regiven(l: &mut List, rows: &mut [u32], given: fn(&List, Floor, Reply) -> Option<u32>) -> Reply {
    let Some(floor) = l.floor else {
        return Proved.plan(l, rows);
    };
    let reply = Proved.plan(l, &mut rows.to_vec());
    match given(l, floor, reply) {
        Some(0) => with_floor(l, None, rows),
        Some(number) => refused(number),
        None => Proved.plan(l, rows),
    }
}

/// Gives 17 where R/T is above P/Q, and not where it is below.
pub const TURNED: Planner = Planner(|l, rows| {
    regiven(l, rows, |l, floor, reply| match reply.number {
        17 => Some(0),
        1..=4 | 16 => None,
        _ => (beside(l, floor).is_gt()).then_some(17),
    })
});

/// Gives 17 where R/T is equal to P/Q.
pub const EQUAL_REFUSED: Planner = Planner(|l, rows| {
    regiven(l, rows, |l, floor, reply| match reply.number {
        1..=4 | 16 | 17 => None,
        _ => (beside(l, floor).is_eq()).then_some(17),
    })
});

/// Tries 16 before 4.
pub const SIXTEEN_BEFORE_FOUR: Planner = Planner(|l, rows| {
    regiven(l, rows, |_, floor, reply| {
        (reply.number == 4 && outside(floor)).then_some(16)
    })
});

/// Tries 17 before 16.
pub const SEVENTEEN_BEFORE_SIXTEEN: Planner = Planner(|l, rows| {
    regiven(l, rows, |l, floor, reply| {
        (reply.number == 16 && beside(l, floor).is_lt()).then_some(17)
    })
});

/// Tries 5 before 16 and 17.
pub const FIVE_FIRST: Planner = Planner(|l, rows| {
    let reply = unfloored(l, rows.len());
    if reply.number == 5 {
        return reply;
    }
    Proved.plan(l, rows)
});

/// Takes R for T and T for R.
pub const EXCHANGED: Planner = Planner(|l, rows| {
    let floor = l.floor.map(|Floor { r, t }| Floor { r: t, t: r });
    with_floor(l, floor, rows)
});

/// Does not look at the floor.
pub const LOST: Planner = Planner(|l, rows| with_floor(l, None, rows));

/// Does not look at T.
pub const T_NOT_TRIED: Planner = Planner(|l, rows| {
    regiven(l, rows, |l, floor, reply| {
        let inside = Floor {
            t: floor.t.clamp(1, 65_535),
            ..floor
        };
        let fits = !outside(inside) && beside(l, inside).is_ge();
        (reply.number == 16 && fits).then_some(0)
    })
});

/// Ends each row where its reports are done that run at the floor, a tick's part rounded up.
pub const ON_ROWS: Planner = Planner(|l, rows| {
    let reply = Proved.plan(l, rows);
    if let Some(Floor { r, t }) = l.floor {
        for row in rows.chunks_exact_mut(5).take(reply.blocks) {
            let long = (u64::from(row[4]) * u64::from(r)).div_ceil(u64::from(t));
            row[3] = row[3].min(row[2].saturating_add(long as u32));
        }
    }
    reply
});

/// Runs each report at the slower of both paces.
pub const SLOWER: Runs = Runs(|row, floor| {
    let of_row = (row.end - row.start, row.operations);
    if row.runs_at(floor) == of_row {
        (floor.r, floor.t)
    } else {
        of_row
    }
});

/// Runs each report at its row's pace.
pub const AS_IN_ITS_ROW: Runs = Runs(|row, _| (row.end - row.start, row.operations));

/// Runs each report at R/T.
pub const AT_THE_FLOOR: Runs = Runs(|_, floor| (floor.r, floor.t));

/// Whether a roll is marked AF.
fn marked(roll: &[u8]) -> bool {
    roll.ends_with(b"AF")
}

/// The roll with the other mark.
fn remarked(roll: &[u8]) -> Vec<u8> {
    let mut other = roll.to_vec();
    if let Some(last) = other.last_mut() {
        *last = b'Q';
    }
    other
}

/// The roll with T before R.
fn turned_floor(roll: &[u8]) -> Vec<u8> {
    let mut other = roll.to_vec();
    if marked(roll) && roll.len() >= 20 {
        let at = roll.len() - 20;
        other[at..at + 4].rotate_left(2);
    }
    other
}

/// Reads a roll marked AF with a trailer of 16 bytes.
pub const TRAILER_OF_16: Reader = Reader(|roll| {
    if !marked(roll) {
        return Proved.read(roll);
    }
    Proved.read(&mut remarked(roll))
});

/// Plans it so.
pub const PLANS_TRAILER_OF_16: RollPlanner = RollPlanner(|roll, rows| {
    if !marked(roll) {
        return Proved.plan_roll(roll, rows);
    }
    Proved.plan_roll(&mut remarked(roll), rows)
});

/// Reads T before R.
pub const T_BEFORE_R: Reader = Reader(|roll| Proved.read(&mut turned_floor(roll)));

/// Plans a roll with T before R.
pub const PLANS_T_BEFORE_R: RollPlanner =
    RollPlanner(|roll, rows| Proved.plan_roll(&mut turned_floor(roll), rows));

/// Calls AF a wrong mark.
pub const WRONG_MARK: Reader = Reader(|roll| {
    if marked(roll) && roll.len() >= 16 {
        return not_read(11);
    }
    Proved.read(roll)
});

/// Plans no roll marked AF, for the same reason.
pub const PLANS_WRONG_MARK: RollPlanner = RollPlanner(|roll, rows| {
    if marked(roll) && roll.len() >= 16 {
        return refused(11);
    }
    Proved.plan_roll(roll, rows)
});

/// The number of the rule that is given behind 10 for a file of 16 to 19 bytes that is marked AF, if it is
/// one: its back distance is wrong, or exceeds its length.
fn behind_ten(roll: &[u8]) -> Option<u32> {
    let short = marked(roll) && (16..20).contains(&roll.len());
    let lengthened = || Proved.read(&mut [&[0; 4], roll].concat()).number;
    short.then(|| if lengthened() == 12 { 12 } else { 13 })
}

/// Gives 10 for no file of 16 bytes or more.
pub const SHORT_AT_16: Reader = Reader(|roll| match behind_ten(roll) {
    Some(number) => not_read(number),
    None => Proved.read(roll),
});

/// Plans no such file, for the same reason.
pub const PLANS_SHORT_AT_16: RollPlanner = RollPlanner(|roll, rows| match behind_ten(roll) {
    Some(number) => refused(number),
    None => Proved.plan_roll(roll, rows),
});

/// Plans a roll marked AF without its floor.
pub const FLOOR_LOST: RollPlanner = RollPlanner(|roll, rows| {
    let numbers = Proved.read(roll);
    if numbers.floor == 0 {
        return Proved.plan_roll(roll, rows);
    }
    let mut slowest = roll.to_vec();
    let at = roll.len() - 20;
    slowest[at..at + 4].copy_from_slice(&[255, 255, 1, 0]);
    Proved.plan_roll(&mut slowest, rows)
});

/// Reads a roll as the proved reader does, then changes the numbers of one that has no floor.
fn plain_changed(roll: &mut [u8], change: fn(&mut Numbers)) -> Numbers {
    let mut numbers = Proved.read(roll);
    if numbers.number == 0 && numbers.floor == 0 {
        change(&mut numbers);
    }
    numbers
}

/// Each number of a floor that can be given where a roll has none.
pub const FLOOR_OF_AQ: [Reader; 3] = [
    Reader(|roll| plain_changed(roll, |numbers| numbers.floor = 1)),
    Reader(|roll| plain_changed(roll, |numbers| numbers.r = 1)),
    Reader(|roll| plain_changed(roll, |numbers| numbers.t = 1)),
];

/// Says of a roll marked AF that it has no floor.
pub const FLOOR_NOT_SAID: Reader = Reader(|roll| Numbers {
    floor: 0,
    ..Proved.read(roll)
});
