//! Lists that are to be written into a buffer of bytes from a place on, and rolls without preface, which
//! are packed again.

use super::roll::roll_of;
use super::{list, near, Dice, Done, Take, PACES};
use crate::case::{Case, List};
use crate::judge::ANSWER;

/// Numbers at the edges of a byte, of two, and of four.
const EDGES: [u32; 7] = [0, 1, 255, 256, 65_535, 65_536, u32::MAX];

/// Any number, now and then one at an edge.
fn any_number(dice: &mut Dice) -> u32 {
    if dice.once_in(8) {
        EDGES[dice.below(7) as usize]
    } else {
        dice.roll() as u32
    }
}

/// A list of any numbers, so that arrivals fall, operations are 0 or too many, and P or Q may be 0; both
/// have no more than two bytes.
fn any_list(dice: &mut Dice, n: usize) -> List {
    let mut column = || (0..n).map(|_| any_number(dice)).collect::<Vec<_>>();
    let mut l = list(&column(), &column(), &column(), 0, 0);
    l.reference = any_number(dice);
    l.p = any_number(dice) % 65_536;
    l.q = any_number(dice) % 65_536;
    l
}

/// A list with a plan, or near to one.
fn near_list(dice: &mut Dice, n: usize) -> List {
    let numbers = 1 + dice.below(60);
    near(dice, n, numbers, 40)
}

/// How long the roll of a list is.
fn long(l: &List) -> usize {
    16 + 12 * l.arrivals.len()
}

/// How many bytes are before or behind a roll: none, one, or some.
fn around(dice: &mut Dice) -> usize {
    match dice.below(4) {
        0 => 0,
        1 => 1,
        _ => dice.below(60) as usize,
    }
}

/// The length of a buffer, and a place from which it has room for a roll: at the front, in the middle, or
/// so that it just fits.
fn roomy(dice: &mut Dice, long: usize) -> (usize, usize) {
    let at = around(dice);
    (at + long + around(dice), at)
}

/// The same on the line of refusal 15: too short by a byte, a place one too far, at the end, one past it,
/// anywhere, so large that the roll's end or the trailer's is past the top of all numbers.
fn cramped(dice: &mut Dice, long: usize) -> (usize, usize) {
    let at = around(dice);
    let room = at + long;
    let some = dice.below(4) as usize;
    match dice.below(9) {
        0 => (room, at),
        1 => (room - 1, at),
        2 => (room, at + 1),
        3 => (room, room),
        4 => (room, room + 1),
        5 => (dice.below(room as u64) as usize, at),
        6 => (room, usize::MAX - some),
        7 => (room, usize::MAX - long + some),
        _ => (room, usize::MAX - 16 + some),
    }
}

fn write(take: &mut Take, group: &'static str, list: List, at: usize) -> Done {
    take(group, Case::Write { list, at }, ANSWER)
}

/// Lists of any numbers and lists with a plan, a few of them long, into buffers with room for them.
pub fn writings(take: &mut Take, dice: &mut Dice, times: u64) -> Done {
    for k in 0..times {
        let most = if k % 100 == 0 { 1_025 } else { 20 };
        let n = dice.below(most) as usize;
        let mut l = if k % 2 == 0 {
            near_list(dice, n)
        } else {
            any_list(dice, n)
        };
        let (room, at) = roomy(dice, long(&l));
        l.room = room;
        write(take, "lists written at a place", l, at)?;
    }
    Ok(())
}

/// One list, or two of them, a report shorter or longer than the rest.
fn make_uneven(dice: &mut Dice, l: &mut List) {
    let mut columns = [&mut l.arrivals, &mut l.deadlines, &mut l.operations];
    let longer = dice.once_in(2);
    for _ in 0..1 + dice.below(2) {
        let column = &mut columns[dice.below(3) as usize];
        if longer {
            column.push(dice.roll() as u32);
        } else {
            column.pop();
        }
    }
}

/// Lists at the edges of the writer's rules, often at several at once, so that their order is seen.
pub fn write_edges(take: &mut Take, dice: &mut Dice, times: u64) -> Done {
    for k in 0..times {
        let n = match k % 8 {
            0 => 1_022 + dice.below(5),
            _ => dice.below(6),
        };
        let mut l = any_list(dice, n as usize);
        if dice.once_in(3) {
            make_uneven(dice, &mut l);
        }
        if dice.once_in(3) {
            let pace = PACES[dice.below(5) as usize];
            *if dice.once_in(2) { &mut l.p } else { &mut l.q } = pace;
        }
        let (room, at) = if dice.once_in(2) {
            cramped(dice, long(&l))
        } else {
            roomy(dice, long(&l))
        };
        l.room = room;
        write(take, "lists written, at the edges of the rules", l, at)?;
    }
    Ok(())
}

/// Counts about 0 and about 1,024, P and Q on both sides of their line, buffers too short by a byte, exact
/// and longer, and places on both sides of theirs: each with each.
pub fn write_table(take: &mut Take, dice: &mut Dice) -> Done {
    let group = "lists written, each edge with each";
    let written = [(1, 1), (0, 0), (65_535, 65_535)];
    let too_wide = [(65_536, 1), (1, 65_536), (u32::MAX, 0), (0, u32::MAX)];
    for n in [0, 1, 2, 1_023, 1_024, 1_025] {
        let l = any_list(dice, n);
        let long = long(&l);
        for room in [0, 15, long - 1, long, long + 1, long + 40] {
            let last = room.saturating_sub(long);
            let near = [0, 1, last / 2, last, last + 1, room, room + 1];
            let far = [0, 1, 15, 16, long - 1, long].map(|short| usize::MAX - short);
            for at in near.into_iter().chain(far) {
                for (p, q) in written.into_iter().chain(too_wide) {
                    let l = List {
                        p,
                        q,
                        room,
                        ..l.clone()
                    };
                    write(take, group, l, at)?;
                }
            }
        }
    }
    Ok(())
}

/// Rolls without preface that carry any list.
pub fn rolls_to_pack(take: &mut Take, dice: &mut Dice, times: u64) -> Done {
    for k in 0..times {
        let n = match k % 100 {
            0 => 1_020 + dice.below(6),
            _ => dice.below(20),
        };
        let l = any_list(dice, n as usize);
        let bytes = roll_of(&l);
        let case = Case::Roll {
            bytes,
            room: l.room,
        };
        take("rolls without preface, packed again", case, ANSWER)?;
    }
    Ok(())
}
