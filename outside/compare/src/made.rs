//! Makes the cases: 01's table, every small list, random lists small and large, near the line between
//! accepted and refused, lists at the edges of each rule; in `floor`, lists with a floor; in `roll`, rolls
//! and inputs of the program; in `write`, lists that are to be written.

mod floor;
mod roll;
mod write;

pub use floor::{floor_edges, floor_large, floor_small, floor_table, floors};
pub use roll::{damaged_samples, floor_rolls, inputs, long_rolls, rolls, short_files};
pub use write::{rolls_to_pack, write_edges, write_table, writings};

use crate::case::{Case, List};
use crate::judge::{Depth, PROPERTIES};

/// Takes a group's name, a case, and how deep it is looked at.
pub type Take<'a> = dyn FnMut(&'static str, Case, Depth) -> Result<(), String> + 'a;

type Done = Result<(), String>;

/// A small random generator (splitmix64), so that every run makes the same cases.
pub struct Dice(pub u64);

impl Dice {
    pub fn roll(&mut self) -> u64 {
        self.0 = self.0.wrapping_add(0x9e37_79b9_7f4a_7c15);
        let mut z = self.0;
        z = (z ^ (z >> 30)).wrapping_mul(0xbf58_476d_1ce4_e5b9);
        z = (z ^ (z >> 27)).wrapping_mul(0x94d0_49bb_1331_11eb);
        z ^ (z >> 31)
    }

    /// A number below `bound`.
    pub fn below(&mut self, bound: u64) -> u64 {
        self.roll() % bound
    }

    /// True once in `times`.
    pub fn once_in(&mut self, times: u64) -> bool {
        self.below(times) == 0
    }
}

const TOP: u64 = 2_147_483_647;
/// Numbers of a pace on both sides of the line of refusal 4, and of 16.
const PACES: [u32; 5] = [0, 1, 65_535, 65_536, u32::MAX];

fn list(arrivals: &[u32], deadlines: &[u32], operations: &[u32], p: u32, q: u32) -> List {
    let room = 5 * arrivals.len();
    List {
        arrivals: arrivals.into(),
        deadlines: deadlines.into(),
        operations: operations.into(),
        reference: 0,
        p,
        q,
        floor: None,
        room,
    }
}

/// The same list with all readings moved to another reference.
fn moved(mut l: List, reference: u32) -> List {
    for reading in l.arrivals.iter_mut().chain(l.deadlines.iter_mut()) {
        *reading = reading.wrapping_sub(l.reference).wrapping_add(reference);
    }
    l.reference = reference;
    l
}

/// 01's table, starred and not, and the list with a wrapped reference.
pub fn table(take: &mut Take) -> Done {
    let rows: [List; 18] = [
        list(&[], &[], &[], 1, 1),
        list(&[0], &[10], &[4], 1, 1),
        list(&[0], &[4], &[4], 1, 1),
        list(&[0], &[4], &[5], 1, 1),
        list(&[0, 0], &[4, 12], &[2, 2], 1, 1),
        list(&[0, 6], &[10, 10], &[2, 2], 1, 1),
        list(&[0, 10], &[4, 14], &[2, 2], 1, 1),
        list(&[0, 4], &[4, 8], &[2, 2], 1, 1),
        list(&[0, 0], &[10, 5], &[3, 2], 1, 1),
        list(&[0, 0, 9, 9], &[6, 20, 20, 12], &[2, 2, 1, 1], 1, 1),
        list(&[0, 0, 12], &[4, 20, 16], &[2, 2, 2], 1, 1),
        list(&[0], &[2], &[3], 2, 3),
        list(&[0], &[2], &[4], 2, 3),
        list(&[0], &[2147483647], &[1], 1, 1),
        list(&[0], &[2147483648], &[1], 1, 1),
        list(&[5, 4], &[20, 20], &[2, 2], 1, 1),
        list(&[5, 4], &[20, 20], &[2, 0], 1, 1),
        List {
            reference: 4294967290,
            ..list(&[4294967295, 3], &[9, 14], &[2, 2], 1, 1)
        },
    ];
    for l in rows {
        take("rows of 01's table", Case::List(l), PROPERTIES)?;
    }
    Ok(())
}

/// Gives every list of up to `most` reports with arrivals 0 to 3, deadlines 0 to 5, operations 0 to 3, at
/// three paces.
fn each_small(most: u32, give: &mut dyn FnMut(List) -> Done) -> Done {
    const REPORTS: u32 = 4 * 6 * 4;
    let report = |k: u32| (k % 4, k / 4 % 6, k / 24);
    for n in 0..=most {
        for code in 0..REPORTS.pow(n) {
            let reports: Vec<_> = (0..n)
                .map(|i| report(code / REPORTS.pow(i) % REPORTS))
                .collect();
            let column = |f: fn(&(u32, u32, u32)) -> u32| reports.iter().map(f).collect::<Vec<_>>();
            for (p, q) in [(1, 1), (2, 1), (1, 2)] {
                let l = list(&column(|r| r.0), &column(|r| r.1), &column(|r| r.2), p, q);
                give(l)?;
            }
        }
    }
    Ok(())
}

/// The properties of a small list, and now and then sums at a small threshold.
fn depth_of(seen: u64) -> Depth {
    let threshold = (1 + seen % 13, 1 + seen % 5, seen);
    Depth {
        properties: true,
        threshold: seen.is_multiple_of(101).then_some(threshold),
    }
}

/// Every list of up to three reports over small numbers.
pub fn small(take: &mut Take) -> Done {
    let mut seen = 0;
    each_small(3, &mut |l| {
        seen += 1;
        let group = "every list of up to 3 reports over small numbers";
        take(group, Case::List(l), depth_of(seen))
    })
}

/// Windows around the finishes at the fastest pace: most keep them barely, a few miss by a tick.
fn near(dice: &mut Dice, n: usize, numbers: u64, slack: u64) -> List {
    let (p, q) = (1 + dice.below(numbers), 1 + dice.below(numbers));
    let most = 1 + dice.below(65_535u64.min(numbers * numbers));
    let gap = 1 + dice.below(2 * most * p / q + 2);
    let (mut arrival, mut finish) = (0u64, 0u128);
    let mut l = list(&[], &[], &[], p as u32, q as u32);
    for _ in 0..n {
        let operations = 1 + dice.below(most);
        arrival += if dice.once_in(3) { 0 } else { dice.below(gap) };
        finish = finish.max(u128::from(arrival * q)) + u128::from(operations * p);
        let spare = if dice.once_in(4) {
            0
        } else {
            dice.below(slack)
        };
        let missed = u64::from(dice.once_in(2 * n as u64));
        let deadline = (finish.div_ceil(u128::from(q)) as u64 + spare).saturating_sub(missed);
        l.arrivals.push(arrival.min(TOP) as u32);
        l.deadlines.push(deadline.min(TOP) as u32);
        l.operations.push(operations as u32);
    }
    l.room = 5 * n;
    // every other list at any reference, the rest at one from which the clock runs past its top within the list
    let any = dice.roll() as u32;
    let latest = u64::from(l.deadlines.iter().copied().max().unwrap_or(0));
    let wrapping = 0u32.wrapping_sub(dice.below(latest + 2) as u32);
    moved(l, if dice.once_in(2) { any } else { wrapping })
}

/// Random lists of up to 8 reports, with sums at random thresholds.
pub fn random_small(take: &mut Take, dice: &mut Dice, times: u64) -> Done {
    for _ in 0..times {
        let n = 1 + dice.below(8) as usize;
        let numbers = 1 + dice.below(9);
        let slack = 1 + dice.below(20);
        let mut l = near(dice, n, numbers, slack);
        l.room += dice.below(4) as usize;
        let threshold = dice
            .once_in(8)
            .then(|| (1 + dice.below(40), 1 + dice.below(12), dice.roll()));
        take(
            "random lists of up to 8 reports",
            Case::List(l),
            Depth {
                properties: true,
                threshold,
            },
        )?;
    }
    Ok(())
}

/// Random lists of up to `most` reports, near the line.
pub fn random_large(
    take: &mut Take,
    dice: &mut Dice,
    times: u64,
    most: u64,
    group: &'static str,
) -> Done {
    for _ in 0..times {
        let n = 1 + dice.below(most) as usize;
        let numbers = 1 + dice.below(250);
        let slack = 1 << dice.below(18);
        let l = near(dice, n, numbers, slack);
        let threshold = dice
            .once_in(10)
            .then(|| (1 + dice.below(4000), 1 + dice.below(40), dice.roll()));
        take(
            group,
            Case::List(l),
            Depth {
                properties: true,
                threshold,
            },
        )?;
    }
    Ok(())
}

/// A list that is well formed, and a place in it.
fn base(dice: &mut Dice) -> (List, usize) {
    let n = 2 + dice.below(20) as usize;
    let numbers = 1 + dice.below(60);
    let l = near(dice, n, numbers, 50);
    let at = dice.below(n as u64) as usize;
    (l, at)
}

/// One thing changed so that a rule of the list is given, or is not given by a hair.
fn edge(dice: &mut Dice, rule: u64) -> List {
    let (mut l, at) = base(dice);
    let hair = dice.below(2);
    match rule {
        1 => {
            let short = 1 + dice.below(2) as usize;
            let column = match dice.below(3) {
                0 => &mut l.arrivals,
                1 => &mut l.deadlines,
                _ => &mut l.operations,
            };
            column.truncate(column.len() - short);
        }
        2 => {
            let n = 1023 + dice.below(4) as usize;
            l = list(&vec![0; n], &vec![TOP as u32; n], &vec![1; n], 1, 1);
        }
        3 => l.room = l.room - 1 + hair as usize,
        4 => {
            *if dice.once_in(2) { &mut l.p } else { &mut l.q } =
                [0, 65_535, 65_536, u32::MAX][dice.below(4) as usize]
        }
        5 => l.operations[at] = [0, 65_535, 65_536, u32::MAX][dice.below(4) as usize],
        6 => l.arrivals[at] = l.reference.wrapping_add((TOP + hair) as u32),
        7 => l.deadlines[at] = l.reference.wrapping_add((TOP + hair) as u32),
        8 => l.arrivals[at] = l.reference.wrapping_add(dice.below(100) as u32),
        _ => l.deadlines[at] = l.deadlines[at].wrapping_sub(dice.below(3) as u32),
    }
    l
}

/// A list at the edge of a rule, often at another one too.
fn edged(dice: &mut Dice, rule: u64) -> List {
    let mut l = edge(dice, rule);
    match dice.below(6) {
        0 => l.room = dice.below(5 * l.arrivals.len() as u64 + 20) as usize,
        1 => l.room += dice.below(40) as usize,
        2 => l.p = [0, 1, 65_535, 65_536][dice.below(4) as usize],
        _ => {}
    }
    l
}

/// Lists at the edges of the rules 1 to 9, with buffers too short, just long enough and too long; often two edges at once.
pub fn edges(take: &mut Take, dice: &mut Dice, times: u64) -> Done {
    for k in 0..times {
        let l = edged(dice, 1 + k % 9);
        take("lists at the edges of the rules", Case::List(l), PROPERTIES)?;
    }
    Ok(())
}
