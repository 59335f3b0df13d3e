//! Lists with a floor: next to P/Q on both sides, as close as cross products can be, equal to it, slower by
//! some, with numbers at the edges, and none; alone and together with the edges of the other rules.

use super::{depth_of, each_small, edged, list, near, Dice, Done, Take, PACES, TOP};
use crate::case::{Case, List};
use crate::judge::{Depth, PROPERTIES};
use std::cmp::Ordering;
use vakrhildo::Floor;

const MOST: u64 = 65_535;

/// Where a floor stands beside P/Q.
#[derive(Clone, Copy)]
pub enum Side {
    Below,
    Equal,
    Above,
}

/// The fractions next to P/Q below and above, whose cross products with it in lowest terms differ by one,
/// and itself in lowest terms between: each is found between two that were found before. P and Q are not 0.
fn beside(p: u64, q: u64) -> [(u64, u64); 3] {
    let (mut below, mut above) = ((0, 1), (1, 0));
    loop {
        let middle: (u64, u64) = (below.0 + above.0, below.1 + above.1);
        match (middle.0 * q).cmp(&(p * middle.1)) {
            Ordering::Less => below = middle,
            Ordering::Greater => above = middle,
            Ordering::Equal => return [below, middle, above],
        }
    }
}

/// A floor next to P/Q, or equal to it. P/Q in lowest terms is added to it some times, which leaves it as
/// close by cross products; at least once, as a number may be 0 before. Where that is past 65,535, so be it.
fn next_to(dice: &mut Dice, p: u32, q: u32, side: Side) -> Floor {
    let [below, (p, q), above] = beside(u64::from(p), u64::from(q));
    let (r, t) = match side {
        Side::Below => below,
        Side::Equal => (0, 0),
        Side::Above => above,
    };
    let most = (MOST.saturating_sub(r) / p).min(MOST.saturating_sub(t) / q);
    let times = 1 + dice.below(most.max(1));
    Floor {
        r: (r + times * p) as u32,
        t: (t + times * q) as u32,
    }
}

/// A floor from P/Q on, up to three times as slow.
fn fitting(dice: &mut Dice, p: u32, q: u32) -> Floor {
    let (p, q) = (u64::from(p), u64::from(q));
    let times = 1 + dice.below((MOST / p.max(q)).clamp(1, 40));
    let (r, t) = (times * p, times * q);
    Floor {
        r: (r + dice.below(2 * r + 1)).min(MOST).max(r) as u32,
        t: t as u32,
    }
}

/// A floor whose numbers are at the edges.
fn at_edges(dice: &mut Dice) -> Floor {
    let [r, t] = [0, 1].map(|_| PACES[dice.below(5) as usize]);
    Floor { r, t }
}

/// A floor of any kind for a list, or none.
pub fn any_floor(dice: &mut Dice, p: u32, q: u32) -> Option<Floor> {
    let inside = 1..=MOST as u32;
    let usable = inside.contains(&p) && inside.contains(&q);
    match dice.below(8) {
        0 => None,
        1 => Some(at_edges(dice)),
        _ if !usable => Some(at_edges(dice)),
        2 => Some(next_to(dice, p, q, Side::Below)),
        3 => Some(next_to(dice, p, q, Side::Equal)),
        4 => Some(next_to(dice, p, q, Side::Above)),
        5 => {
            let mut floor = fitting(dice, p, q);
            let one = PACES[dice.below(5) as usize];
            *if dice.once_in(2) {
                &mut floor.r
            } else {
                &mut floor.t
            } = one;
            Some(floor)
        }
        _ => Some(fitting(dice, p, q)),
    }
}

/// The properties, and once in some times sums at a threshold: at R/T, close to it on both sides, or
/// anywhere.
fn depth(dice: &mut Dice, floor: Option<Floor>, once_in: u64) -> Depth {
    let Floor { r, t } = floor.unwrap_or(Floor { r: 1, t: 1 });
    let (r, t) = (u64::from(r), u64::from(t).max(1));
    let (num, den) = match dice.below(4) {
        0 => (r, t),
        1 => ((8 * r).saturating_sub(1), 8 * t),
        2 => (8 * r + 1, 8 * t),
        _ => (1 + dice.below(40), 1 + dice.below(12)),
    };
    Depth {
        properties: true,
        threshold: dice.once_in(once_in).then(|| (num, den, dice.roll())),
    }
}

/// A random list near the line with a floor of any kind.
fn near_floor(dice: &mut Dice, n: usize, numbers: u64, slack: u64) -> List {
    let mut l = near(dice, n, numbers, slack);
    l.floor = any_floor(dice, l.p, l.q);
    l
}

/// Random lists of up to 8 reports with a floor of each kind, and sums at thresholds about it.
pub fn floors(take: &mut Take, dice: &mut Dice, times: u64) -> Done {
    for _ in 0..times {
        let n = 1 + dice.below(8) as usize;
        let numbers = 1 + dice.below(9);
        let slack = 1 + dice.below(20);
        let mut l = near_floor(dice, n, numbers, slack);
        l.room += dice.below(4) as usize;
        let depth = depth(dice, l.floor, 8);
        take("lists with floors: up to 8 reports", Case::List(l), depth)?;
    }
    Ok(())
}

/// Random lists with floors, of up to 60 reports and, once in twenty, of up to 1,024.
pub fn floor_large(take: &mut Take, dice: &mut Dice, times: u64) -> Done {
    for k in 0..times {
        let most = if k % 20 == 0 { 1_024 } else { 60 };
        let n = 1 + dice.below(most) as usize;
        let numbers = 1 + dice.below(250);
        let slack = 1 << dice.below(18);
        let l = near_floor(dice, n, numbers, slack);
        let depth = depth(dice, l.floor, 10);
        take(
            "lists with floors: up to 60 reports, some up to 1,024",
            Case::List(l),
            depth,
        )?;
    }
    Ok(())
}

/// Every list of up to two reports over small numbers, with every floor whose numbers are 0 to 3.
pub fn floor_small(take: &mut Take) -> Done {
    let mut seen = 0;
    each_small(2, &mut |l| {
        for k in 0..16 {
            let floor = Some(Floor { r: k % 4, t: k / 4 });
            seen += 1;
            let case = Case::List(List { floor, ..l.clone() });
            take(
                "lists with floors: every list of up to 2 reports over small numbers",
                case,
                depth_of(seen),
            )?;
        }
        Ok(())
    })
}

/// Lists with a floor of any kind at the edges of the rules 1 to 9.
pub fn floor_edges(take: &mut Take, dice: &mut Dice, times: u64) -> Done {
    for k in 0..times {
        let mut l = edged(dice, 1 + k % 9);
        l.floor = any_floor(dice, l.p, l.q);
        let group = "lists with floors at the edges of the rules";
        take(group, Case::List(l), PROPERTIES)?;
    }
    Ok(())
}

/// Lists that break a rule each, or none: 1, 2, 5, 6, 7, 8, 9.
fn one_rule_each() -> [List; 8] {
    let past = TOP as u32 + 1;
    let many = [1; 1_025];
    [
        list(&[0, 2], &[20, 20], &[2, 2], 1, 1),
        list(&[0, 2], &[20], &[2, 2], 1, 1),
        list(&many, &many, &many, 1, 1),
        list(&[0, 2], &[20, 20], &[2, 0], 1, 1),
        list(&[0, past], &[20, 20], &[2, 2], 1, 1),
        list(&[0, 2], &[20, past], &[2, 2], 1, 1),
        list(&[5, 4], &[20, 20], &[2, 2], 1, 1),
        list(&[0, 0], &[20, 0], &[2, 2], 1, 1),
    ]
}

/// Lists that break a rule each, row buffers just long enough and too short, and all edges of P, Q, R and
/// T: each with each, so that every order of 3, 4, 16, 17 and the rules behind them is seen.
pub fn floor_table(take: &mut Take) -> Done {
    for l in one_rule_each() {
        for code in 0..2 * 5usize.pow(4) {
            let [p, q, r, t] = [1, 5, 25, 125].map(|power| PACES[code / power % 5]);
            let short = usize::from(code >= 625);
            let l = List {
                p,
                q,
                floor: Some(Floor { r, t }),
                room: l.room.saturating_sub(short),
                ..l.clone()
            };
            let group = "lists with floors, each edge with each";
            take(group, Case::List(l), PROPERTIES)?;
        }
    }
    Ok(())
}

#[cfg(test)]
mod tests {
    use super::{any_floor, beside, fitting, next_to, Side};
    use crate::made::Dice;

    #[test]
    fn the_neighbours_are_as_close_as_can_be() {
        for (p, q) in [
            (1, 1),
            (2, 3),
            (4, 6),
            (65_535, 1),
            (1, 65_535),
            (65_535, 65_534),
        ] {
            let [below, lowest, above] = beside(p, q);
            assert_eq!(lowest.0 * q, lowest.1 * p);
            assert_eq!(below.0 * lowest.1 + 1, lowest.0 * below.1);
            assert_eq!(above.0 * lowest.1, lowest.0 * above.1 + 1);
        }
    }

    #[test]
    fn floors_stand_where_they_are_said_to() {
        let mut dice = Dice(3);
        let dice = &mut dice;
        for _ in 0..10_000 {
            let [p, q] = [0, 1].map(|_| 1 + dice.below(250) as u32);
            let cross = |floor: vakrhildo::Floor| (floor.r * q).cmp(&(floor.t * p));
            assert!(cross(next_to(dice, p, q, Side::Below)).is_lt());
            assert!(cross(next_to(dice, p, q, Side::Equal)).is_eq());
            assert!(cross(next_to(dice, p, q, Side::Above)).is_gt());
            let floor = fitting(dice, p, q);
            assert!(cross(floor).is_ge() && floor.r <= 65_535 && floor.t <= 65_535);
        }
    }

    #[test]
    fn every_p_and_q_has_a_floor_or_none() {
        let dice = &mut Dice(4);
        for p in super::PACES {
            for q in super::PACES {
                for _ in 0..50 {
                    let _ = any_floor(dice, p, q);
                }
            }
        }
    }
}
