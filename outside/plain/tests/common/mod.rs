//! What the tests share: a list, a run of both planners over it, and 01's words as slow checks that
//! share no code with the planners.

use plain::{nested, sweep};

pub type Answer = (u32, usize, usize);

/// A list as a planner is handed it: readings, reference, P and Q.
#[derive(Clone, Debug, Default)]
pub struct Handed {
    pub arrivals: Vec<u32>,
    pub deadlines: Vec<u32>,
    pub operations: Vec<u32>,
    pub reference: u32,
    pub p: u32,
    pub q: u32,
}

impl Handed {
    /// A list of readings that has these offsets.
    pub fn of(reports: &[(u32, u32, u32)], reference: u32, p: u32, q: u32) -> Handed {
        let reading = |offset: u32| reference.wrapping_add(offset);
        Handed {
            arrivals: reports.iter().map(|r| reading(r.0)).collect(),
            deadlines: reports.iter().map(|r| reading(r.1)).collect(),
            operations: reports.iter().map(|r| r.2).collect(),
            reference,
            p,
            q,
        }
    }

    fn offset(&self, reading: u32) -> u64 {
        (u64::from(reading) + (1 << 32) - u64::from(self.reference)) % (1 << 32)
    }

    fn arrival(&self, i: usize) -> u64 {
        self.offset(self.arrivals[i])
    }

    fn deadline(&self, i: usize) -> u64 {
        self.offset(self.deadlines[i])
    }
}

/// A number that a buffer holds beforehand at a place.
fn pattern(at: usize) -> u32 {
    0xa5a5_0000 ^ at as u32
}

/// Runs both planners over the list with room for `room` numbers: same answer, same whole buffer,
/// nothing written behind the rows. Gives the answer and the rows.
pub fn both(list: &Handed, room: usize) -> (Answer, Vec<u32>) {
    let Handed {
        arrivals,
        deadlines,
        operations,
        reference,
        p,
        q,
    } = list;
    let mut rows: Vec<u32> = (0..room).map(pattern).collect();
    let mut swept = rows.clone();
    let answer = nested(
        arrivals, deadlines, operations, *reference, *p, *q, &mut rows,
    );
    let other = sweep(
        arrivals, deadlines, operations, *reference, *p, *q, &mut swept,
    );
    assert_eq!(
        answer, other,
        "nested and sweep answer differently: {list:?}"
    );
    assert_eq!(rows, swept, "nested and sweep write differently: {list:?}");
    let behind = (5 * answer.2..room).all(|at| rows[at] == pattern(at));
    assert!(behind, "written behind the rows: {list:?}");
    rows.truncate(5 * answer.2);
    (answer, rows)
}

/// Runs both planners and holds their answer against 01's words.
pub fn checked(list: &Handed, room: usize) -> Answer {
    let (answer, rows) = both(list, room);
    match refusal(list, room) {
        Some((number, place)) => assert_eq!(answer, (number, place, 0), "{list:?}"),
        None => {
            assert_eq!((answer.0, answer.1), (0, 0), "{list:?}");
            assert!(
                is_plan(list, &rows),
                "not the plan wanted: {rows:?} of {list:?}"
            );
        }
    }
    answer
}

/// The table of refusals in 01, rules 1 to 9.
fn refusal(list: &Handed, room: usize) -> Option<(u32, usize)> {
    let n = list.arrivals.len();
    let outside = |x: u32| x == 0 || x >= 1 << 16;
    let first = |at_fault: &dyn Fn(usize) -> bool| (0..n).find(|&i| at_fault(i));
    if n != list.deadlines.len() || n != list.operations.len() {
        Some((1, 0))
    } else if n > 1024 {
        Some((2, 0))
    } else if room < 5 * n {
        Some((3, 0))
    } else if outside(list.p) || outside(list.q) {
        Some((4, 0))
    } else {
        first(&|i| outside(list.operations[i]))
            .map(|i| (5, i))
            .or_else(|| first(&|i| list.arrival(i) >= 1 << 31).map(|i| (6, i)))
            .or_else(|| first(&|i| list.deadline(i) >= 1 << 31).map(|i| (7, i)))
            .or_else(|| first(&|i| i > 0 && list.arrival(i) < list.arrival(i - 1)).map(|i| (8, i)))
            .or_else(|| first(&|j| !has_room(list, j)).map(|j| (9, j)))
    }
}

/// Whether, from the arrival of every report up to j, the operations from there to j fit in at P/Q
/// before the deadline of j.
fn has_room(list: &Handed, j: usize) -> bool {
    let (p, q) = (u64::from(list.p), u64::from(list.q));
    let mut sum = 0;
    (0..=j).rev().all(|i| {
        sum += u64::from(list.operations[i]);
        list.arrival(i) * q + sum * p <= list.deadline(j) * q
    })
}

/// Whether the rows are the plan wanted (01, "Blocks"). Finishes are compared multiplied by the
/// block's operations.
fn is_plan(list: &Handed, rows: &[u32]) -> bool {
    let n = list.arrivals.len();
    let rows: Vec<[u64; 5]> = rows
        .chunks(5)
        .map(|row| [0, 1, 2, 3, 4].map(|k| u64::from(row[k])))
        .collect();
    let idle_after = |i: usize| i + 1 < n && list.arrival(i + 1) > list.deadline(i);
    let mut next = 0;
    let mut ended = 0;
    for (k, &[first, last, start, end, operations]) in rows.iter().enumerate() {
        let (first, last) = (first as usize, last as usize);
        if first != next || last < first || last >= n || end <= start {
            return false;
        }
        let mut sum = 0;
        let inside = (first..=last).all(|i| {
            sum += u64::from(list.operations[i]);
            let finish = start * operations + (end - start) * sum;
            let in_time = finish <= list.deadline(i) * operations;
            let goes_on =
                i == last || (!idle_after(i) && finish >= list.arrival(i + 1) * operations);
            in_time && goes_on
        });
        let allowed = (end - start) * u64::from(list.q) >= u64::from(list.p) * operations;
        let starts = start == list.arrival(first).max(ended);
        let ends = if last + 1 == n || idle_after(last) {
            end == list.deadline(last)
        } else {
            let [_, _, start2, end2, operations2] = rows[k + 1];
            let here = (end - start) * operations2;
            let there = (end2 - start2) * operations;
            end >= list.arrival(last + 1)
                && here != there
                && (here > there || end == list.deadline(last))
                && (here < there || end == list.arrival(last + 1))
        };
        if !(inside && sum == operations && allowed && starts && ends) {
            return false;
        }
        next = last + 1;
        ended = end;
    }
    next == n
}
