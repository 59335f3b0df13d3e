//! Rival plans for the comparison of sums. Two of them run at one common pace. The finishes of all
//! others lie on a grid of `GRID` units a tick, fine enough that 1,024 reports fit into one tick
//! with a positive pace each. Whatever finishes are wanted, `fitted` moves them as little as the
//! list demands; whether a rival keeps the list is verified by the caller all the same.

use super::timing::timings;
use super::Paces;
use crate::rules::prefix_sums;
use crate::Reports;

/// Units a tick.
const GRID: i128 = 1 << 20;

/// The list on the grid.
struct Grid {
    arrival: Vec<i128>,
    operations: Vec<i128>,
    /// The earliest finishes with at least one unit for each report.
    earliest: Vec<i128>,
    /// The latest finishes that leave at least one unit to each later report.
    latest: Vec<i128>,
}

impl Grid {
    fn new(r: &Reports) -> Grid {
        let on_grid = |values: &[u64]| -> Vec<i128> {
            values
                .iter()
                .map(|&value| i128::from(value) * GRID)
                .collect()
        };
        let arrival = on_grid(&r.arrival);
        let mut latest = on_grid(&r.deadline);
        for i in (1..latest.len()).rev() {
            latest[i - 1] = latest[i - 1].min(latest[i] - 1);
        }
        let mut earliest: Vec<i128> = Vec::new();
        for (i, &own) in arrival.iter().enumerate() {
            let before = if i == 0 { own } else { earliest[i - 1] };
            earliest.push(own.max(before) + 1);
        }
        Grid {
            arrival,
            operations: r.operations.iter().map(|&o| i128::from(o)).collect(),
            earliest,
            latest,
        }
    }

    fn count(&self) -> usize {
        self.arrival.len()
    }

    /// Start of report i after this finish of the report before it.
    fn start(&self, i: usize, finishes: &[i128]) -> i128 {
        match i.checked_sub(1) {
            Some(before) => self.arrival[i].max(finishes[before]),
            None => self.arrival[i],
        }
    }

    /// Finishes made in order from the first: `wanted` is asked for each report, with its start,
    /// and its answer is moved to where the list allows it.
    fn fitted(&self, mut wanted: impl FnMut(usize, i128) -> i128) -> Vec<i128> {
        let mut finishes = Vec::new();
        for i in 0..self.count() {
            let start = self.start(i, &finishes);
            let finish = wanted(i, start).max(start + 1).min(self.latest[i]);
            finishes.push(finish);
        }
        finishes
    }

    /// The paces of the plan with these finishes.
    fn paces(&self, finishes: &[i128]) -> Paces {
        (0..self.count())
            .map(|i| {
                let length = finishes[i] - self.start(i, finishes);
                (length, GRID * self.operations[i])
            })
            .collect()
    }

    /// Operations of report i times the threshold, in whole units, the rest dropped.
    fn full_length(&self, i: usize, num: u64, den: u64) -> i128 {
        self.operations[i] * i128::from(num) * GRID / i128::from(den)
    }

    /// From the first report on, each at the threshold pace where its window allows.
    fn greedy(&self, num: u64, den: u64) -> Vec<i128> {
        self.fitted(|i, start| start + self.full_length(i, num, den))
    }

    /// From the last report back, each at the threshold pace where its window allows.
    fn greedy_from_the_last(&self, num: u64, den: u64) -> Vec<i128> {
        let mut finishes = self.latest.clone();
        for i in (1..self.count()).rev() {
            let start = finishes[i] - self.full_length(i, num, den).max(1);
            let finish = start.min(self.latest[i - 1]);
            finishes[i - 1] = finish.max(self.earliest[i - 1]);
        }
        finishes
    }

    /// Random finishes: anywhere in the window, at one of its ends, or at a random small length.
    fn random(&self, random: &mut Random) -> Vec<i128> {
        self.fitted(|i, start| {
            let window = (self.latest[i] - start).max(1);
            match random.below(8) {
                0 => start + 1,
                1 => self.latest[i],
                2 => start + window / (1 + random.below(64)),
                3 if i + 1 < self.count() => self.arrival[i + 1],
                4 => start + self.operations[i] * random.below(4 * GRID),
                _ => start + 1 + random.below(window),
            }
        })
    }
}

/// A small random generator (splitmix64).
struct Random(u64);

impl Random {
    fn next(&mut self) -> u64 {
        self.0 = self.0.wrapping_add(0x9e37_79b9_7f4a_7c15);
        let mut mixed = self.0;
        mixed = (mixed ^ (mixed >> 30)).wrapping_mul(0xbf58_476d_1ce4_e5b9);
        mixed = (mixed ^ (mixed >> 27)).wrapping_mul(0x94d0_49bb_1331_11eb);
        mixed ^ (mixed >> 31)
    }

    /// A number from 0 to before `bound`, which is positive.
    fn below(&mut self, bound: i128) -> i128 {
        i128::from(self.next()) % bound
    }
}

/// The slowest pace at which all reports together keep the list: the least of a span's room over
/// its operations.
fn slowest_common_pace(r: &Reports) -> (i128, i128) {
    let sums = prefix_sums(&r.operations);
    let mut least: Option<(i128, i128)> = None;
    for (p, &arrival) in r.arrival.iter().enumerate() {
        for (q, &deadline) in r.deadline.iter().enumerate().skip(p) {
            let room = i128::from(deadline) - i128::from(arrival);
            let operations = i128::from(sums[q + 1] - sums[p]);
            if least.is_none_or(|(num, den)| room * den < num * operations) {
                least = Some((room, operations));
            }
        }
    }
    least.unwrap_or((1, 1))
}

/// The finishes of the plan of these rows on the grid, rests dropped; a dropped rest never takes a
/// finish below an arrival, as these are whole.
fn own_finishes(r: &Reports, rows: &[[u32; 5]], grid: &Grid) -> Vec<i128> {
    match timings(r, rows) {
        Ok(times) => times.iter().map(|time| time.finish_in(GRID)).collect(),
        Err(_) => grid.latest.clone(),
    }
}

/// All rivals with their names. `rows` must cover the reports; den must not be 0.
pub fn all(
    r: &Reports,
    rows: &[[u32; 5]],
    num: u64,
    den: u64,
    seed: u64,
) -> Vec<(&'static str, Paces)> {
    let count = r.arrival.len();
    if count == 0 {
        return Vec::new();
    }
    let grid = Grid::new(r);
    let fastest = (i128::from(r.p), i128::from(r.q));
    let mut rivals = vec![
        ("all at P/Q", vec![fastest; count]),
        ("slowest common pace", vec![slowest_common_pace(r); count]),
        ("greedy", grid.paces(&grid.greedy(num, den))),
        (
            "greedy from the last",
            grid.paces(&grid.greedy_from_the_last(num, den)),
        ),
        ("earliest", grid.paces(&grid.earliest)),
        ("latest", grid.paces(&grid.latest)),
    ];
    add_random(&mut rivals, &grid, &own_finishes(r, rows, &grid), seed);
    rivals
}

/// Adds random plans, mixtures of them with the plan's own finishes, and the plan's own finishes
/// with a few neighbours moved a little.
fn add_random(rivals: &mut Vec<(&'static str, Paces)>, grid: &Grid, own: &[i128], seed: u64) {
    let mut random = Random(seed);
    for _ in 0..3 {
        let other = grid.random(&mut random);
        let share = 1 + random.below(15);
        let mixed = grid.fitted(|i, _| (other[i] * share + own[i] * (16 - share)).div_euclid(16));
        rivals.push(("random", grid.paces(&other)));
        rivals.push(("mixture", grid.paces(&mixed)));
    }
    for _ in 0..4 {
        let from = random.below(grid.count() as i128) as usize;
        let until = from + 1 + random.below(3) as usize;
        let most = GRID >> random.below(12);
        let move_by = random.below(2 * most + 1) - most;
        let moved = grid.fitted(|i, _| {
            let by = if (from..until).contains(&i) {
                move_by
            } else {
                0
            };
            own[i] + by
        });
        rivals.push(("moved", grid.paces(&moved)));
    }
}
