//! Makers of lists for a benchmark. All are deterministic and accepted, with 0 as the reference
//! (readings are offsets) and P/Q as given; n is at most 1,024.

/// A made list, with the fastest pace P/Q that it is accepted with.
#[derive(Clone, Debug, PartialEq, Eq)]
pub struct Made {
    pub arrivals: Vec<u32>,
    pub deadlines: Vec<u32>,
    pub operations: Vec<u32>,
    pub p: u32,
    pub q: u32,
}

impl Made {
    fn new(n: usize, p: u32, q: u32) -> Made {
        Made {
            arrivals: Vec::with_capacity(n),
            deadlines: Vec::with_capacity(n),
            operations: Vec::with_capacity(n),
            p,
            q,
        }
    }

    fn push(&mut self, arrival: u32, deadline: u32, operations: u32) {
        self.arrivals.push(arrival);
        self.deadlines.push(deadline);
        self.operations.push(operations);
    }
}

/// A small generator of numbers (xorshift with 64 bits of state; the seed is mixed first).
#[derive(Clone, Debug)]
pub struct Xorshift(u64);

impl Xorshift {
    pub fn new(seed: u64) -> Xorshift {
        let mixed = (seed ^ (seed >> 31)).wrapping_mul(0x9e37_79b9_7f4a_7c15);
        Xorshift((mixed ^ 0x2545_f491_4f6c_dd1d).max(1))
    }

    pub fn number(&mut self) -> u64 {
        self.0 ^= self.0 << 13;
        self.0 ^= self.0 >> 7;
        self.0 ^= self.0 << 17;
        self.0
    }

    /// A number from `least` to `most`, both within.
    pub fn within(&mut self, least: u32, most: u32) -> u32 {
        let many = u64::from(most - least) + 1;
        least + (((self.number() >> 32) * many) >> 32) as u32
    }
}

/// An accepted list with random windows: deadlines rise and fall, paces do both, and here and there
/// is idle time.
pub fn random(n: usize, seed: u64) -> Made {
    let mut made = Made::new(n, 3, 2);
    let mut numbers = Xorshift::new(seed);
    let mut arrival = 0;
    let mut finish = 0;
    for _ in 0..n {
        let operations = numbers.within(1, 1_000);
        // Now and then, a lull.
        arrival += match numbers.within(0, 39) {
            0 => numbers.within(0, 30_000),
            1..=9 => 0,
            _ => numbers.within(0, 1_800),
        };
        // The finish at the fastest pace, rounded up; the deadline gives room beyond it.
        finish = finish.max(arrival) + (operations * made.p).div_ceil(made.q);
        made.push(arrival, finish + numbers.within(0, 12_000), operations);
    }
    made
}

/// The worst list for the nested search: one stretch in which pace rises with every report, so that
/// each block has one report, and each search goes on to the stretch's end (all lows are nil but
/// the last).
pub fn worst(n: usize) -> Made {
    let mut made = Made::new(n, 1, 1);
    let operations = 100;
    let mut deadline = 0;
    for i in 0..n as u32 {
        deadline += operations + i;
        made.push(0, deadline, operations);
    }
    made
}

/// The arrivals and deadlines of three stretches, from the stretch's start: a single report; one in
/// which pace rises once; one in which it falls once.
const STRETCHES: [&[(u32, u32)]; 3] = [
    &[(0, 250)],
    &[(0, 150), (0, 450)],
    &[(0, 700), (300, 700), (500, 700)],
];

/// A list of many short stretches: idle time after every one, two or three reports, by turns.
pub fn gaps(n: usize) -> Made {
    let mut made = Made::new(n, 1, 1);
    let turns = STRETCHES.iter().cycle().zip(0..);
    let reports =
        turns.flat_map(|(stretch, turn)| stretch.iter().map(move |report| (turn, report)));
    for (turn, (arrival, deadline)) in reports.take(n) {
        let start = 1_000 * turn;
        made.push(start + arrival, start + deadline, 100);
    }
    made
}

#[cfg(test)]
mod tests {
    use super::*;
    use crate::{nested, sweep};

    const SIZES: [usize; 4] = [16, 64, 256, 1024];

    /// What a made list costs and gives.
    struct Cost {
        blocks: usize,
        nested_steps: usize,
        sweep_steps: usize,
        idle_gaps: usize,
    }

    /// Both planners accept the list, with the same rows.
    fn accepted(made: &Made) -> Cost {
        let Made {
            arrivals,
            deadlines,
            operations,
            p,
            q,
        } = made;
        let n = arrivals.len();
        let mut rows = vec![7; 5 * n];
        let mut swept = rows.clone();
        nested::steps::taken();
        sweep::steps::taken();
        let answer = nested(arrivals, deadlines, operations, 0, *p, *q, &mut rows);
        assert_eq!(
            answer,
            sweep(arrivals, deadlines, operations, 0, *p, *q, &mut swept)
        );
        assert_eq!((answer.0, answer.1, &rows), (0, 0, &swept));
        Cost {
            blocks: answer.2,
            nested_steps: nested::steps::taken(),
            sweep_steps: sweep::steps::taken(),
            idle_gaps: (1..n).filter(|&i| deadlines[i - 1] < arrivals[i]).count(),
        }
    }

    /// Prints what a list costs; the sweep's work is linear.
    fn shown(name: &str, made: &Made) -> Cost {
        let n = made.arrivals.len();
        let cost = accepted(made);
        let Cost {
            blocks,
            nested_steps,
            sweep_steps,
            idle_gaps,
        } = cost;
        println!(
            "{name:6} n {n:4}: blocks {blocks:4}, idle gaps {idle_gaps:4}, \
             inner steps of nested {nested_steps:6}, comparisons of sweep {sweep_steps:5}"
        );
        assert!(sweep_steps <= 7 * n);
        cost
    }

    #[test]
    fn random_is_accepted() {
        for n in SIZES {
            let cost = shown("random", &random(n, 1));
            assert!(1 < cost.blocks && cost.blocks < n);
            assert_eq!(random(n, 1), random(n, 1));
            for seed in 0..200 {
                accepted(&random(n, seed));
            }
        }
    }

    #[test]
    fn worst_is_quadratic() {
        for n in SIZES {
            let cost = shown("worst", &worst(n));
            assert_eq!(cost.blocks, n);
            assert_eq!(cost.nested_steps, n * (n - 1) / 2);
        }
    }

    #[test]
    fn gaps_has_gaps() {
        for n in SIZES {
            let cost = shown("gaps", &gaps(n));
            assert!(cost.idle_gaps >= n / 2 - 1);
            assert!(cost.nested_steps <= n);
        }
    }

    #[test]
    fn none_is_accepted() {
        for made in [random(0, 1), worst(0), gaps(0)] {
            assert_eq!(accepted(&made).blocks, 0);
        }
    }
}
