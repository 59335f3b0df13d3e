//! The planner's speed, beside the same nested search in plain Rust and the linear sweep; and the
//! writer's, alone and followed by the planning of what it wrote, beside the planner's.
//!
//! bench once WHICH KIND N     one call, for callgrind (outside/bench/run counts its instructions)
//! bench time                  two tables of times, for orientation

use plain::made::{self, Made};
use std::hint::black_box;
use std::time::Instant;
use vakrhildo::Refusal;

const ROOM: usize = vakrhildo::ROW * vakrhildo::REPORTS;
const SIZES: [usize; 4] = [16, 64, 256, 1024];
const KINDS: [&str; 3] = ["random", "worst", "gaps"];

type Answer = (u32, usize, usize);
type Planner = fn(&Made, &mut [u32]) -> Answer;
type Writer = fn(&Made, &mut [u8], &mut [u32]) -> Answer;
/// A planner or a writer, with buffers of its own.
type Work = Box<dyn FnMut(&Made) -> Answer>;

#[inline(always)]
fn in_numbers(written: Result<usize, Refusal>) -> Answer {
    match written {
        Ok(many) => (0, 0, many),
        Err(refusal) => (refusal.number, refusal.place, 0),
    }
}

#[inline(always)]
fn write(l: &Made, roll: &mut [u8]) -> Result<usize, Refusal> {
    let (arrivals, deadlines, operations) = (&l.arrivals, &l.deadlines, &l.operations);
    vakrhildo::write(arrivals, deadlines, operations, 0, l.p, l.q, roll, 0)
}

// What callgrind counts: each of these and all that it calls.
#[no_mangle]
#[inline(never)]
fn measured_vakrhildo(l: &Made, rows: &mut [u32]) -> Answer {
    let (arrivals, deadlines, operations) = (&l.arrivals, &l.deadlines, &l.operations);
    in_numbers(vakrhildo::plan(
        arrivals, deadlines, operations, 0, l.p, l.q, rows,
    ))
}

#[no_mangle]
#[inline(never)]
fn measured_nested(l: &Made, rows: &mut [u32]) -> Answer {
    plain::nested(&l.arrivals, &l.deadlines, &l.operations, 0, l.p, l.q, rows)
}

#[no_mangle]
#[inline(never)]
fn measured_sweep(l: &Made, rows: &mut [u32]) -> Answer {
    plain::sweep(&l.arrivals, &l.deadlines, &l.operations, 0, l.p, l.q, rows)
}

#[no_mangle]
#[inline(never)]
fn measured_write(l: &Made, roll: &mut [u8], _: &mut [u32]) -> Answer {
    in_numbers(write(l, roll))
}

#[no_mangle]
#[inline(never)]
fn measured_write_then_plan(l: &Made, roll: &mut [u8], rows: &mut [u32]) -> Answer {
    in_numbers(write(l, roll).and_then(|bytes| vakrhildo::plan_roll(&roll[..bytes], rows)))
}

const PLANNERS: [(&str, Planner); 3] = [
    ("vakrhildo", measured_vakrhildo),
    ("nested", measured_nested),
    ("sweep", measured_sweep),
];

const WRITERS: [(&str, Writer); 2] = [
    ("write", measured_write),
    ("write_then_plan", measured_write_then_plan),
];

fn named(which: &str) -> Option<Work> {
    let mut rows = vec![0; ROOM];
    let mut roll = vec![0; vakrhildo::ROLL];
    if let Some(&(_, planner)) = PLANNERS.iter().find(|(name, _)| *name == which) {
        return Some(Box::new(move |l| planner(l, &mut rows)));
    }
    let &(_, writer) = WRITERS.iter().find(|(name, _)| *name == which)?;
    Some(Box::new(move |l| writer(l, &mut roll, &mut rows)))
}

fn made(kind: &str, n: usize) -> Option<Made> {
    match kind {
        "random" => Some(made::random(n, 1)),
        "worst" => Some(made::worst(n)),
        "gaps" => Some(made::gaps(n)),
        _ => None,
    }
}

/// All planners give the same answer and the same rows, from the lists and from the roll that was
/// written; a benchmark of different work would say nothing.
fn agree(l: &Made) {
    let mut answers: Vec<(Answer, Vec<u32>)> = PLANNERS
        .iter()
        .map(|(_, planner)| {
            let mut rows = vec![7; ROOM];
            (planner(l, &mut rows), rows)
        })
        .collect();
    let mut rows = vec![7; ROOM];
    let mut roll = vec![7; vakrhildo::ROLL];
    answers.push((measured_write_then_plan(l, &mut roll, &mut rows), rows));
    assert!(
        answers.iter().all(|answer| *answer == answers[0]),
        "the planners differ"
    );
    assert_eq!(answers[0].0 .0, 0, "the list is refused");
}

/// The least time of one call, in nanoseconds, over many.
fn least_time(mut work: Work, l: &Made) -> u128 {
    let calls = 1 + 200_000 / (l.arrivals.len() * l.arrivals.len());
    (0..30)
        .map(|_| {
            let start = Instant::now();
            for _ in 0..calls {
                black_box(work(black_box(l)));
            }
            start.elapsed().as_nanos() / calls as u128
        })
        .min()
        .unwrap_or(0)
}

fn times(which: &[&str]) {
    println!(
        "list, reports: {} (nanoseconds a call, the least of 30 runs)",
        which.join(", ")
    );
    for kind in KINDS {
        for n in SIZES {
            let l = made(kind, n).expect("a kind");
            agree(&l);
            let time = |name: &&str| least_time(named(name).expect("a name"), &l).to_string();
            let t: Vec<String> = which.iter().map(time).collect();
            println!("{kind}, {n}: {}", t.join(", "));
        }
    }
}

fn main() {
    let args: Vec<String> = std::env::args().skip(1).collect();
    match args.iter().map(String::as_str).collect::<Vec<_>>()[..] {
        ["time"] => {
            times(&PLANNERS.map(|(name, _)| name));
            times(&["vakrhildo", "write", "write_then_plan"]);
        }
        ["once", which, kind, n] => {
            let l = made(kind, n.parse().expect("a number")).expect("random, worst or gaps");
            let mut work = named(which).expect("a planner, write or write_then_plan");
            let answer = work(&l);
            println!("{answer:?}");
        }
        _ => eprintln!("bench time, or bench once WHICH KIND N"),
    }
}

#[cfg(test)]
mod tests {
    use super::{agree, made, KINDS, SIZES};

    #[test]
    fn the_planners_agree_on_what_is_measured() {
        for kind in KINDS {
            for n in SIZES {
                agree(&made(kind, n).expect("a kind"));
            }
        }
    }
}
