//! `sweep` equals `nested`, and both keep to 01's words, on every small list and on many made ones.

mod common;

use common::{checked, Handed};
use plain::made::Xorshift;

/// How often each number came, and the blocks of all accepted lists.
#[derive(Default)]
struct Tally {
    numbers: [usize; 10],
    blocks: usize,
}

impl Tally {
    fn add(&mut self, (number, _, blocks): (u32, usize, usize)) {
        self.numbers[number as usize] += 1;
        self.blocks += blocks;
    }

    fn show(&self, name: &str) {
        let Tally { numbers, blocks } = self;
        let lists: usize = numbers.iter().sum();
        println!("{name}: {lists} lists, by number {numbers:?}, {blocks} blocks");
    }
}

/// Every list of up to 3 reports with arrivals 0 to 3, deadlines 0 to 6, operations 0 to 3.
#[test]
fn every_small_list() {
    let mut reports = Vec::new();
    for arrival in 0..=3 {
        for deadline in 0..=6 {
            for operations in 0..=3 {
                reports.push((arrival, deadline, operations));
            }
        }
    }
    let mut tally = Tally::default();
    for (p, q) in [(1, 1), (2, 1), (1, 2)] {
        let mut try_list = |list: &[(u32, u32, u32)]| {
            tally.add(checked(
                &Handed::of(list, 4_294_967_293, p, q),
                5 * list.len() + 2,
            ));
        };
        try_list(&[]);
        for &first in &reports {
            try_list(&[first]);
            for &second in &reports {
                try_list(&[first, second]);
                for &third in &reports {
                    try_list(&[first, second, third]);
                }
            }
        }
    }
    tally.show("every small list");
}

/// How a made list looks.
struct Style {
    /// The fastest pace it is made for.
    p: u32,
    q: u32,
    operations: u32,
    /// The largest step from an arrival to the next, and how many of 8 arrivals take one.
    step: u32,
    stepping: u32,
    /// The most room beyond the fastest finish, and how many of 8 deadlines have some.
    room: u32,
    roomy: u32,
    /// The longest lull before an arrival, and how many of 32 arrivals have one.
    lull: u32,
    lulls: u32,
}

impl Style {
    /// A style with numbers of a size: 0 for small ones with many ties, 2 for very large ones.
    fn any(numbers: &mut Xorshift, size: u32, n: usize) -> Style {
        let (p, q) = (numbers.within(1, 3), numbers.within(1, 3));
        let operations = match size {
            0 => numbers.within(1, 3),
            1 => numbers.within(1, 500),
            _ => 65_535,
        };
        let work = 1 + operations * p / q;
        let times = [1, 2, 5, 20][numbers.within(0, 3) as usize];
        // Arrivals stay below 2^30 in all.
        let most = (1 << 30) / (2 * n as u32);
        let vast = size == 2 && numbers.within(0, 1) == 0;
        Style {
            p,
            q,
            operations,
            step: numbers.within(0, if vast { most } else { most.min(2 * work) }),
            stepping: numbers.within(0, 8),
            room: numbers.within(0, if vast { 1 << 29 } else { times * work }),
            roomy: numbers.within(0, 8),
            lull: numbers.within(0, most.min(2 * times * work)),
            lulls: [0, 0, 1, 8][numbers.within(0, 3) as usize],
        }
    }

    /// Q times a finish at the fastest pace, from Q times the finish before.
    fn finish(&self, before: u64, arrival: u32, operations: u32) -> u64 {
        let arrived = u64::from(self.q) * u64::from(arrival);
        before.max(arrived) + u64::from(self.p) * u64::from(operations)
    }

    /// An accepted list in this style.
    fn list(&self, numbers: &mut Xorshift, n: usize) -> Vec<(u32, u32, u32)> {
        let mut reports = Vec::with_capacity(n);
        let (mut arrival, mut finish) = (0, 0);
        for _ in 0..n {
            if numbers.within(0, 7) < self.stepping {
                arrival += numbers.within(0, self.step);
            }
            if numbers.within(0, 31) < self.lulls {
                arrival += numbers.within(0, self.lull);
            }
            let operations = numbers.within(1, self.operations);
            finish = self.finish(finish, arrival, operations);
            let mut deadline = finish.div_ceil(self.q.into()) as u32;
            if numbers.within(0, 7) < self.roomy {
                deadline += numbers.within(0, self.room);
            }
            reports.push((arrival, deadline, operations));
        }
        reports
    }
}

/// A list whose highs and lows lie on a line or two through whole points, but for a few: all ties.
fn on_lines(numbers: &mut Xorshift, n: usize) -> Vec<(u32, u32, u32)> {
    let mut reports = Vec::with_capacity(n);
    let (mut arrival, mut line) = (0, 0);
    let mut pace = numbers.within(1, 3);
    for _ in 0..n {
        let operations = numbers.within(1, 2);
        if numbers.within(0, 9) == 0 {
            pace = numbers.within(1, 3);
        }
        line += pace * operations;
        let deadline = line + [0, 0, 0, 1, 5, 9][numbers.within(0, 5) as usize];
        reports.push((arrival, deadline, operations));
        arrival = match numbers.within(0, 3) {
            0 => line,
            1 => line - 1,
            _ => arrival,
        };
        arrival = arrival.max(reports[reports.len() - 1].0);
    }
    reports
}

#[test]
fn random_lists() {
    let mut numbers = Xorshift::new(2);
    let mut tally = Tally::default();
    for turn in 0..400_000 {
        let n = numbers.within(1, 40) as usize;
        let style = Style::any(&mut numbers, turn % 4 % 3, n);
        let (mut p, mut q) = (style.p, style.q);
        let mut reports = style.list(&mut numbers, n);
        if turn % 4 == 3 {
            reports = on_lines(&mut numbers, n);
            (p, q) = (1, 1);
        }
        // Now and then a deadline is made anew, or a number spoilt.
        let at = numbers.within(0, n as u32 - 1) as usize;
        match numbers.within(0, 63) {
            0..=7 => reports[at].1 = numbers.within(0, 2 * reports[at].1),
            8 => reports[at].0 = numbers.number() as u32,
            9 => reports[at].1 = numbers.number() as u32,
            10 => reports[at].2 = numbers.number() as u32 & 0x0001_ffff,
            11 => p = [0, 65_535, 65_536][numbers.within(0, 2) as usize],
            12 => q = [0, 65_535, 65_536][numbers.within(0, 2) as usize],
            _ => {}
        }
        let list = Handed::of(&reports, numbers.number() as u32, p, q);
        let room = 5 * n + numbers.within(0, 7) as usize;
        tally.add(checked(
            &list,
            room - usize::from(numbers.within(0, 99) == 0),
        ));
    }
    tally.show("random lists");
    assert!(tally.numbers[0] > 300_000);
    assert!([3, 4, 5, 6, 7, 8, 9]
        .iter()
        .all(|&number| tally.numbers[number] > 100));
}

/// The line is found by the pace: P is the greatest that is accepted, P + 1 is refused.
#[test]
fn near_the_line_by_pace() {
    let mut numbers = Xorshift::new(3);
    let mut tally = Tally::default();
    for turn in 0..2_000 {
        let n = numbers.within(1, 1_024) as usize;
        let style = Style::any(&mut numbers, turn % 3, n);
        let reports = style.list(&mut numbers, n);
        let q = 10_000;
        let list = |p| Handed::of(&reports, numbers.clone().number() as u32, p, q);
        let accepted = |p| {
            let list = list(p);
            let mut rows = vec![0; 5 * n];
            let (arrivals, deadlines) = (&list.arrivals, &list.deadlines);
            let operations = &list.operations;
            plain::sweep(
                arrivals,
                deadlines,
                operations,
                list.reference,
                p,
                q,
                &mut rows,
            )
            .0 == 0
        };
        let (mut most, mut least) = (1, 65_536);
        while most + 1 < least {
            let middle = (most + least) / 2;
            if accepted(middle) {
                most = middle;
            } else {
                least = middle;
            }
        }
        tally.add(checked(&list(most), 5 * n + 4));
        if least < 65_536 {
            tally.add(checked(&list(least), 5 * n + 4));
        }
    }
    tally.show("near the line by pace");
    assert_eq!(tally.numbers[0], 2_000);
    assert!(tally.numbers[9] > 1_500);
}

/// The line is found by a deadline: a report that just fits at the fastest pace, and one tick less.
#[test]
fn near_the_line_by_deadline() {
    let mut numbers = Xorshift::new(4);
    let mut tally = Tally::default();
    for turn in 0..1_000 {
        let n = numbers.within(1, 1_024) as usize;
        let mut style = Style::any(&mut numbers, turn % 3, n);
        style.roomy = 7;
        let mut reports = style.list(&mut numbers, n);
        let at = numbers.within(0, n as u32 - 1) as usize;
        let finish = reports[..=at]
            .iter()
            .fold(0, |finish, report| style.finish(finish, report.0, report.2));
        reports[at].1 = finish.div_ceil(style.q.into()) as u32;
        let list = Handed::of(&reports, 77, style.p, style.q);
        tally.add(checked(&list, 5 * n + 4));
        reports[at].1 -= 1;
        let answer = checked(&Handed::of(&reports, 77, style.p, style.q), 5 * n + 4);
        assert_eq!(answer, (9, at, 0));
        tally.add(answer);
    }
    tally.show("near the line by deadline");
    assert_eq!((tally.numbers[0], tally.numbers[9]), (1_000, 1_000));
}
