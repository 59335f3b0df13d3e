//! Counts of what was compared: cases of each kind, and answers by number.

use std::collections::BTreeMap;

/// The numbers that the library and the program have, 0 to 17.
pub const NUMBERS: usize = 18;
/// Those of an answer for a list and for a roll, of the reader, also of rolls marked AF alone, and of the
/// writer.
const OF_LISTS: [usize; 12] = [0, 1, 2, 3, 4, 5, 6, 7, 8, 9, 16, 17];
const OF_ROLLS: [usize; 16] = [0, 2, 3, 4, 5, 6, 7, 8, 9, 10, 11, 12, 13, 14, 16, 17];
const OF_READINGS: [usize; 5] = [0, 10, 11, 12, 13];
const OF_FLOOR_READINGS: [usize; 4] = [0, 10, 12, 13];
const OF_WRITINGS: [usize; 5] = [0, 1, 2, 4, 15];

#[derive(Default)]
pub struct Tally {
    /// Answers for lists by number: 0 to 9, 16 and 17.
    pub lists: [u64; NUMBERS],
    /// Answers for rolls and for inputs of the program by number: 0, 2 to 14, 16 and 17.
    pub rolls: [u64; NUMBERS],
    /// Rolls of which the reader's numbers were compared, by its number: 0 and 10 to 13.
    pub readings: [u64; NUMBERS],
    /// Those of them that end in AF: 0, 10, 12 and 13.
    pub floor_readings: [u64; NUMBERS],
    /// Lists that were to be written, by the writer's number: 0, 1, 2, 4 and 15.
    pub writings: [u64; NUMBERS],
    /// Rolls that were written, then read and planned as the lists that went in.
    pub read_back: u64,
    /// Those of them that have a plan.
    pub planned_back: u64,
    /// Rolls without preface that were read, then packed again.
    pub packed_again: u64,
    /// Accepted answers held against the definitions themselves.
    pub plans: u64,
    /// Those of them with a floor, of which what runs was held against them too.
    pub runs: u64,
    /// Those of these in which some report runs faster than its row.
    pub hurried: u64,
    /// Rival plans whose sum at a threshold was compared.
    pub rivals: u64,
    /// Lists in which the clock runs past its top: some reading is below the reference.
    pub wrapped: u64,
    /// Cases by the name of the group that made them.
    pub groups: BTreeMap<&'static str, u64>,
}

impl Tally {
    pub fn cases(&self) -> u64 {
        self.groups.values().sum()
    }

    /// What was met fewer than `least` times: a number of an answer, of the reader or of the writer, a
    /// roll written and planned or read and packed again, a clock that runs past its top.
    pub fn rare(&self, least: u64) -> Vec<String> {
        let functions = [
            ("answer for a list", &self.lists, &OF_LISTS[..]),
            ("answer for a roll", &self.rolls, &OF_ROLLS),
            ("reading", &self.readings, &OF_READINGS),
            ("reading of AF", &self.floor_readings, &OF_FLOOR_READINGS),
            ("writing", &self.writings, &OF_WRITINGS),
        ];
        let numbers = functions.iter().flat_map(|(kind, counts, numbers)| {
            let met = move |&number: &usize| (format!("{kind} {number}"), counts[number]);
            numbers.iter().map(met)
        });
        let others = [
            ("a roll written and planned", self.planned_back),
            ("a roll read and packed again", self.packed_again),
            ("what runs under a floor", self.runs),
            ("a report faster than its row", self.hurried),
            ("a clock that runs past its top", self.wrapped),
        ];
        numbers
            .chain(others.map(|(what, count)| (what.into(), count)))
            .filter(|(_, count)| *count < least)
            .map(|(what, _)| what)
            .collect()
    }

    pub fn print(&self) {
        for (group, count) in &self.groups {
            println!("  {count:>9}  {group}");
        }
        println!(
            "{} comparisons; {} plans held against the definitions, {} rival plans",
            self.cases(),
            self.plans,
            self.rivals
        );
        println!(
            "{} of them with a roll, whose reading was compared too",
            self.readings.iter().sum::<u64>()
        );
        println!(
            "{} of the plans with a floor, what runs held against them too; in {} a report is faster than its row",
            self.runs, self.hurried
        );
        println!(
            "{} lists in which the clock runs past its top",
            self.wrapped
        );
        println!(
            "{} rolls written, then read and planned as the lists that went in, {} of them with a plan",
            self.read_back, self.planned_back
        );
        println!(
            "{} rolls without preface read, then packed again",
            self.packed_again
        );
        self.print_numbers();
    }

    fn print_numbers(&self) {
        for (what, counts) in [
            ("answers for lists", &self.lists),
            ("answers for rolls", &self.rolls),
            ("readings", &self.readings),
            ("readings of rolls that end in AF", &self.floor_readings),
            ("writings", &self.writings),
        ] {
            println!("{what} by number: {}", by_number(counts));
        }
    }
}

/// The counts that are not 0, each behind its number.
fn by_number(counts: &[u64; NUMBERS]) -> String {
    let met: Vec<String> = (0..NUMBERS)
        .filter(|&number| counts[number] != 0)
        .map(|number| format!("{number}: {}", counts[number]))
        .collect();
    met.join(", ")
}

#[cfg(test)]
mod tests {
    use super::{Tally, NUMBERS};

    #[test]
    fn what_is_rare_is_named() {
        let mut tally = Tally {
            lists: [100; NUMBERS],
            rolls: [100; NUMBERS],
            readings: [100; NUMBERS],
            floor_readings: [100; NUMBERS],
            writings: [100; NUMBERS],
            planned_back: 100,
            packed_again: 100,
            runs: 100,
            hurried: 100,
            wrapped: 100,
            ..Tally::default()
        };
        assert!(tally.rare(100).is_empty());
        // no function gives these
        (tally.lists[15], tally.readings[9], tally.writings[3]) = (0, 0, 0);
        (tally.rolls[1], tally.floor_readings[11]) = (0, 0);
        assert!(tally.rare(100).is_empty());
        (tally.lists[16], tally.rolls[17], tally.readings[13]) = (99, 99, 99);
        (tally.floor_readings[10], tally.writings[15]) = (99, 99);
        let named = [
            "answer for a list 16",
            "answer for a roll 17",
            "reading 13",
            "reading of AF 10",
            "writing 15",
        ];
        assert_eq!(tally.rare(100), named);
        assert_eq!(Tally::default().rare(100).len(), 12 + 16 + 5 + 4 + 5 + 5);
    }
}
