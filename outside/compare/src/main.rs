//! Compares the proved library with the independent program, prints how much was compared, and fails
//! at the first difference, or where a number of some function was met fewer than a hundred times.
//!
//! compare PATH-TO-ROLLPLAN [SEED]     all groups
//! compare --case LINE [PATH]          one case, as a failure prints it

use compare::case::{Case, Proved};
use compare::judge::{judge, PROPERTIES};
use compare::made::{self, Dice, Take};
use compare::tally::Tally;
use std::path::PathBuf;
use std::process::ExitCode;

const LEAST_OF_EACH: u64 = 100;

fn groups(take: &mut Take, seed: u64) -> Result<(), String> {
    let dice = &mut Dice(seed);
    made::table(take)?;
    made::small(take)?;
    made::random_small(take, dice, 1_000_000)?;
    made::random_large(
        take,
        dice,
        100_000,
        60,
        "random lists of up to 60 reports near the line",
    )?;
    made::random_large(
        take,
        dice,
        3_000,
        1_024,
        "random lists of up to 1,024 reports near the line",
    )?;
    made::edges(take, dice, 200_000)?;
    floor_groups(take, dice)?;
    made::rolls(take, dice, 600_000)?;
    made::floor_rolls(take, dice, 300_000)?;
    made::damaged_samples(take)?;
    made::short_files(take, dice, 100)?;
    made::long_rolls(take, dice, 600)?;
    made::inputs(take, dice, 4_000)?;
    made::writings(take, dice, 120_000)?;
    made::write_edges(take, dice, 80_000)?;
    made::write_table(take, dice)?;
    made::rolls_to_pack(take, dice, 20_000)
}

fn floor_groups(take: &mut Take, dice: &mut Dice) -> Result<(), String> {
    made::floor_small(take)?;
    made::floors(take, dice, 200_000)?;
    made::floor_large(take, dice, 6_000)?;
    made::floor_edges(take, dice, 25_000)?;
    made::floor_table(take)
}

fn all(program: PathBuf, seed: u64) -> Result<(), String> {
    let mut tally = Tally::default();
    let mut take = |group, case: Case, depth| {
        judge(&Proved, &program, &case, depth, &mut tally)?;
        *tally.groups.entry(group).or_insert(0) += 1;
        Ok(())
    };
    groups(&mut take, seed)?;
    tally.print();
    let rare = tally.rare(LEAST_OF_EACH);
    if rare.is_empty() {
        Ok(())
    } else {
        Err(format!("met fewer than {LEAST_OF_EACH} times: {rare:?}"))
    }
}

fn run(args: &[String]) -> Result<(), String> {
    match args {
        [flag, line, rest @ ..] if flag == "--case" => {
            let case = Case::parse(line).ok_or("not a case")?;
            let program = rest
                .first()
                .map_or("target/bin/rollplan".into(), PathBuf::from);
            judge(&Proved, &program, &case, PROPERTIES, &mut Tally::default())
        }
        [program] => all(program.into(), 1),
        [program, seed] => all(
            program.into(),
            seed.parse().map_err(|_| "SEED is a number")?,
        ),
        _ => {
            Err("compare PATH-TO-ROLLPLAN [SEED], or compare --case LINE [PATH-TO-ROLLPLAN]".into())
        }
    }
}

fn main() -> ExitCode {
    let args: Vec<String> = std::env::args().skip(1).collect();
    match run(&args) {
        Ok(()) => {
            println!("compare: no difference");
            ExitCode::SUCCESS
        }
        Err(what) => {
            eprintln!("compare: FAILED: {what}");
            ExitCode::FAILURE
        }
    }
}
