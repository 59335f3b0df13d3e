//! The comparer is itself tested: planners, readers and writers that are wrong on purpose are caught, the
//! failing case can be run alone and fails again, and the proved library passes the same cases.

use compare::case::{Case, Library, Proved};
use compare::judge::{judge, Depth, PROPERTIES};
use compare::made::{self, Dice, Take};
use compare::tally::Tally;
use compare::wrong::floor::{self, Planner, Reader, RollPlanner};
use compare::wrong::write::{self, Writer};
use compare::wrong::{
    FirstAlike, FirstAtTies, ReaderTouches, Rounded, Spills, Touches, BLOCK_OF_A_REFUSAL,
    BYTE_EARLY, BYTE_SHORT, LEFT, PLACE_OFF, PLACE_OF_A_PLAN,
};
use std::path::Path;

type Cases = fn(&mut Take) -> Result<(), String>;

fn lists(take: &mut Take) -> Result<(), String> {
    let dice = &mut Dice(7);
    made::table(take)?;
    made::random_small(take, dice, 20_000)?;
    made::edges(take, dice, 5_000)
}

fn rolls(take: &mut Take) -> Result<(), String> {
    made::rolls(take, &mut Dice(7), 5_000)
}

fn floors(take: &mut Take) -> Result<(), String> {
    let dice = &mut Dice(7);
    made::floors(take, dice, 5_000)?;
    made::floor_edges(take, dice, 5_000)?;
    made::floor_table(take)
}

fn floor_rolls(take: &mut Take) -> Result<(), String> {
    made::floor_rolls(take, &mut Dice(7), 5_000)
}

/// As rolls only: the tests have no program.
fn short_files(take: &mut Take) -> Result<(), String> {
    let mut rolls = |group, case: Case, depth| match case {
        Case::Program { .. } => Ok(()),
        _ => take(group, case, depth),
    };
    made::short_files(&mut rolls, &mut Dice(7), 20)
}

fn writings(take: &mut Take) -> Result<(), String> {
    let dice = &mut Dice(7);
    made::writings(take, dice, 3_000)?;
    made::write_edges(take, dice, 3_000)?;
    made::write_table(take, dice)
}

fn packings(take: &mut Take) -> Result<(), String> {
    made::rolls_to_pack(take, &mut Dice(7), 1_000)
}

fn compared(library: &dyn Library, cases: Cases) -> Result<Tally, String> {
    let mut tally = Tally::default();
    cases(&mut |group, case: Case, depth: Depth| {
        judge(library, Path::new("no program"), &case, depth, &mut tally)?;
        *tally.groups.entry(group).or_insert(0) += 1;
        Ok(())
    })?;
    Ok(tally)
}

fn alone(library: &dyn Library, case: &Case, depth: Depth) -> Result<(), String> {
    let program = Path::new("no program");
    judge(library, program, case, depth, &mut Tally::default())
}

/// The library is caught, for the reason given, and the case that the message names fails alone.
fn caught(library: &dyn Library, cases: Cases, reason: &str) {
    let Err(message) = compared(library, cases) else {
        panic!("a wrong library was not caught");
    };
    assert!(message.contains(reason), "{message}");
    let line = message
        .split("--case ")
        .nth(1)
        .expect("the message names its case");
    let case = Case::parse(line).expect("a case");
    assert!(alone(library, &case, PROPERTIES).is_err());
    assert_eq!(alone(&Proved, &case, PROPERTIES), Ok(()));
}

#[test]
fn the_proved_library_passes() {
    let tally = compared(&Proved, lists).expect("no difference");
    assert_eq!(tally.cases(), 18 + 20_000 + 5_000);
    let tally = compared(&Proved, rolls).expect("no difference");
    assert_eq!(tally.cases(), 5_000);
    assert_eq!(tally.readings.iter().sum::<u64>(), 5_000);
    let tally = compared(&Proved, floors).expect("no difference");
    assert_eq!(tally.cases(), 5_000 + 5_000 + 10_000);
    assert!(tally.lists[16] > 100 && tally.lists[17] > 100 && tally.hurried > 100);
    let tally = compared(&Proved, floor_rolls).expect("no difference");
    assert!(tally.rolls[16] > 100 && tally.rolls[17] > 100);
    let tally = compared(&Proved, short_files).expect("no difference");
    assert_eq!(tally.cases(), 25 * 2 * 20);
    let tally = compared(&Proved, writings).expect("no difference");
    assert_eq!(tally.writings.iter().sum::<u64>(), tally.cases());
    assert_eq!(tally.read_back, tally.writings[0]);
    assert!(tally.planned_back > 1_000);
    let tally = compared(&Proved, packings).expect("no difference");
    assert!(tally.packed_again > 900);
}

#[test]
fn rounded_paces_are_caught() {
    caught(&Rounded, lists, "of the buffer is");
}

#[test]
fn the_first_of_ties_is_caught() {
    caught(&FirstAtTies, lists, "answered Reply");
}

#[test]
fn a_number_behind_the_rows_is_caught() {
    caught(&Spills, lists, "of the buffer is");
}

#[test]
fn a_place_off_by_one_is_caught() {
    caught(&PLACE_OFF, lists, "answered Reply");
    caught(&PLACE_OFF, rolls, "answered Reply");
}

#[test]
fn a_place_with_a_plan_is_caught() {
    let reason = "answered Reply { number: 0, place: 3, ";
    caught(&PLACE_OF_A_PLAN, lists, reason);
    caught(&PLACE_OF_A_PLAN, rolls, reason);
}

#[test]
fn a_block_with_a_refusal_is_caught() {
    let reason = "answered Reply { number: 9, ";
    caught(&BLOCK_OF_A_REFUSAL, lists, reason);
    caught(&BLOCK_OF_A_REFUSAL, rolls, reason);
}

#[test]
fn a_part_at_the_wrong_place_is_caught() {
    for reader in [BYTE_EARLY, BYTE_SHORT] {
        caught(&reader, rolls, "read Numbers { number: 0, ");
    }
}

#[test]
fn bytes_of_the_preface_for_equal_records_are_caught() {
    caught(&FirstAlike, rolls, "read Numbers { number: 0, ");
}

#[test]
fn a_number_of_the_reader_with_a_refusal_is_caught() {
    for reader in LEFT {
        caught(&reader, rolls, "read Numbers { number: 1");
    }
}

#[test]
fn a_change_of_what_was_lent_to_be_read_is_caught() {
    let reason = "what was lent to be read has changed";
    caught(&Touches, lists, reason);
    caught(&Touches, rolls, reason);
    caught(&ReaderTouches, rolls, reason);
}

/// Planners that are wrong about a floor are caught by what they give back, and what that is.
#[test]
fn a_planner_that_is_wrong_about_a_floor_is_caught() {
    let says = |planner: Planner, number: &str| {
        let reason = format!("answered Reply {{ number: {number}, ");
        caught(&planner, floors, &reason);
    };
    says(floor::TURNED, "17");
    says(floor::EQUAL_REFUSED, "17");
    says(floor::SIXTEEN_BEFORE_FOUR, "16");
    says(floor::SEVENTEEN_BEFORE_SIXTEEN, "17");
    says(floor::FIVE_FIRST, "5");
    caught(&floor::EXCHANGED, floors, "answered Reply");
    caught(&floor::LOST, floors, "wanted Reply { number: 1");
    caught(&floor::T_NOT_TRIED, floors, "wanted Reply { number: 16, ");
    caught(&floor::ON_ROWS, floors, "of the buffer is");
}

#[test]
fn another_pace_than_runs_is_caught() {
    caught(&floor::SLOWER, floors, "the pace that runs is above");
    caught(
        &floor::AS_IN_ITS_ROW,
        floors,
        "the pace that runs is above R/T",
    );
    caught(
        &floor::AT_THE_FLOOR,
        floors,
        "the pace that runs is above its row's",
    );
}

/// Readers of rolls marked AF, and planners of them, and what they say.
#[test]
fn a_roll_with_a_floor_that_is_read_wrong_is_caught() {
    let says = |reader: Reader, planner: RollPlanner, number: &str, cases: Cases| {
        let reason = format!("read Numbers {{ number: {number}, ");
        caught(&reader, cases, &reason);
        let reason = format!("answered Reply {{ number: {number}, ");
        caught(&planner, cases, &reason);
    };
    says(
        floor::TRAILER_OF_16,
        floor::PLANS_TRAILER_OF_16,
        "12",
        floor_rolls,
    );
    says(
        floor::WRONG_MARK,
        floor::PLANS_WRONG_MARK,
        "11",
        floor_rolls,
    );
    says(
        floor::SHORT_AT_16,
        floor::PLANS_SHORT_AT_16,
        "12",
        short_files,
    );
    says(
        floor::TRAILER_OF_16,
        floor::PLANS_TRAILER_OF_16,
        "12",
        short_files,
    );
}

#[test]
fn a_floor_of_a_roll_that_is_not_its_own_is_caught() {
    caught(
        &floor::T_BEFORE_R,
        floor_rolls,
        "read Numbers { number: 0, ",
    );
    caught(&floor::PLANS_T_BEFORE_R, floor_rolls, "answered Reply");
    caught(&floor::FLOOR_NOT_SAID, floor_rolls, "floor: 0, ");
    caught(&floor::FLOOR_LOST, floor_rolls, "wanted Reply { number: 1");
}

#[test]
fn a_floor_of_a_roll_without_one_is_caught() {
    for reader in floor::FLOOR_OF_AQ {
        caught(&reader, rolls, "read Numbers { number: 0, ");
    }
}

/// Writers that are caught by the bytes of the buffer, or of the margins.
#[test]
fn a_writer_with_wrong_bytes_is_caught() {
    for writer in [
        write::FIELDS_EXCHANGED,
        write::P_AND_Q_EXCHANGED,
        write::BIG_ENDIAN,
        write::MARK_FIRST,
        write::BACK_TO_THE_TRAILER,
        write::EARLY,
        write::LATE,
        write::TOUCHES_BEHIND,
        write::TOUCHES_BEFORE,
    ] {
        caught(&writer, writings, "of the buffer is");
        caught(&writer, packings, "packed again: byte ");
    }
    caught(&write::REFUSAL_WRITES, writings, "byte 0 of the buffer is");
}

/// Writers that are caught by what they give back, and what that is.
#[test]
fn a_writer_with_wrong_numbers_is_caught() {
    let says = |writer: Writer, numbers: &str| {
        let reason = format!("answered WriteReply {{ number: {numbers}");
        caught(&writer, writings, &reason);
    };
    says(write::ZERO_REFUSED, "4, place: 0, bytes: 0 }");
    says(write::ROOM_FIRST, "15, place: 0, bytes: 0 }");
    says(write::EXACT_FIT_REFUSED, "15, place: 0, bytes: 0 }");
    says(write::CLAIMS_WITHOUT_ROOM, "0, place: 0, bytes: ");
    says(write::CLAIMS_PAST_THE_TOP, "0, place: 0, bytes: ");
    says(write::BYTES_OF_A_REFUSAL, "");
    says(write::PLACE_OF_A_ROLL, "0, place: ");
    says(write::PLACE_OF_A_REFUSAL, "");
}

#[test]
fn a_writer_that_touches_its_lists_is_caught() {
    let reason = "what was lent to be read has changed";
    caught(&write::TOUCHES_LISTS, writings, reason);
    caught(&write::TOUCHES_LISTS, packings, reason);
}

/// What was written goes round: a reader or a planner that is wrong about it is caught.
#[test]
fn what_is_written_is_read_and_planned() {
    caught(&BYTE_EARLY, writings, "read back Numbers");
    caught(&Rounded, writings, "planned back ");
}
