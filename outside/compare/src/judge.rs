//! Compares one case with the independent program: the three numbers as they came, every number of
//! the row buffer and a margin on both sides of it, and, where a plan comes back, the plan with the
//! definitions, and what runs where there is a floor; for a roll also the ten numbers of the reader. What
//! was lent to be read has to be as it was. The writer is compared in `write`.

mod write;

use crate::case::{Case, Library, List};
use crate::tally::Tally;
use oracle::{Answer, Reports};
use std::hint::black_box;
use std::io::Write;
use std::path::Path;
use std::process::{Command, Stdio};
use vakrhildo::{Floor, Numbers, Reply};

/// Numbers before and behind the row buffer that must stay as they are.
const MARGIN: usize = 8;

/// How the library's answers are held against the definitions.
#[derive(Clone, Copy)]
pub struct Depth {
    /// Properties 1 to 4 and the deadlines; with a floor also what runs.
    pub properties: bool,
    /// Sums at a threshold num/den, against rivals made from a seed.
    pub threshold: Option<(u64, u64, u64)>,
}

/// The answer is the oracle's and nothing more.
pub const ANSWER: Depth = Depth {
    properties: false,
    threshold: None,
};
/// It is also held against the properties.
pub const PROPERTIES: Depth = Depth {
    properties: true,
    threshold: None,
};

/// A pattern that no row is likely to have.
fn pattern(i: usize) -> u32 {
    0x5a5a_0000 ^ (i as u32).wrapping_mul(2_654_435_761)
}

/// Runs a planner on a buffer of `room` numbers between two margins; its reply and all the memory.
fn run(room: usize, plan: impl FnOnce(&mut [u32]) -> Reply) -> (Reply, Vec<u32>) {
    let mut memory: Vec<u32> = (0..room + 2 * MARGIN).map(pattern).collect();
    let reply = plan(&mut memory[MARGIN..MARGIN + room]);
    (reply, memory)
}

/// Whether a reply and the memory behind it are what the answer says.
fn same(answer: &Answer, reply: Reply, memory: &[u32]) -> Result<(), String> {
    let wanted = Reply {
        number: answer.number,
        place: answer.place as usize,
        blocks: answer.rows.len(),
    };
    if reply != wanted {
        return Err(format!("answered {reply:?}, wanted {wanted:?}"));
    }
    let rows: Vec<u32> = answer.rows.concat();
    for (i, &found) in memory.iter().enumerate() {
        let row_number = i.checked_sub(MARGIN).and_then(|at| rows.get(at));
        let wanted = row_number.copied().unwrap_or(pattern(i));
        if found != wanted {
            return Err(format!(
                "number {} of the buffer is {found}, wanted {wanted}",
                i as i64 - MARGIN as i64
            ));
        }
    }
    Ok(())
}

/// Whether what was lent to be read is as it was. The library has a pointer to it, so the compiler is
/// not to conclude that it must be.
fn untouched<T: PartialEq>(lent: T, own: T) -> Result<(), String> {
    if black_box(lent) == own {
        Ok(())
    } else {
        Err("what was lent to be read has changed".into())
    }
}

/// The paces that the library says run under a floor, held against the definitions.
fn running(
    library: &dyn Library,
    floor: Floor,
    reports: &Reports,
    answer: &Answer,
    tally: &mut Tally,
) -> Result<(), String> {
    let mut paces = Vec::new();
    for row in vakrhildo::rows(&answer.rows.concat(), answer.rows.len()) {
        let (ticks, operations) = library.runs(row, floor);
        let pace = (i128::from(ticks), i128::from(operations));
        paces.extend((row.first..=row.last).map(|_| pace));
    }
    oracle::check::run(reports, &answer.rows, &paces)?;
    tally.runs += 1;
    tally.hurried += u64::from(paces != oracle::check::paces(&answer.rows));
    Ok(())
}

/// An accepted answer, held against the definitions.
fn defined(
    library: &dyn Library,
    l: &List,
    answer: &Answer,
    depth: Depth,
    tally: &mut Tally,
) -> Result<(), String> {
    if answer.number != 0 {
        return Ok(());
    }
    let reports = &oracle::reports(&list_of(l));
    if depth.properties {
        oracle::check::plan(reports, &answer.rows)?;
        tally.plans += 1;
        if let Some(floor) = l.floor {
            running(library, floor, reports, answer, tally)?;
        }
    }
    if let Some((num, den, seed)) = depth.threshold {
        tally.rivals += u64::from(oracle::check::least(reports, &answer.rows, num, den, seed)?);
    }
    Ok(())
}

fn list_of(l: &List) -> oracle::List<'_> {
    oracle::List {
        arrivals: &l.arrivals,
        deadlines: &l.deadlines,
        operations: &l.operations,
        reference: l.reference,
        p: l.p,
        q: l.q,
        floor: l.floor.map(|Floor { r, t }| (r, t)),
        room: l.room,
    }
}

fn judge_list(
    library: &dyn Library,
    l: &List,
    depth: Depth,
    tally: &mut Tally,
) -> Result<u32, String> {
    tally.wrapped += u64::from(
        l.arrivals
            .iter()
            .chain(&l.deadlines)
            .any(|&reading| reading < l.reference),
    );
    let answer = oracle::answer_list(&list_of(l));
    let mut lent = l.clone();
    let (reply, memory) = run(l.room, |rows| library.plan(&mut lent, rows));
    same(&answer, reply, &memory)?;
    untouched(&lent, l)?;
    defined(library, l, &answer, depth, tally)?;
    Ok(answer.number)
}

/// The reader's numbers of a roll, and what is packed of them again.
fn judge_reading(library: &dyn Library, bytes: &[u8], tally: &mut Tally) -> Result<(), String> {
    let reading = oracle::read_roll(bytes);
    let (r, t) = reading.floor.unwrap_or((0, 0));
    let wanted = Numbers {
        number: reading.number,
        count: reading.count,
        reference: reading.reference,
        p: reading.p,
        q: reading.q,
        floor: u32::from(reading.floor.is_some()),
        r,
        t,
        at: reading.at,
        size: reading.size,
    };
    let mut lent = bytes.to_vec();
    let numbers = library.read(&mut lent);
    if numbers != wanted {
        return Err(format!("read {numbers:?}, wanted {wanted:?}"));
    }
    untouched(&lent[..], bytes)?;
    tally.readings[reading.number as usize] += 1;
    if bytes.ends_with(b"AF") {
        tally.floor_readings[reading.number as usize] += 1;
    }
    write::packs_again(library, bytes, &reading, tally)
}

fn judge_roll(
    library: &dyn Library,
    bytes: &[u8],
    room: usize,
    tally: &mut Tally,
) -> Result<u32, String> {
    judge_reading(library, bytes, tally)?;
    let answer = oracle::answer_roll(bytes, room);
    let mut lent = bytes.to_vec();
    let (reply, memory) = run(room, |rows| library.plan_roll(&mut lent, rows));
    same(&answer, reply, &memory)?;
    untouched(&lent[..], bytes)?;
    Ok(answer.number)
}

/// Runs rollplan on an input that comes in two pieces.
fn rollplan(program: &Path, input: &[u8]) -> Result<Vec<u8>, String> {
    let failed = |e: std::io::Error| format!("{}: {e}", program.display());
    let mut child = Command::new(program)
        .stdin(Stdio::piped())
        .stdout(Stdio::piped())
        .spawn()
        .map_err(failed)?;
    let mut pipe = child.stdin.take().expect("a pipe");
    let (front, rest) = input.split_at(input.len() / 2);
    // The program stops reading once it knows that the input is too long, so a broken pipe is no fault.
    let _ = pipe
        .write_all(front)
        .and_then(|()| pipe.flush())
        .and_then(|()| pipe.write_all(rest));
    drop(pipe);
    Ok(child.wait_with_output().map_err(failed)?.stdout)
}

fn judge_program(
    library: &dyn Library,
    program: &Path,
    input: &[u8],
    tally: &mut Tally,
) -> Result<u32, String> {
    judge_reading(library, input, tally)?;
    let wanted = oracle::answer_program(input);
    let found = rollplan(program, input)?;
    if found != wanted {
        return Err(format!(
            "wrote {:?}, wanted {:?}",
            String::from_utf8_lossy(&found),
            String::from_utf8_lossy(&wanted)
        ));
    }
    let text = String::from_utf8_lossy(&wanted).into_owned();
    Ok(text
        .split(' ')
        .nth(1)
        .and_then(|n| n.parse().ok())
        .unwrap_or(0))
}

/// Compares one case, and counts it. An error says what differs, and how to run the case alone.
pub fn judge(
    library: &dyn Library,
    program: &Path,
    case: &Case,
    depth: Depth,
    tally: &mut Tally,
) -> Result<(), String> {
    let judged = match case {
        Case::List(l) => judge_list(library, l, depth, tally),
        Case::Roll { bytes, room } => judge_roll(library, bytes, *room, tally),
        Case::Program { bytes } => judge_program(library, program, bytes, tally),
        Case::Write { list, at } => write::judge(library, list, *at, tally),
    };
    let number =
        judged.map_err(|what| format!("{what}\nrun it alone: compare --case {}", case.line()))?;
    let counts = match case {
        Case::List(_) => &mut tally.lists,
        Case::Roll { .. } | Case::Program { .. } => &mut tally.rolls,
        Case::Write { .. } => &mut tally.writings,
    };
    counts[number as usize] += 1;
    Ok(())
}
