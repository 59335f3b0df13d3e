//! Compares the writer of rolls with the independent program: the three numbers as they came, every byte
//! of the buffer and a margin on both sides of it. What was written then goes round: it is read and
//! planned, and has to be the list that went in; and a roll that was read is packed again, and has to
//! have the same bytes.

use super::{list_of, run, untouched};
use crate::case::{Library, List};
use crate::tally::Tally;
use oracle::{Carried, Reading, Written};
use vakrhildo::{Numbers, WriteReply, REPORTS, ROW};

/// Bytes before and behind the buffer that must stay as they are.
const MARGIN: usize = 16;

/// Bytes to be written over, in which neighbours differ.
fn pattern(length: usize) -> Vec<u8> {
    (0..length).map(|i| 0xa5 ^ (29 * i) as u8).collect()
}

/// Runs the writer on a buffer between two margins; what comes back, and all the memory, have to be what
/// is wanted of the buffer as it was.
fn written(
    library: &dyn Library,
    l: &List,
    at: usize,
    wanted: impl FnOnce(&[u8]) -> Written,
) -> Result<Written, String> {
    let mut memory = pattern(l.room + 2 * MARGIN);
    let (front, behind) = (&memory[..MARGIN], &memory[MARGIN + l.room..]);
    let wanted = wanted(&memory[MARGIN..MARGIN + l.room]);
    let wanted_memory = [front, &wanted.buffer, behind].concat();
    let mut lent = l.clone();
    let reply = library.write(&mut lent, &mut memory[MARGIN..MARGIN + l.room], at);
    same(&wanted, reply)?;
    same_bytes(&wanted_memory, &memory)?;
    untouched(&lent, l)?;
    Ok(wanted)
}

fn same(wanted: &Written, reply: WriteReply) -> Result<(), String> {
    let wanted = WriteReply {
        number: wanted.number,
        place: wanted.place,
        bytes: wanted.bytes,
    };
    if reply == wanted {
        Ok(())
    } else {
        Err(format!("answered {reply:?}, wanted {wanted:?}"))
    }
}

fn same_bytes(wanted: &[u8], memory: &[u8]) -> Result<(), String> {
    if wanted == memory {
        return Ok(());
    }
    let mut pairs = wanted.iter().zip(memory);
    let differs = pairs.position(|(wanted, found)| wanted != found);
    let i = differs.ok_or("the memory has another length")?;
    Err(format!(
        "byte {} of the buffer is {}, wanted {}",
        i as i64 - MARGIN as i64,
        memory[i],
        wanted[i]
    ))
}

/// Compares one writing, and, where a roll was written, sends it round.
pub fn judge(library: &dyn Library, l: &List, at: usize, tally: &mut Tally) -> Result<u32, String> {
    let wanted = written(library, l, at, |before| {
        oracle::write_roll(&list_of(l), before, at)
    })?;
    if wanted.number == 0 {
        let roll = &wanted.buffer[..at + wanted.bytes];
        reads_back(library, l, roll, at)?;
        tally.read_back += 1;
        tally.planned_back += u64::from(plans_back(library, l, roll)?);
    }
    Ok(wanted.number)
}

/// The buffer up to the roll's end reads as the list that went in, behind a preface up to the place: the
/// numbers by the library's reader, the three lists by the independent program's.
fn reads_back(library: &dyn Library, l: &List, roll: &[u8], at: usize) -> Result<(), String> {
    let count = l.arrivals.len();
    let wanted = Numbers {
        number: 0,
        count: count as u32,
        reference: l.reference,
        p: l.p,
        q: l.q,
        floor: 0,
        r: 0,
        t: 0,
        at,
        size: 12 * count,
    };
    let numbers = library.read(&mut roll.to_vec());
    if numbers != wanted {
        return Err(format!("read back {numbers:?}, wanted {wanted:?}"));
    }
    let found = oracle::list_in(roll, &oracle::read_roll(roll));
    let wanted = Carried {
        arrivals: l.arrivals.clone(),
        deadlines: l.deadlines.clone(),
        operations: l.operations.clone(),
    };
    if found != wanted {
        return Err(format!("read back {found:?}, wanted {wanted:?}"));
    }
    Ok(())
}

/// It is planned as the list that went in, row for row, without a floor. Whether that has a plan.
fn plans_back(library: &dyn Library, l: &List, roll: &[u8]) -> Result<bool, String> {
    let room = ROW * l.arrivals.len();
    let mut without = List {
        floor: None,
        ..l.clone()
    };
    let wanted = run(room, |rows| library.plan(&mut without, rows));
    let found = run(room, |rows| library.plan_roll(&mut roll.to_vec(), rows));
    if found != wanted {
        return Err(format!("planned back {found:?}, wanted {wanted:?}"));
    }
    Ok(wanted.0.number == 0)
}

/// A roll without preface that was read, marked AQ, of at most 1,024 reports: what was read of it, packed
/// at some place of a buffer, gives its bytes again.
pub fn packs_again(
    library: &dyn Library,
    roll: &[u8],
    reading: &Reading,
    tally: &mut Tally,
) -> Result<(), String> {
    let readable = reading.number == 0 && reading.count as usize <= REPORTS;
    if !readable || reading.at != 0 || reading.floor.is_some() {
        return Ok(());
    }
    let carried = oracle::list_in(roll, reading);
    let bytes = roll.len();
    let at = 7 * bytes % 23;
    let list = List {
        arrivals: carried.arrivals,
        deadlines: carried.deadlines,
        operations: carried.operations,
        reference: reading.reference,
        p: reading.p,
        q: reading.q,
        floor: None,
        room: at + bytes + 9,
    };
    let again = |before: &[u8]| Written {
        number: 0,
        place: 0,
        bytes,
        buffer: [&before[..at], roll, &before[at + bytes..]].concat(),
    };
    written(library, &list, at, again).map_err(|what| format!("packed again: {what}"))?;
    tally.packed_again += 1;
    Ok(())
}
