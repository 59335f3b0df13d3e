//! Writers that are wrong on purpose. Each writes as the proved one does, but for what it is named after.

use crate::case::{Library, List, Proved};
use vakrhildo::WriteReply;

/// A writer: it is lent the lists and the buffer, and handed the place.
pub struct Writer(fn(&mut List, &mut [u8], usize) -> WriteReply);

impl Library for Writer {
    fn write(&self, l: &mut List, out: &mut [u8], at: usize) -> WriteReply {
        (self.0)(l, out, at)
    }
}

fn refused(number: u32) -> WriteReply {
    WriteReply {
        number,
        place: 0,
        bytes: 0,
    }
}

/// How long the roll of a list is.
fn long(l: &List) -> usize {
    16 + 12 * l.arrivals.len()
}

/// What a writer says that has written the roll of a list.
fn claimed(l: &List) -> WriteReply {
    WriteReply {
        number: 0,
        place: 0,
        bytes: long(l),
    }
}

/// Writes, then spoils the roll.
fn spoilt(l: &mut List, out: &mut [u8], at: usize, spoil: fn(&mut [u8])) -> WriteReply {
    let reply = Proved.write(l, out, at);
    if reply.number == 0 {
        spoil(&mut out[at..at + reply.bytes]);
    }
    reply
}

/// Writes, then turns a bit of the byte at a place, if the buffer has one there.
fn turned(
    l: &mut List,
    out: &mut [u8],
    at: usize,
    place: fn(usize, WriteReply) -> usize,
) -> WriteReply {
    let reply = Proved.write(l, out, at);
    if let Some(byte) = out.get_mut(place(at, reply)) {
        *byte ^= 1;
    }
    reply
}

/// Writes each report's deadline before its arrival.
pub const FIELDS_EXCHANGED: Writer = Writer(|l, out, at| {
    spoilt(l, out, at, |roll| {
        let records = roll.len() - 16;
        for record in roll[..records].chunks_exact_mut(12) {
            record[..8].rotate_left(4);
        }
    })
});

/// Writes Q before P.
pub const P_AND_Q_EXCHANGED: Writer = Writer(|l, out, at| {
    spoilt(l, out, at, |roll| {
        let trailer = roll.len() - 16;
        roll[trailer + 10..trailer + 14].rotate_left(2);
    })
});

/// Writes the records' numbers with the high byte first.
pub const BIG_ENDIAN: Writer = Writer(|l, out, at| {
    spoilt(l, out, at, |roll| {
        let records = roll.len() - 16;
        for number in roll[..records].chunks_exact_mut(4) {
            number.reverse();
        }
    })
});

/// Writes the mark at the trailer's front.
pub const MARK_FIRST: Writer = Writer(|l, out, at| {
    spoilt(l, out, at, |roll| {
        let trailer = roll.len() - 16;
        roll[trailer..].rotate_right(2);
    })
});

/// Counts the back distance without the trailer.
pub const BACK_TO_THE_TRAILER: Writer = Writer(|l, out, at| {
    spoilt(l, out, at, |roll| {
        let trailer = roll.len() - 16;
        roll[trailer..trailer + 4].copy_from_slice(&(trailer as u32).to_le_bytes());
    })
});

/// Writes the roll a byte early, where there is one before the place.
pub const EARLY: Writer = Writer(|l, out, at| Proved.write(l, out, at.saturating_sub(1)));

/// Writes the roll a byte late, where there is one behind it.
pub const LATE: Writer = Writer(|l, out, at| {
    let reply = Proved.write(l, out, at.saturating_add(1));
    if reply.number == 15 {
        return Proved.write(l, out, at);
    }
    reply
});

/// Touches the byte behind the roll.
pub const TOUCHES_BEHIND: Writer =
    Writer(|l, out, at| turned(l, out, at, |at, reply| at.saturating_add(reply.bytes)));

/// Touches the byte before the place.
pub const TOUCHES_BEFORE: Writer =
    Writer(|l, out, at| turned(l, out, at, |at, _| at.wrapping_sub(1)));

/// Touches the buffer's first byte on a refusal.
pub const REFUSAL_WRITES: Writer = Writer(|l, out, at| {
    turned(l, out, at, |_, reply| match reply.number {
        0 => usize::MAX,
        _ => 0,
    })
});

/// Refuses a P or Q of 0, as the planner does.
pub const ZERO_REFUSED: Writer = Writer(|l, out, at| {
    let few = l.arrivals.len() <= vakrhildo::REPORTS;
    let even = l.arrivals.len() == l.deadlines.len() && l.arrivals.len() == l.operations.len();
    if few && even && (l.p == 0 || l.q == 0) {
        return refused(4);
    }
    Proved.write(l, out, at)
});

/// Tries for room before it looks at P and Q.
pub const ROOM_FIRST: Writer = Writer(|l, out, at| {
    let reply = Proved.write(l, out, at);
    let end = at.checked_add(long(l));
    if reply.number == 4 && end.is_none_or(|end| end > out.len()) {
        return refused(15);
    }
    reply
});

/// Refuses where the roll would end just at the buffer's end.
pub const EXACT_FIT_REFUSED: Writer = Writer(|l, out, at| {
    let reply = Proved.write(l, &mut out.to_vec(), at);
    if reply.number == 0 && at + reply.bytes == out.len() {
        return refused(15);
    }
    Proved.write(l, out, at)
});

/// Says that it has written where a byte is missing.
pub const CLAIMS_WITHOUT_ROOM: Writer = Writer(|l, out, at| {
    let reply = Proved.write(l, out, at);
    if reply.number == 15 && at.checked_add(long(l)) == Some(out.len() + 1) {
        return claimed(l);
    }
    reply
});

/// Says that it has written where the roll's end is past the top of all numbers.
pub const CLAIMS_PAST_THE_TOP: Writer = Writer(|l, out, at| {
    let reply = Proved.write(l, out, at);
    if reply.number == 15 && at.checked_add(long(l)).is_none() {
        return claimed(l);
    }
    reply
});

/// Says on a refusal how many bytes the roll would have had.
pub const BYTES_OF_A_REFUSAL: Writer = Writer(|l, out, at| {
    let mut reply = Proved.write(l, out, at);
    reply.bytes = long(l);
    reply
});

/// Gives as the place where it has written.
pub const PLACE_OF_A_ROLL: Writer = Writer(|l, out, at| {
    let mut reply = Proved.write(l, out, at);
    if reply.number == 0 {
        reply.place = at;
    }
    reply
});

/// Gives with a refusal the place that it was handed.
pub const PLACE_OF_A_REFUSAL: Writer = Writer(|l, out, at| {
    let mut reply = Proved.write(l, out, at);
    if reply.number != 0 {
        reply.place = at;
    }
    reply
});

/// Turns a bit of a list that it was lent to read.
pub const TOUCHES_LISTS: Writer = Writer(|l, out, at| {
    let reply = Proved.write(l, out, at);
    if let Some(operations) = l.operations.last_mut() {
        *operations ^= 1;
    }
    reply
});
