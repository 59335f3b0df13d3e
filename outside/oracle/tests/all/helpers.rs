//! What the tests share: a list that owns its numbers, rolls made from it, and a random generator.

use oracle::{answer_list, reports, Answer, List, Reports};

/// A row: first report, last report, start, end, operations.
pub type Row = [u32; 5];

/// A list that owns its numbers.
#[derive(Clone, Debug)]
pub struct Owned {
    pub arrivals: Vec<u32>,
    pub deadlines: Vec<u32>,
    pub operations: Vec<u32>,
    pub reference: u32,
    pub p: u32,
    pub q: u32,
    pub floor: Option<(u32, u32)>,
    pub room: usize,
}

/// A list with reference 0, P/Q 1/1, no floor and just enough room.
pub fn owned(arrivals: &[u32], deadlines: &[u32], operations: &[u32]) -> Owned {
    Owned {
        arrivals: arrivals.to_vec(),
        deadlines: deadlines.to_vec(),
        operations: operations.to_vec(),
        reference: 0,
        p: 1,
        q: 1,
        floor: None,
        room: 5 * arrivals.len(),
    }
}

impl Owned {
    pub fn list(&self) -> List<'_> {
        List {
            arrivals: &self.arrivals,
            deadlines: &self.deadlines,
            operations: &self.operations,
            reference: self.reference,
            p: self.p,
            q: self.q,
            floor: self.floor,
            room: self.room,
        }
    }

    pub fn answer(&self) -> Answer {
        answer_list(&self.list())
    }

    pub fn reports(&self) -> Reports {
        reports(&self.list())
    }

    pub fn with_pace(mut self, p: u32, q: u32) -> Owned {
        (self.p, self.q) = (p, q);
        self
    }

    pub fn with_floor(mut self, r: u32, t: u32) -> Owned {
        self.floor = Some((r, t));
        self
    }

    /// The same offsets counted from another reference.
    pub fn with_reference(mut self, reference: u32) -> Owned {
        for reading in self.arrivals.iter_mut().chain(&mut self.deadlines) {
            *reading = reading.wrapping_sub(self.reference).wrapping_add(reference);
        }
        self.reference = reference;
        self
    }

    /// A roll with this preface that carries the list, marked "AF" where there is a floor; the numbers
    /// of both paces must fit two bytes.
    pub fn roll(&self, preface: &[u8]) -> Vec<u8> {
        let count = self.arrivals.len();
        let two_bytes = |number: u32| u16::try_from(number).unwrap().to_le_bytes();
        let mut roll = preface.to_vec();
        for i in 0..count {
            roll.extend(self.arrivals[i].to_le_bytes());
            roll.extend(self.deadlines[i].to_le_bytes());
            roll.extend(self.operations[i].to_le_bytes());
        }
        let trailer = if let Some((r, t)) = self.floor {
            roll.extend([two_bytes(r), two_bytes(t)].concat());
            20
        } else {
            16
        };
        roll.extend((trailer + 12 * count as u32).to_le_bytes());
        roll.extend(self.reference.to_le_bytes());
        for number in [count as u32, self.p, self.q] {
            roll.extend(two_bytes(number));
        }
        roll.extend(if self.floor.is_some() { b"AF" } else { b"AQ" });
        roll
    }
}

/// An accepted answer with these rows.
pub fn accepted(rows: &[Row]) -> Answer {
    Answer {
        number: 0,
        place: 0,
        rows: rows.to_vec(),
    }
}

/// A refusal.
pub fn refused(number: u32, place: u64) -> Answer {
    Answer {
        number,
        place,
        rows: Vec::new(),
    }
}

/// A small random generator (xorshift).
pub struct Random(pub u64);

impl Random {
    pub fn next(&mut self) -> u64 {
        self.0 ^= self.0 << 13;
        self.0 ^= self.0 >> 7;
        self.0 ^= self.0 << 17;
        self.0.wrapping_mul(0x2545_f491_4f6c_dd1d)
    }

    /// A number from 0 to before `bound`.
    pub fn below(&mut self, bound: u32) -> u32 {
        ((self.next() >> 32) % u64::from(bound)) as u32
    }
}
