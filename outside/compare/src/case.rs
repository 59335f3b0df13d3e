//! What is compared: a list, a roll, an input of the program, or a list to be written; and a line of
//! text for each, from which it can be run alone (`compare --case LINE`).

use std::fmt::Write;
use vakrhildo::{Floor, Numbers, Reply, Row, WriteReply};

/// What a planner or a writer is handed; `room` is the length of the lent buffer: of the row buffer in
/// numbers, of the one for a roll in bytes. A writer is handed no floor.
#[derive(Clone, Debug, PartialEq, Eq)]
pub struct List {
    pub arrivals: Vec<u32>,
    pub deadlines: Vec<u32>,
    pub operations: Vec<u32>,
    pub reference: u32,
    pub p: u32,
    pub q: u32,
    pub floor: Option<Floor>,
    pub room: usize,
}

#[derive(Clone, Debug, PartialEq, Eq)]
pub enum Case {
    List(List),
    Roll { bytes: Vec<u8>, room: usize },
    Program { bytes: Vec<u8> },
    Write { list: List, at: usize },
}

/// What is compared: the library's five functions, with the numbers that they give back as they came, and
/// the pace that a row's reports run at under a floor; the rows go to the front of the buffer, a roll from
/// its place on. Where nothing else is said they are the proved ones. The lists and the roll are lent as
/// if they could be changed, so that a wrong one can do so.
pub trait Library {
    /// Plans a list, by the function that takes a floor where there is one.
    fn plan(&self, l: &mut List, rows: &mut [u32]) -> Reply {
        let (arrivals, deadlines, operations) = (&l.arrivals, &l.deadlines, &l.operations);
        let (reference, p, q) = (l.reference, l.p, l.q);
        match l.floor {
            None => vakrhildo::plan_raw(arrivals, deadlines, operations, reference, p, q, rows),
            Some(floor) => vakrhildo::plan_floor_raw(
                arrivals, deadlines, operations, reference, p, q, floor, rows,
            ),
        }
    }

    fn runs(&self, row: Row, floor: Floor) -> (u32, u32) {
        row.runs_at(floor)
    }

    fn plan_roll(&self, roll: &mut [u8], rows: &mut [u32]) -> Reply {
        vakrhildo::plan_roll_raw(roll, rows)
    }

    fn read(&self, roll: &mut [u8]) -> Numbers {
        vakrhildo::read_raw(roll)
    }

    fn write(&self, l: &mut List, out: &mut [u8], at: usize) -> WriteReply {
        vakrhildo::write_raw(
            &l.arrivals,
            &l.deadlines,
            &l.operations,
            l.reference,
            l.p,
            l.q,
            out,
            at,
        )
    }
}

/// The proved library.
pub struct Proved;

impl Library for Proved {}

fn numbers(list: &[u32]) -> String {
    list.iter()
        .map(u32::to_string)
        .collect::<Vec<_>>()
        .join(",")
}

fn hex(bytes: &[u8]) -> String {
    bytes.iter().fold(String::new(), |mut text, byte| {
        let _ = write!(text, "{byte:02x}");
        text
    })
}

impl List {
    /// The list in a line: seven parts, and R and T where there is a floor.
    fn parts(&self) -> String {
        let floor = self.floor.map(|Floor { r, t }| format!(":{r}:{t}"));
        format!(
            "{}:{}:{}:{}:{}:{}:{}{}",
            numbers(&self.arrivals),
            numbers(&self.deadlines),
            numbers(&self.operations),
            self.reference,
            self.p,
            self.q,
            self.room,
            floor.unwrap_or_default()
        )
    }

    fn parse(parts: &[&str]) -> Option<List> {
        let &[a, d, w, reference, p, q, room, ref floor @ ..] = parts else {
            return None;
        };
        let floor = match *floor {
            [] => None,
            [r, t] => Some(Floor {
                r: r.parse().ok()?,
                t: t.parse().ok()?,
            }),
            _ => return None,
        };
        Some(List {
            arrivals: parse_numbers(a)?,
            deadlines: parse_numbers(d)?,
            operations: parse_numbers(w)?,
            reference: reference.parse().ok()?,
            p: p.parse().ok()?,
            q: q.parse().ok()?,
            floor,
            room: room.parse().ok()?,
        })
    }
}

impl Case {
    /// The case as one line, without spaces.
    pub fn line(&self) -> String {
        match self {
            Case::List(l) => format!("list:{}", l.parts()),
            Case::Roll { bytes, room } => format!("roll:{}:{room}", hex(bytes)),
            Case::Program { bytes } => format!("program:{}", hex(bytes)),
            Case::Write { list, at } => format!("write:{}:{at}", list.parts()),
        }
    }

    /// The case of a line, if it is one.
    pub fn parse(line: &str) -> Option<Case> {
        let parts: Vec<&str> = line.trim().split(':').collect();
        match parts[..] {
            ["list", ref list @ ..] => List::parse(list).map(Case::List),
            ["roll", bytes, room] => Some(Case::Roll {
                bytes: parse_hex(bytes)?,
                room: room.parse().ok()?,
            }),
            ["program", bytes] => Some(Case::Program {
                bytes: parse_hex(bytes)?,
            }),
            ["write", ref list @ .., at] => Some(Case::Write {
                list: List::parse(list)?,
                at: at.parse().ok()?,
            }),
            _ => None,
        }
    }
}

fn parse_numbers(text: &str) -> Option<Vec<u32>> {
    text.split(',')
        .filter(|n| !n.is_empty())
        .map(|n| n.parse().ok())
        .collect()
}

fn parse_hex(text: &str) -> Option<Vec<u8>> {
    if !text.len().is_multiple_of(2) || !text.is_ascii() {
        return None;
    }
    (0..text.len() / 2)
        .map(|i| u8::from_str_radix(&text[2 * i..2 * i + 2], 16).ok())
        .collect()
}

#[cfg(test)]
mod tests {
    use super::{Case, Floor, List};

    #[test]
    fn a_case_can_be_read_back() {
        let list = List {
            arrivals: vec![1, 2],
            deadlines: vec![],
            operations: vec![7],
            reference: 4294967290,
            p: 2,
            q: 3,
            floor: None,
            room: 11,
        };
        let floor = Some(Floor {
            r: 0,
            t: 4294967295,
        });
        for case in [
            Case::List(list.clone()),
            Case::List(List {
                floor,
                ..list.clone()
            }),
            Case::Roll {
                bytes: vec![0, 255, 65],
                room: 5,
            },
            Case::Program { bytes: vec![] },
            Case::Write {
                list,
                at: usize::MAX,
            },
        ] {
            assert_eq!(Case::parse(&case.line()), Some(case));
        }
    }

    #[test]
    fn a_line_that_is_no_case_is_not_read() {
        for line in ["roll:0:5", "list:::::1:2", "write:::::1:2:3", "write"] {
            assert_eq!(Case::parse(line), None);
        }
        // one number of a floor, and three
        for line in ["list::::1:2:3:4:5", "list::::1:2:3:4:5:6:7"] {
            assert_eq!(Case::parse(line), None);
        }
    }
}
