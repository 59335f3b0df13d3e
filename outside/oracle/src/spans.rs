//! The rows of an accepted list by the span method (W12): find the span of reports p to q with the
//! least (deadline of q - arrival of p) / operations, fix it there, then treat the reports before
//! it (deadlines capped at its start) and those after it (arrivals raised to its end) in the same
//! way. At the end neighbours with one pace and no idle time between are joined.

use crate::rules::prefix_sums;
use crate::Reports;

/// A shorter list still to be treated: reports `from` to before `until`, arrivals raised to
/// `earliest` and deadlines capped at `latest`. Every later raise or cap inside a part is tighter
/// than the ones before it, so one of each is enough.
struct Part {
    from: usize,
    until: usize,
    earliest: i64,
    latest: i64,
}

/// Reports `first` to `last` fixed at one pace from `start` to `end`.
struct Span {
    first: usize,
    last: usize,
    start: i64,
    end: i64,
    operations: i64,
}

impl Span {
    /// Whether the paces of both are equal. Lengths are below 2^31 and operations below 2^27.
    fn has_pace_of(&self, other: &Span) -> bool {
        (self.end - self.start) * other.operations == (other.end - other.start) * self.operations
    }
}

/// The list's numbers, signed, with the operations before each report.
struct Numbers {
    arrival: Vec<i64>,
    deadline: Vec<i64>,
    operations_before: Vec<i64>,
}

impl Numbers {
    fn new(r: &Reports) -> Numbers {
        let signed = |values: &[u64]| values.iter().map(|&value| value as i64).collect();
        Numbers {
            arrival: signed(&r.arrival),
            deadline: signed(&r.deadline),
            operations_before: signed(&prefix_sums(&r.operations)),
        }
    }

    /// Reports p to q of the part, from the raised arrival of p to the capped deadline of q.
    fn span(&self, part: &Part, p: usize, q: usize) -> Span {
        Span {
            first: p,
            last: q,
            start: self.arrival[p].max(part.earliest),
            end: self.deadline[q].min(part.latest),
            operations: self.operations_before[q + 1] - self.operations_before[p],
        }
    }

    /// The span of the part with the least pace; of tied spans the first, or the last if asked.
    fn least_span(&self, part: &Part, last_of_ties: bool) -> Span {
        let mut best = self.span(part, part.from, part.from);
        for p in part.from..part.until {
            for q in p..part.until {
                let span = self.span(part, p, q);
                let own = (span.end - span.start) * best.operations;
                let least = (best.end - best.start) * span.operations;
                if own < least || (last_of_ties && own == least) {
                    best = span;
                }
            }
        }
        best
    }
}

/// The rows of an accepted list. Which of tied spans is taken makes no difference to them.
pub fn rows(r: &Reports, last_of_ties: bool) -> Vec<[u32; 5]> {
    let numbers = Numbers::new(r);
    let mut fixed = Vec::new();
    let mut parts = vec![Part {
        from: 0,
        until: r.arrival.len(),
        earliest: 0,
        latest: i64::from(i32::MAX),
    }];
    while let Some(part) = parts.pop() {
        if part.from == part.until {
            continue;
        }
        let span = numbers.least_span(&part, last_of_ties);
        parts.push(Part {
            from: part.from,
            until: span.first,
            earliest: part.earliest,
            latest: span.start,
        });
        parts.push(Part {
            from: span.last + 1,
            until: part.until,
            earliest: span.end,
            latest: part.latest,
        });
        fixed.push(span);
    }
    fixed.sort_by_key(|span| span.first);
    joined(fixed).iter().map(row).collect()
}

/// Joins neighbours with one pace and no idle time between them.
fn joined(spans: Vec<Span>) -> Vec<Span> {
    let mut blocks: Vec<Span> = Vec::new();
    for span in spans {
        match blocks.last_mut() {
            Some(block) if block.end == span.start && block.has_pace_of(&span) => {
                block.last = span.last;
                block.end = span.end;
                block.operations += span.operations;
            }
            _ => blocks.push(span),
        }
    }
    blocks
}

/// The row of a block; every number of an accepted list's blocks is below 2^31.
fn row(block: &Span) -> [u32; 5] {
    [
        block.first as u32,
        block.last as u32,
        block.start as u32,
        block.end as u32,
        block.operations as u32,
    ]
}

#[cfg(test)]
mod tests {
    use super::rows;
    use crate::Reports;

    /// Tied spans are frequent in these lists: tiny numbers, and many equal arrivals and deadlines.
    #[test]
    fn tied_spans_give_the_same_rows() {
        let mut state = 1u64;
        let mut below = |bound: u64| {
            state = state.wrapping_mul(6364136223846793005).wrapping_add(1);
            (state >> 33) % bound
        };
        for _ in 0..20_000 {
            let count = 1 + below(7) as usize;
            let mut arrival: Vec<u64> = (0..count).map(|_| 2 * below(8)).collect();
            arrival.sort();
            let operations: Vec<u64> = (0..count).map(|_| 1 + below(2)).collect();
            let mut finish = 0;
            let mut deadline = Vec::new();
            for i in 0..count {
                finish = arrival[i].max(finish) + operations[i];
                deadline.push(finish + below(6));
            }
            let r = Reports {
                arrival,
                deadline,
                operations,
                p: 1,
                q: 1,
                floor: None,
            };
            assert_eq!(rows(&r, false), rows(&r, true));
        }
    }
}
