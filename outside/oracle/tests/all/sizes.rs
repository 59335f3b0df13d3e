//! Full-size lists: 1,024 reports, the greatest numbers of every kind, and the lists that make the
//! span method take its most steps.

use crate::helpers::{accepted, owned, refused, Owned, Random};
use crate::sums::RIVALS;
use oracle::{answer_program, check};

const COUNT: u32 = 1_024;
const TOP: u32 = 2_147_483_647;

/// A list of 1,024 reports, each made from its number.
fn full(report: impl Fn(u32) -> (u32, u32, u32)) -> Owned {
    let reports: Vec<_> = (0..COUNT).map(report).collect();
    let column =
        |pick: fn(&(u32, u32, u32)) -> u32| -> Vec<u32> { reports.iter().map(pick).collect() };
    owned(&column(|r| r.0), &column(|r| r.1), &column(|r| r.2))
}

/// Checks an accepted list of full size and returns its block count.
fn checked(list: &Owned) -> usize {
    let (answer, r) = (list.answer(), list.reports());
    assert_eq!((answer.number, answer.place), (0, 0));
    assert_eq!(check::plan(&r, &answer.rows), Ok(()));
    let [_, _, start, end, operations] = answer.rows[answer.rows.len() / 2];
    for (num, den) in [(u64::from(end - start), u64::from(operations)), (40_007, 3)] {
        let compared = check::least(&r, &answer.rows, num, den, 5);
        assert_eq!(compared, Ok(RIVALS));
    }
    answer.rows.len()
}

#[test]
fn paces_that_rise_with_every_report() {
    let list = full(|i| (0, (i + 1) * (i + 2) / 2, 1));
    assert_eq!(checked(&list), COUNT as usize);
}

#[test]
fn paces_that_fall_with_every_report() {
    let last = COUNT * (COUNT + 1) / 2;
    let list = full(|i| (last - (COUNT - i) * (COUNT - i + 1) / 2, last, 1));
    assert_eq!(checked(&list), COUNT as usize);
}

#[test]
fn greatest_sum_of_operations() {
    let list = full(|_| (0, TOP, 65_535));
    assert_eq!(list.answer(), accepted(&[[0, 1_023, 0, TOP, 67_107_840]]));
    assert_eq!(checked(&list), 1);
    // At 32 all of them take 2,147,450,880 ticks; at 65,535/2,047 they take more than the top.
    assert_eq!(list.clone().with_pace(32, 1).answer().number, 0);
    let answer = list.with_pace(65_535, 2_047).answer();
    assert_eq!(answer, refused(9, 1_023));
}

/// One tick has room for 65,535 operations at 1/65,535 and for no more.
#[test]
fn windows_near_the_top_at_the_greatest_q() {
    let mut list = full(|_| (TOP - 1, TOP, 64)).with_pace(1, 65_535);
    assert_eq!(list.answer(), refused(9, 1_023));
    list.operations[500] = 63;
    let rows = [[0, 1_023, TOP - 1, TOP, 65_535]];
    assert_eq!(list.answer(), accepted(&rows));
    assert_eq!(checked(&list), 1);
}

#[test]
fn random_lists_of_full_size() {
    let mut random = Random(9);
    for spread in [3, 1_000, 2_000_000] {
        let (mut arrivals, mut deadlines, mut operations) = (vec![], vec![], vec![]);
        let (mut arrival, mut earliest) = (0, 0);
        for _ in 0..COUNT {
            arrival += random.below(spread);
            let own = 1 + random.below(spread.min(65_535));
            earliest = arrival.max(earliest) + own;
            arrivals.push(arrival);
            operations.push(own);
            deadlines.push(earliest + random.below(20 * spread));
        }
        let list = owned(&arrivals, &deadlines, &operations);
        assert!(checked(&list) > 1);
        let text = answer_program(&list.roll(b""));
        assert!(text.starts_with(b"plan 0 0 "));
    }
}
