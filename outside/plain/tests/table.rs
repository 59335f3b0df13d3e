//! 01's table ("Lists on both sides of a line"), the wrapped list and the roll's example, by both
//! planners.

mod common;

use common::{both, checked, Answer, Handed};

type Report = (u32, u32, u32);

/// The list gives this answer and these rows, with room to spare and with none.
fn gives(list: &Handed, answer: Answer, rows: &[[u32; 5]]) {
    for spare in [0, 3] {
        let room = 5 * list.arrivals.len() + spare;
        assert_eq!(both(list, room), (answer, rows.concat()), "{list:?}");
        checked(list, room);
    }
}

fn accepted(reports: &[Report], p: u32, q: u32, rows: &[[u32; 5]]) {
    for reference in [0, 1, 2_147_483_648, 4_294_967_295] {
        gives(
            &Handed::of(reports, reference, p, q),
            (0, 0, rows.len()),
            rows,
        );
    }
}

fn refused(reports: &[Report], p: u32, q: u32, number: u32, place: usize) {
    for reference in [0, 1, 2_147_483_648, 4_294_967_295] {
        gives(
            &Handed::of(reports, reference, p, q),
            (number, place, 0),
            &[],
        );
    }
}

#[test]
fn starred_rows() {
    accepted(&[], 1, 1, &[]);
    accepted(&[(0, 10, 4)], 1, 1, &[[0, 0, 0, 10, 4]]);
    accepted(&[(0, 4, 4)], 1, 1, &[[0, 0, 0, 4, 4]]);
    refused(&[(0, 4, 5)], 1, 1, 9, 0);
    accepted(
        &[(0, 4, 2), (0, 12, 2)],
        1,
        1,
        &[[0, 0, 0, 4, 2], [1, 1, 4, 12, 2]],
    );
    accepted(
        &[(0, 10, 2), (6, 10, 2)],
        1,
        1,
        &[[0, 0, 0, 6, 2], [1, 1, 6, 10, 2]],
    );
    accepted(
        &[(0, 4, 2), (10, 14, 2)],
        1,
        1,
        &[[0, 0, 0, 4, 2], [1, 1, 10, 14, 2]],
    );
    accepted(&[(0, 4, 2), (4, 8, 2)], 1, 1, &[[0, 1, 0, 8, 4]]);
    accepted(&[(0, 10, 3), (0, 5, 2)], 1, 1, &[[0, 1, 0, 5, 5]]);
    accepted(
        &[(0, 6, 2), (0, 20, 2), (9, 20, 1), (9, 12, 1)],
        1,
        1,
        &[[0, 1, 0, 9, 4], [2, 3, 9, 12, 2]],
    );
    accepted(
        &[(0, 4, 2), (0, 20, 2), (12, 16, 2)],
        1,
        1,
        &[[0, 0, 0, 4, 2], [1, 1, 4, 12, 2], [2, 2, 12, 16, 2]],
    );
}

#[test]
fn other_rows() {
    accepted(&[(0, 2, 3)], 2, 3, &[[0, 0, 0, 2, 3]]);
    refused(&[(0, 2, 4)], 2, 3, 9, 0);
    accepted(
        &[(0, 2_147_483_647, 1)],
        1,
        1,
        &[[0, 0, 0, 2_147_483_647, 1]],
    );
    refused(&[(0, 2_147_483_648, 1)], 1, 1, 7, 0);
    refused(&[(5, 20, 2), (4, 20, 2)], 1, 1, 8, 1);
    refused(&[(5, 20, 2), (4, 20, 0)], 1, 1, 5, 1);
}

#[test]
fn wrapped_list() {
    let list = Handed {
        arrivals: vec![4_294_967_295, 3],
        deadlines: vec![9, 14],
        operations: vec![2, 2],
        reference: 4_294_967_290,
        p: 1,
        q: 1,
    };
    gives(&list, (0, 0, 1), &[[0, 1, 5, 20, 4]]);
}

#[test]
fn example_of_the_roll() {
    let list = Handed {
        arrivals: vec![0x64, 0x64],
        deadlines: vec![0x68, 0x70],
        operations: vec![2, 2],
        reference: 0x64,
        p: 1,
        q: 1,
    };
    gives(&list, (0, 0, 2), &[[0, 0, 0, 4, 2], [1, 1, 4, 12, 2]]);
}

#[test]
fn rules_one_to_four() {
    let good = Handed::of(&[(0, 10, 4)], 0, 1, 1);
    let answer = |list: &Handed, room| checked(list, room).0;
    let change = |change: &dyn Fn(&mut Handed)| {
        let mut list = good.clone();
        change(&mut list);
        list
    };
    assert_eq!(answer(&change(&|list| list.deadlines.push(10)), 5), 1);
    assert_eq!(answer(&change(&|list| list.operations.clear()), 5), 1);
    assert_eq!(answer(&change(&|list| list.arrivals.clear()), 5), 1);
    assert_eq!(answer(&good, 4), 3);
    assert_eq!(answer(&good, 5), 0);
    for wrong in [0, 65_536, u32::MAX] {
        assert_eq!(answer(&change(&|list| list.p = wrong), 5), 4);
        assert_eq!(answer(&change(&|list| list.q = wrong), 5), 4);
        assert_eq!(
            answer(
                &Handed {
                    q: wrong,
                    p: 1,
                    ..Handed::default()
                },
                0
            ),
            4
        );
    }
    assert_eq!(
        answer(&change(&|list| (list.p, list.q) = (2, 65_535)), 5),
        0
    );
    for (n, number) in [(1_024, 0), (1_025, 2)] {
        let many: Vec<Report> = (0..n).map(|i| (i, i + 1, 1)).collect();
        assert_eq!(answer(&Handed::of(&many, 9, 1, 1), 5 * 1_025), number);
    }
}
