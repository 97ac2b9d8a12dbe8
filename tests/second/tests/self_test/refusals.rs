//! Every sentence of the table "Numbered answers" that concerns a table, and the order of checks.

use crate::common::{expect_appended, expect_no_room, expect_refused, make, table, FREE};
use second::calls::{Answer, Call};
use second::lent::Lent;

/// Calls of every kind, all in order for a table of `sound_table`.
const CALLS: [Call; 7] = [
    Call::Variable { v: 0 },
    Call::Sum { f: 2, g: 3 },
    Call::Product { f: 2, g: 3 },
    Call::Value { f: 2 },
    Call::One { f: 2 },
    Call::Equation { lead: 0, system: 2, tail: 3 },
    Call::NormalForm { p: 3, system: 2 },
];

/// 2: x2, 3: x1, N = 3, with room for six rows.
fn sound_table() -> Lent {
    let mut lent = table(3, &[(2, 1, 0), (1, 1, 0)], 6);
    lent.assignment = vec![0, 1, 1];
    lent
}

fn expect_all_refused(lent: &Lent, number: u32) {
    for call in CALLS {
        expect_refused(lent, call, number);
    }
}

fn refused(answer: Answer) -> bool {
    matches!(answer, Answer::Refused(_))
}

#[test]
fn none_is_refused_without_a_fault() {
    for call in CALLS {
        assert!(!refused(make(&mut sound_table(), call)), "{call:?}");
    }
}

#[test]
fn refusal_1_n_out_of_range() {
    for n in [1_025, 65_536 + 3, (1 << 32) + 3, u64::MAX] {
        expect_all_refused(&Lent { n, ..sound_table() }, 1);
    }
}

#[test]
fn n_of_1024_is_in_range() {
    let mut lent = table(1_024, &[], 1);
    expect_appended(&mut lent, Call::Variable { v: 1_023 }, 2, &[(1_023, 1, 0)]);
    expect_refused(&lent, Call::Variable { v: 1_024 }, 5);
}

#[test]
fn refusal_1_lengths_not_one_length() {
    let mut lent = sound_table();
    lent.table.var.push(0);
    expect_all_refused(&lent, 1);
    let mut lent = sound_table();
    lent.table.then.push(0);
    expect_all_refused(&lent, 1);
    let mut lent = sound_table();
    lent.table.els.pop();
    expect_all_refused(&lent, 1);
}

#[test]
fn refusal_1_more_than_8192_rows() {
    expect_all_refused(
        &Lent { assignment: vec![0; 3], ..table(3, &[(2, 1, 0), (1, 1, 0)], 8_193) },
        1,
    );
    let mut lent = table(3, &[], 8_192);
    expect_appended(&mut lent, Call::Variable { v: 0 }, 2, &[(0, 1, 0)]);
}

#[test]
fn refusal_1_count_above_the_length() {
    for count in [7, 65_536 + 2, (1 << 32) + 2, u64::MAX] {
        expect_all_refused(&Lent { count, ..sound_table() }, 1);
    }
}

#[test]
fn refusal_1_assignment_length_not_n() {
    for length in [0, 2, 4] {
        let lent = Lent { assignment: vec![0; length], ..sound_table() };
        expect_refused(&lent, Call::Value { f: 2 }, 1);
        expect_refused(&lent, Call::One { f: 2 }, 1);
        // Calls that take no assignment do not look at it.
        assert!(!refused(make(&mut lent.clone(), Call::Sum { f: 2, g: 3 })));
    }
}

#[test]
fn refusal_2_each_rule_of_soundness() {
    let unsound: [&[(u16, u16, u16)]; 13] = [
        &[(2, 1, 0), (3, 1, 0)],                       // v not below N
        &[(2, 1, 0), (65_535, 1, 0)],                  // v far above
        &[(2, 1, 0), (1, 3, 0)],                       // t is its own number
        &[(2, 1, 0), (1, 4, 0), (0, 1, 0)],            // t above its own number
        &[(2, 1, 0), (1, 1, 3)],                       // e is its own number
        &[(2, 1, 0), (1, 1, 4), (2, 1, 1)],            // e above its own number
        &[(2, 1, 0), (1, 0, 2)],                       // t is 0
        &[(2, 0, 0), (1, 1, 0)],                       // t is 0 in the first row
        &[(2, 1, 0), (2, 2, 0)],                       // t's variable is v
        &[(1, 1, 0), (2, 2, 0)],                       // t's variable is less
        &[(2, 1, 0), (2, 1, 2)],                       // e's variable is v
        &[(1, 1, 0), (2, 1, 2)],                       // e's variable is less
        &[(2, 1, 0), (1, 1, 0), (0, 1, 2), (1, 1, 0)], // two rows alike
    ];
    for rows in unsound {
        let lent = Lent { assignment: vec![0; 3], ..table(3, rows, 6) };
        expect_all_refused(&lent, 2);
    }
}

#[test]
fn rows_not_in_use_may_be_anything() {
    let mut lent = table(3, &[(2, 1, 0)], 4);
    lent.table.var[1] = 2;
    lent.table.then[1] = 1;
    lent.table.els[1] = 0;
    expect_appended(&mut lent, Call::Variable { v: 1 }, 3, &[(1, 1, 0)]);
    // The free row was alike to the row in use, and was not found.
    assert_eq!(lent.table.var[2], FREE.0);
}

#[test]
fn refusal_3_each_operand() {
    let lent = sound_table();
    for wrong in [4, 5, 7, 8, 65_535] {
        expect_refused(&lent, Call::Sum { f: wrong, g: 0 }, 3);
        expect_refused(&lent, Call::Sum { f: 0, g: wrong }, 3);
        expect_refused(&lent, Call::Product { f: wrong, g: 0 }, 3);
        expect_refused(&lent, Call::Product { f: 0, g: wrong }, 3);
        expect_refused(&lent, Call::Value { f: wrong }, 3);
        expect_refused(&lent, Call::One { f: wrong }, 3);
        expect_refused(&lent, Call::Equation { lead: 0, system: wrong, tail: 0 }, 3);
        expect_refused(&lent, Call::Equation { lead: 0, system: 1, tail: wrong }, 3);
        expect_refused(&lent, Call::NormalForm { p: wrong, system: 1 }, 3);
        expect_refused(&lent, Call::NormalForm { p: 0, system: wrong }, 3);
    }
}

#[test]
fn refusal_8_for_value_only() {
    for byte in [2, 128, 255] {
        for place in 0..3 {
            let mut lent = sound_table();
            lent.assignment[place] = byte;
            expect_refused(&lent, Call::Value { f: 2 }, 8);
            expect_refused(&lent, Call::Value { f: 0 }, 8);
            assert_eq!(make(&mut lent, Call::One { f: 2 }), Answer::One);
            assert_eq!(lent.assignment, [0, 0, 1]);
        }
    }
}

#[test]
fn refusal_4_system_0() {
    let lent = sound_table();
    expect_refused(&lent, Call::Equation { lead: 0, system: 0, tail: 2 }, 4);
    expect_refused(&lent, Call::NormalForm { p: 2, system: 0 }, 4);
    expect_refused(&lent, Call::NormalForm { p: 0, system: 0 }, 4);
}

#[test]
fn refusal_5_variable_not_below_n() {
    for v in [3, 4, 1_024, 65_535] {
        expect_refused(&sound_table(), Call::Variable { v }, 5);
    }
}

#[test]
fn refusal_5_lead_and_tail() {
    let lent = sound_table();
    for lead in [3, 65_535] {
        expect_refused(&lent, Call::Equation { lead, system: 1, tail: 0 }, 5);
    }
    // The system's root is x1, the lead x1 or x2.
    expect_refused(&lent, Call::Equation { lead: 1, system: 3, tail: 0 }, 5);
    expect_refused(&lent, Call::Equation { lead: 2, system: 3, tail: 0 }, 5);
    // The tail's root is x1, the lead x1 or x2.
    expect_refused(&lent, Call::Equation { lead: 1, system: 1, tail: 3 }, 5);
    expect_refused(&lent, Call::Equation { lead: 2, system: 1, tail: 3 }, 5);
}

#[test]
fn leads_in_order() {
    // A constant's root counts as N, so every lead is in order with constants.
    expect_appended(
        &mut sound_table(),
        Call::Equation { lead: 2, system: 1, tail: 1 },
        4,
        &[(2, 1, 1)],
    );
    expect_appended(&mut sound_table(), Call::Equation { lead: 2, system: 1, tail: 0 }, 2, &[]);
    expect_appended(
        &mut sound_table(),
        Call::Equation { lead: 1, system: 2, tail: 2 },
        4,
        &[(1, 2, 2)],
    );
    expect_appended(
        &mut sound_table(),
        Call::Equation { lead: 0, system: 3, tail: 2 },
        4,
        &[(0, 3, 2)],
    );
}

#[test]
fn refusal_6_one_of_0() {
    expect_refused(&sound_table(), Call::One { f: 0 }, 6);
}

#[test]
fn refusal_7_in_every_call_that_appends() {
    let full = |rows: &[(u16, u16, u16)]| table(3, rows, rows.len());
    let lent = full(&[(2, 1, 0), (1, 1, 0)]);
    expect_no_room(&lent, Call::Variable { v: 0 });
    expect_no_room(&lent, Call::Sum { f: 2, g: 3 });
    expect_no_room(&lent, Call::Product { f: 2, g: 3 });
    expect_no_room(&lent, Call::Equation { lead: 0, system: 1, tail: 0 });
    // x0x1 by {x1+x2} is x0x2, which is not there.
    let lent = full(&[(2, 1, 0), (1, 1, 0), (0, 3, 0), (1, 1, 2)]);
    expect_no_room(&lent, Call::NormalForm { p: 4, system: 5 });
}

#[test]
fn refusal_7_zeros_free_rows_and_keeps_those_in_use() {
    // 2: x3, 3: x2, 4: x1, 5: x0x2+x1, 6: x0x3+x2: the sum needs three rows, two are free.
    let rows = [(3, 1, 0), (2, 1, 0), (1, 1, 0), (0, 3, 4), (0, 2, 3)];
    let mut lent = table(4, &rows, 7);
    assert_eq!(make(&mut lent, Call::Sum { f: 5, g: 6 }), Answer::Refused(7));
    assert_eq!(lent.count, 5);
    assert_eq!(lent.table.var, [3, 2, 1, 0, 0, 0, 0]);
    assert_eq!(lent.table.then, [1, 1, 1, 3, 2, 0, 0]);
    assert_eq!(lent.table.els, [0, 0, 0, 4, 3, 0, 0]);
}

#[test]
fn order_1_before_2() {
    let mut lent = table(3, &[(3, 0, 9)], 4);
    lent.assignment = vec![0; 2];
    expect_refused(&lent, Call::Value { f: 9 }, 1);
    expect_refused(&lent, Call::One { f: 0 }, 1);
    lent.count = 5;
    expect_all_refused(&lent, 1);
}

#[test]
fn order_2_before_3_8_4_5_6() {
    let mut lent = table(3, &[(3, 0, 9)], 4);
    lent.assignment = vec![2; 3];
    expect_refused(&lent, Call::Sum { f: 99, g: 0 }, 2);
    expect_refused(&lent, Call::Value { f: 0 }, 2);
    expect_refused(&lent, Call::NormalForm { p: 0, system: 0 }, 2);
    expect_refused(&lent, Call::Variable { v: 3 }, 2);
    expect_refused(&lent, Call::One { f: 0 }, 2);
}

#[test]
fn order_3_before_8_4_5() {
    let mut lent = sound_table();
    lent.assignment = vec![2; 3];
    expect_refused(&lent, Call::Value { f: 4 }, 3);
    expect_refused(&lent, Call::NormalForm { p: 4, system: 0 }, 3);
    expect_refused(&lent, Call::Equation { lead: 0, system: 0, tail: 4 }, 3);
    expect_refused(&lent, Call::Equation { lead: 3, system: 4, tail: 0 }, 3);
}

#[test]
fn order_4_before_5_and_5_before_7() {
    let mut lent = table(3, &[(2, 1, 0)], 1);
    expect_refused(&lent, Call::Equation { lead: 3, system: 0, tail: 2 }, 4);
    expect_refused(&lent, Call::Equation { lead: 2, system: 0, tail: 2 }, 4);
    expect_refused(&lent, Call::Equation { lead: 2, system: 1, tail: 2 }, 5);
    expect_refused(&lent, Call::Variable { v: 3 }, 5);
    lent.table.zero_from(1);
    expect_no_room(&lent, Call::Variable { v: 0 });
}

#[test]
fn a_ring_without_variables() {
    let mut lent = table(0, &[], 3);
    expect_refused(&lent, Call::Variable { v: 0 }, 5);
    expect_refused(&lent, Call::Equation { lead: 0, system: 1, tail: 1 }, 5);
    expect_appended(&mut lent, Call::Sum { f: 1, g: 1 }, 0, &[]);
    expect_appended(&mut lent, Call::NormalForm { p: 1, system: 1 }, 1, &[]);
    assert_eq!(make(&mut lent, Call::One { f: 1 }), Answer::One);
    assert_eq!(make(&mut lent, Call::Value { f: 1 }), Answer::Value(1));
    expect_refused(&lent, Call::One { f: 0 }, 6);
    expect_refused(&table(0, &[(0, 1, 0)], 3), Call::Sum { f: 0, g: 0 }, 2);
}

#[test]
fn a_table_without_room() {
    let lent = table(2, &[], 0);
    expect_appended(&mut lent.clone(), Call::Product { f: 1, g: 1 }, 1, &[]);
    expect_no_room(&lent, Call::Variable { v: 1 });
    expect_no_room(&lent, Call::Equation { lead: 1, system: 1, tail: 0 });
}

#[test]
fn the_working_slice_is_all_zeros_after_every_call() {
    for length in [0, 1, 2, 7, 63, 64, 65, 1_000, 20_000] {
        for call in CALLS {
            let mut lent = Lent { work: vec![u64::MAX; length], ..sound_table() };
            make(&mut lent, call);
            assert_eq!(lent.work, vec![0; length]);
            let mut refused = Lent { work: vec![3; length], n: 2_000, ..sound_table() };
            make(&mut refused, call);
            assert_eq!(refused.work, vec![0; length]);
        }
    }
}
