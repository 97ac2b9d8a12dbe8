//! The semantic checks do find wrong answers.

use crate::common::{slices, table};
use second::calls::{Answer, Call};
use second::circuit;
use second::lent::Lent;
use second::semantic::{check_call, check_circuit};

/// 2: x2, 3: x1, 4: x0x1, 5: x1+x2, which is also the system {x1+x2}, 6: x0x2; N = 3.
fn lent() -> Lent {
    let mut lent = table(3, &[(2, 1, 0), (1, 1, 0), (0, 3, 0), (1, 1, 2), (0, 2, 0)], 6);
    lent.work.fill(0);
    lent
}

fn check_found(call: Call, row: u16) {
    check_call(&lent(), &lent(), call, Answer::Appended { row, new_count: 5 });
}

#[test]
fn right_answers_pass() {
    check_found(Call::Sum { f: 2, g: 3 }, 5);
    check_found(Call::NormalForm { p: 4, system: 5 }, 6);
    check_found(Call::Product { f: 4, g: 3 }, 4);
}

#[test]
#[should_panic(expected = "the sum")]
fn a_wrong_sum() {
    check_found(Call::Sum { f: 2, g: 3 }, 4);
}

#[test]
#[should_panic(expected = "the product")]
fn a_wrong_product() {
    check_found(Call::Product { f: 4, g: 3 }, 0);
}

#[test]
#[should_panic(expected = "the variable")]
fn a_wrong_variable() {
    check_found(Call::Variable { v: 1 }, 2);
}

#[test]
#[should_panic(expected = "the normal form's values")]
fn a_wrong_normal_form() {
    check_found(Call::NormalForm { p: 4, system: 5 }, 2);
}

#[test]
#[should_panic(expected = "no lead remains")]
fn a_lead_that_remains() {
    check_found(Call::NormalForm { p: 4, system: 5 }, 4);
}

#[test]
#[should_panic(expected = "the least one")]
fn a_one_that_is_not_the_least() {
    let after = Lent { assignment: vec![1, 1, 1], ..lent() };
    check_call(&lent(), &after, Call::One { f: 4 }, Answer::One);
}

#[test]
#[should_panic(expected = "the value")]
fn a_wrong_value() {
    let lent = Lent { assignment: vec![1, 1, 0], ..lent() };
    check_call(&lent, &lent, Call::Value { f: 4 }, Answer::Value(0));
}

#[test]
#[should_panic(expected = "more than R rows")]
fn a_refusal_7_without_need() {
    check_call(&lent(), &lent(), Call::Sum { f: 2, g: 3 }, Answer::Refused(7));
}

#[test]
#[should_panic(expected = "the table stays sound")]
fn rows_alike() {
    let lent = Lent { work: vec![], ..table(3, &[(2, 1, 0), (2, 1, 0)], 2) };
    let answer = Answer::Appended { row: 2, new_count: 2 };
    check_call(&lent, &lent, Call::Sum { f: 0, g: 2 }, answer);
}

#[test]
#[should_panic(expected = "nothing written")]
fn a_refusal_that_writes() {
    let mut after = lent();
    after.table.var[5] = 0;
    check_call(&lent(), &after, Call::Sum { f: 9, g: 9 }, Answer::Refused(3));
}

#[test]
#[should_panic(expected = "free rows stay")]
fn a_free_row_that_is_written() {
    let mut after = lent();
    after.table.var[5] = 0;
    let answer = Answer::Appended { row: 5, new_count: 5 };
    check_call(&lent(), &after, Call::Sum { f: 2, g: 3 }, answer);
}

/// Variable 1 or variable 2.
fn either(pattern: [u8; 2]) -> Lent {
    Lent {
        table: slices(&[]),
        text: b"aag 3 2 0 1 1\n2\n4\n7\n6 3 5\n".to_vec(),
        pattern: pattern.to_vec(),
        ..Lent::default()
    }
}

#[test]
fn the_least_pattern_passes() {
    check_circuit(&either([7, 7]), &either([1, 0]), 0, circuit::Answer::One { rows: 0 });
}

#[test]
#[should_panic(expected = "least pattern")]
fn a_pattern_that_is_not_the_least() {
    check_circuit(&either([7, 7]), &either([0, 1]), 0, circuit::Answer::One { rows: 0 });
}

#[test]
#[should_panic(expected = "verdict 0")]
fn a_wrong_verdict_0() {
    check_circuit(&either([7, 7]), &either([7, 7]), 0, circuit::Answer::Zero { rows: 0 });
}
