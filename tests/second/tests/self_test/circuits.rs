//! The circuit call, the printed run and the program that prints verdicts.

use crate::common::{slices, Written, FREE};
use second::circuit::{answer, text_answer, Answer};
use second::lent::Lent;
use second::program;

const PRINTED_RUN: &str = "aag 4 2 0 2 2\n2\n4\n8\n6\n6 2 5\n8 6 4\n";

/// The rows of the printed run's system and, last, of its output 0.
const PRINTED_ROWS: [Written; 9] = [
    (3, 1, 0), // 2: literal 2
    (2, 1, 1), // 3: literal 5
    (2, 2, 2), // 4: their product
    (1, 1, 4), // 5: the first equation
    (1, 1, 0), // 6: literal 6
    (2, 1, 0), // 7: literal 4
    (1, 7, 0), // 8: their product
    (0, 5, 8), // 9: the second equation
    (0, 1, 0), // 10: literal 8
];

fn lent(text: &str, room: usize, inputs: usize) -> Lent {
    Lent {
        table: slices(&vec![FREE; room]),
        work: vec![5; 4],
        text: text.as_bytes().to_vec(),
        pattern: vec![77; inputs],
        ..Lent::default()
    }
}

fn ask(lent: &mut Lent, output: u64) -> Answer {
    let answer = answer(lent, output, u64::MAX).unwrap();
    assert_eq!(lent.work, [0; 4]);
    answer
}

/// The first rows are as given, all others are as before.
fn expect_rows(lent: &Lent, rows: &[Written]) {
    let mut expected = rows.to_vec();
    expected.resize(lent.table.var.len(), FREE);
    assert_eq!(lent.table, slices(&expected));
}

fn expect_verdict_2(mut lent: Lent, output: u64) {
    let room = lent.table.var.len();
    let pattern = lent.pattern.clone();
    assert_eq!(ask(&mut lent, output), Answer::NoRoom);
    assert_eq!(lent.table, slices(&vec![(0, 0, 0); room]));
    assert_eq!(lent.pattern, pattern);
}

fn expect_refused(mut lent: Lent, output: u64, number: u32) {
    let before = lent.clone();
    assert_eq!(ask(&mut lent, output), Answer::Refused(number));
    assert_eq!(lent.table, before.table);
    assert_eq!(lent.pattern, before.pattern);
}

#[test]
fn printed_run_with_9_rows() {
    let mut first = lent(PRINTED_RUN, 9, 2);
    assert_eq!(ask(&mut first, 0), Answer::Zero { rows: 9 });
    expect_rows(&first, &PRINTED_ROWS);
    assert_eq!(first.pattern, [77, 77]);
    let mut second = lent(PRINTED_RUN, 9, 2);
    assert_eq!(ask(&mut second, 1), Answer::One { rows: 8 });
    expect_rows(&second, &PRINTED_ROWS[..8]);
    assert_eq!(second.pattern, [1, 0]);
}

#[test]
fn printed_run_with_8_rows() {
    expect_verdict_2(lent(PRINTED_RUN, 8, 2), 0);
    let mut second = lent(PRINTED_RUN, 8, 2);
    assert_eq!(ask(&mut second, 1), Answer::One { rows: 8 });
    expect_rows(&second, &PRINTED_ROWS[..8]);
    assert_eq!(second.pattern, [1, 0]);
}

#[test]
fn printed_run_with_7_rows() {
    expect_verdict_2(lent(PRINTED_RUN, 7, 2), 0);
    expect_verdict_2(lent(PRINTED_RUN, 7, 2), 1);
}

#[test]
fn printed_run_as_printed() {
    assert_eq!(program::print(PRINTED_RUN.as_bytes(), 4_096), "0\nb0\n.\n1\nb1\n\n10\n.\n");
    assert_eq!(program::print(PRINTED_RUN.as_bytes(), 9), "0\nb0\n.\n1\nb1\n\n10\n.\n");
    assert_eq!(program::print(PRINTED_RUN.as_bytes(), 8), "2\nb0\n.\n1\nb1\n\n10\n.\n");
    assert_eq!(program::print(PRINTED_RUN.as_bytes(), 7), "2\nb0\n.\n2\nb1\n.\n");
}

#[test]
fn what_the_program_prints_otherwise() {
    assert_eq!(program::print(b"", 4_096), "refused 10\n");
    assert_eq!(program::print(b"aag 1 1 0 0 0\n3\n", 4_096), "refused 12\n");
    assert_eq!(program::print(b"aag 1 1 0 0 0\n2\n", 4_096), "");
    assert_eq!(program::print(b"aag 0 0 0 2 0\n1\n0\n", 4_096), "1\nb0\n\n\n.\n0\nb1\n.\n");
}

#[test]
fn rows_of_an_earlier_output_do_not_count() {
    // The same table is lent again with all the rows of output 0 in it.
    let mut again = lent(PRINTED_RUN, 9, 2);
    ask(&mut again, 0);
    assert_eq!(ask(&mut again, 1), Answer::One { rows: 8 });
    assert_eq!(again.table, slices(&PRINTED_ROWS));
}

#[test]
fn constants_make_no_row() {
    let text = "aag 0 0 0 2 0\n0\n1\n";
    assert_eq!(ask(&mut lent(text, 0, 0), 0), Answer::Zero { rows: 0 });
    assert_eq!(ask(&mut lent(text, 0, 0), 1), Answer::One { rows: 0 });
}

#[test]
fn a_constant_output_needs_room_for_the_whole_system() {
    // Gate 4 = 2 & 2: the literal and the equation, two rows.
    let text = "aag 2 1 0 2 1\n2\n0\n1\n4 2 2\n";
    assert_eq!(ask(&mut lent(text, 2, 1), 0), Answer::Zero { rows: 2 });
    expect_verdict_2(lent(text, 1, 1), 0);
    let mut one = lent(text, 2, 1);
    assert_eq!(ask(&mut one, 1), Answer::One { rows: 2 });
    expect_rows(&one, &[(1, 1, 0), (0, 1, 2)]);
    assert_eq!(one.pattern, [0]);
}

#[test]
fn a_gate_of_constants() {
    // Gate 2 = 1 & 0: the equation (0, 1, 0), which is also literal 2.
    let mut zero = lent("aag 1 0 0 1 1\n2\n2 1 0\n", 1, 0);
    assert_eq!(ask(&mut zero, 0), Answer::Zero { rows: 1 });
    expect_rows(&zero, &[(0, 1, 0)]);
    // Gate 2 = 1 & 1: the equation (0, 1, 1), then literal 2.
    let mut one = lent("aag 1 0 0 1 1\n2\n2 1 1\n", 2, 0);
    assert_eq!(ask(&mut one, 0), Answer::One { rows: 2 });
    expect_rows(&one, &[(0, 1, 1), (0, 1, 0)]);
}

#[test]
fn the_pattern_is_in_file_order() {
    // Output: variable 1 and not variable 2; the file names variable 2 first.
    let mut asked = lent("aag 3 2 0 1 1\n4\n2\n6\n6 2 5\n", 20, 2);
    assert!(matches!(ask(&mut asked, 0), Answer::One { .. }));
    assert_eq!(asked.pattern, [0, 1]);
}

#[test]
fn the_least_pattern_reads_the_highest_input_first() {
    // Output: variable 1 or variable 2. The least has variable 2 at 0.
    let mut asked = lent("aag 3 2 0 1 1\n2\n4\n7\n6 3 5\n", 20, 2);
    assert!(matches!(ask(&mut asked, 0), Answer::One { .. }));
    assert_eq!(asked.pattern, [1, 0]);
    let mut other_order = lent("aag 3 2 0 1 1\n4\n2\n7\n6 3 5\n", 20, 2);
    assert!(matches!(ask(&mut other_order, 0), Answer::One { .. }));
    assert_eq!(other_order.pattern, [0, 1]);
}

#[test]
fn an_input_above_the_gates_and_gaps() {
    // Variables 2 and 7 are inputs, 5 = 2 & 2, 9 = 5 & not 7, M = 12.
    let text = "aag 12 2 0 1 2\n14\n4\n18\n10 4 4\n18 10 15\n";
    let mut asked = lent(text, 20, 2);
    let rows = [
        (10, 1, 0), // 2: literal 4
        (7, 1, 2),  // 3: the first equation
        (7, 1, 0),  // 4: literal 10
        (5, 1, 1),  // 5: literal 15
        (5, 4, 4),  // 6: their product: x7·(x5+1)
        (3, 3, 6),  // 7: the second equation
        (3, 1, 0),  // 8: the output's literal
        (5, 2, 2),  // 9: the tail by the first equation: x10·(x5+1)
    ];
    assert_eq!(ask(&mut asked, 0), Answer::One { rows: 8 });
    expect_rows(&asked, &rows);
    assert_eq!(asked.pattern, [0, 1]);
}

#[test]
fn refusal_1_for_table_lengths_comes_first() {
    let too_long = " ".repeat(32_769);
    expect_refused(lent(&too_long, 8_193, 0), 0, 1);
    let mut unequal = lent(&too_long, 4, 0);
    unequal.table.els.push(0);
    expect_refused(unequal, 0, 1);
    expect_refused(lent(&too_long, 8_192, 0), 0, 9);
}

#[test]
fn refusals_of_the_text_come_before_14_and_15() {
    expect_refused(lent(&" ".repeat(32_768), 4, 0), 9, 10);
    expect_refused(lent("aag 1 0 1 0 0\n", 4, 9), 9, 11);
    expect_refused(lent("aag 1 1 0 1 0\n2\n4\n", 4, 9), 9, 12);
    expect_refused(lent("aag 2 1 0 1 1\n2\n4\n4 4 4\n", 4, 9), 9, 13);
}

#[test]
fn refusal_14_then_15() {
    for output in [2, 3, 65_536, 1 << 32, u64::MAX] {
        expect_refused(lent(PRINTED_RUN, 9, 2), output, 14);
        expect_refused(lent(PRINTED_RUN, 9, 3), output, 14);
    }
    for inputs in [0, 1, 3, 65_538] {
        expect_refused(lent(PRINTED_RUN, 9, inputs), 0, 15);
        expect_refused(lent(PRINTED_RUN, 0, inputs), 1, 15);
    }
}

#[test]
fn refusal_14_without_outputs() {
    expect_refused(lent("aag 0 0 0 0 0\n", 4, 0), 0, 14);
}

#[test]
fn the_text_call() {
    assert_eq!(text_answer(PRINTED_RUN.as_bytes()), Ok((2, 2)));
    assert_eq!(text_answer(b"aag 1 1 0 1 0\n2\n4\n"), Err(12));
    assert_eq!(text_answer(&[b' '; 32_769]), Err(9));
}
