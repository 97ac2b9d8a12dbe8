//! The paper's twelve proved cases, N = 3, worked out by hand row by row, and the errors that the
//! sources invite.

use crate::common::{expect_appended, expect_refused, make, table};
use second::calls::{Answer, Call};

#[test]
fn case_1_sum_of_two_sums() {
    // 2: x1+1, 3: x0x1+x0, 4: x1, 5: x2, 6: x0x1+x2
    let rows = [(1, 1, 1), (0, 2, 0), (1, 1, 0), (2, 1, 0), (0, 4, 5)];
    // Then-parts: (x1+1)+x1 = 1. Else-parts: 0+x2. Made: x0+x2.
    expect_appended(&mut table(3, &rows, 9), Call::Sum { f: 3, g: 6 }, 7, &[(0, 1, 5)]);
    expect_appended(&mut table(3, &rows, 9), Call::Sum { f: 6, g: 3 }, 7, &[(0, 1, 5)]);
}

#[test]
fn case_2_product_over_a_sum() {
    // 2: x0, 3: x2, 4: x1+x2, 5: x1, 6: x0x1, 7: x0x2
    let rows = [(0, 1, 0), (2, 1, 0), (1, 1, 3), (1, 1, 0), (0, 5, 0), (0, 3, 0)];
    let mut lent = table(3, &rows, 9);
    expect_appended(&mut lent, Call::Product { f: 2, g: 4 }, 8, &[(0, 4, 0)]);
    // x0x1+x0x2 has the same number.
    expect_appended(&mut lent, Call::Sum { f: 6, g: 7 }, 8, &[]);
}

#[test]
fn case_3_product_with_the_inverse() {
    // 2: x0+1, 3: x0
    let rows = [(0, 1, 1), (0, 1, 0)];
    expect_appended(&mut table(3, &rows, 2), Call::Product { f: 2, g: 3 }, 0, &[]);
}

#[test]
fn case_4_product_with_itself() {
    expect_appended(&mut table(3, &[(0, 1, 1)], 1), Call::Product { f: 2, g: 2 }, 2, &[]);
}

#[test]
fn case_5_the_absent_variables_part_is_the_else_part() {
    // 2: x0+1, 3: x1. Document 000 as printed would give 0.
    let rows = [(0, 1, 1), (1, 1, 0)];
    expect_appended(&mut table(3, &rows, 4), Call::Product { f: 2, g: 3 }, 4, &[(0, 3, 3)]);
    expect_appended(&mut table(3, &rows, 4), Call::Product { f: 3, g: 2 }, 4, &[(0, 3, 3)]);
}

#[test]
fn case_6_a_lead_is_its_tail() {
    // 2: x0, 3: x2, 4: x1x2
    let mut lent = table(3, &[(0, 1, 0), (2, 1, 0), (1, 3, 0)], 5);
    expect_appended(&mut lent, Call::Equation { lead: 0, system: 1, tail: 4 }, 5, &[(0, 1, 4)]);
    expect_appended(&mut lent, Call::NormalForm { p: 2, system: 5 }, 4, &[]);
}

#[test]
fn case_7_tails_are_reduced_too() {
    // 2: x2, 3: x1, 4: x0x1. Reducing tails only once would keep x1.
    let mut lent = table(3, &[(2, 1, 0), (1, 1, 0), (0, 3, 0)], 6);
    expect_appended(&mut lent, Call::Equation { lead: 1, system: 1, tail: 2 }, 5, &[(1, 1, 2)]);
    expect_appended(&mut lent, Call::Equation { lead: 0, system: 5, tail: 3 }, 6, &[(0, 5, 3)]);
    expect_appended(&mut lent, Call::NormalForm { p: 4, system: 6 }, 2, &[]);
}

#[test]
fn case_8_an_equation_by_itself() {
    // 2: x1, 3: x0+x1, which is also the system {x0+x1}.
    let mut lent = table(3, &[(1, 1, 0), (0, 1, 2)], 2);
    expect_appended(&mut lent, Call::Equation { lead: 0, system: 1, tail: 2 }, 3, &[]);
    expect_appended(&mut lent, Call::NormalForm { p: 3, system: 3 }, 0, &[]);
}

#[test]
fn case_9_below_the_lead() {
    // 2: x1+1, which is also the system {x1+1}; 3: x0x1+x0
    let mut lent = table(3, &[(1, 1, 1), (0, 2, 0)], 2);
    expect_appended(&mut lent, Call::Equation { lead: 1, system: 1, tail: 1 }, 2, &[]);
    expect_appended(&mut lent, Call::NormalForm { p: 3, system: 2 }, 0, &[]);
}

#[test]
fn case_10_the_empty_system() {
    expect_appended(&mut table(3, &[(0, 1, 0)], 1), Call::NormalForm { p: 2, system: 1 }, 2, &[]);
}

#[test]
fn case_11_a_one() {
    // 2: x1, 3: x0x1+x1
    let mut lent = table(3, &[(1, 1, 0), (0, 2, 2)], 2);
    lent.assignment = vec![9, 9, 9];
    assert_eq!(make(&mut lent, Call::One { f: 3 }), Answer::One);
    assert_eq!(lent.assignment, [0, 1, 0]);
}

#[test]
fn case_12_ones_of_constants() {
    let mut lent = table(3, &[], 0);
    lent.assignment = vec![9, 9, 9];
    expect_refused(&lent, Call::One { f: 0 }, 6);
    assert_eq!(make(&mut lent, Call::One { f: 1 }), Answer::One);
    assert_eq!(lent.assignment, [0, 0, 0]);
}

#[test]
fn the_made_root_below_the_lead_is_ps() {
    // 2: x2, 3: x1, 4: x0x1, 5: {x1+x2}. The system's root in place of p's would give x1x2.
    let mut lent = table(3, &[(2, 1, 0), (1, 1, 0), (0, 3, 0), (1, 1, 2)], 5);
    expect_appended(&mut lent, Call::NormalForm { p: 4, system: 5 }, 6, &[(0, 2, 0)]);
}

#[test]
fn system_1_is_no_equation() {
    // If system 1 meant 1 = 0, everything would be 0.
    let mut lent = table(3, &[(0, 1, 1)], 1);
    expect_appended(&mut lent, Call::NormalForm { p: 1, system: 1 }, 1, &[]);
    expect_appended(&mut lent, Call::NormalForm { p: 2, system: 1 }, 2, &[]);
}

#[test]
fn only_the_root_of_p_above_the_lead_passes_the_equation_over() {
    // 2: x2, 3: {x0+1}: x2 stays. 4: {x2+0, x0+1}: x2 is 0.
    let mut lent = table(3, &[(2, 1, 0), (0, 1, 1)], 4);
    expect_appended(&mut lent, Call::NormalForm { p: 2, system: 3 }, 2, &[]);
    expect_appended(&mut lent, Call::Equation { lead: 0, system: 2, tail: 1 }, 4, &[(0, 2, 1)]);
    expect_appended(&mut lent, Call::NormalForm { p: 2, system: 4 }, 0, &[]);
}

#[test]
fn all_equations_reduce_not_the_first_alone() {
    // 2: x3, 3: x2, 4: x1, 5: x0x1, and the system x2+x3, x1+x2, x0+x1, N = 4.
    let rows = [(3, 1, 0), (2, 1, 0), (1, 1, 0), (0, 4, 0), (2, 1, 2), (1, 6, 3), (0, 7, 4)];
    expect_appended(&mut table(4, &rows, 7), Call::NormalForm { p: 5, system: 8 }, 2, &[]);
}
