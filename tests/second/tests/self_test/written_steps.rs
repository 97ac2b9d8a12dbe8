//! Which rows the written steps append, and in what order: worked out by hand.

use crate::common::{expect_appended, expect_no_room, make, table};
use second::calls::{Answer, Call};

#[test]
fn a_variable_is_found_or_appended() {
    let mut lent = table(3, &[], 2);
    expect_appended(&mut lent, Call::Variable { v: 2 }, 2, &[(2, 1, 0)]);
    expect_appended(&mut lent, Call::Variable { v: 2 }, 2, &[]);
    expect_appended(&mut lent, Call::Variable { v: 0 }, 3, &[(0, 1, 0)]);
    expect_no_room(&lent, Call::Variable { v: 1 });
    expect_appended(&mut lent, Call::Variable { v: 0 }, 3, &[]);
}

#[test]
fn sums_of_constants_make_no_row() {
    for (f, g, sum) in [(0, 0, 0), (0, 1, 1), (1, 0, 1), (1, 1, 0)] {
        expect_appended(&mut table(0, &[], 0), Call::Sum { f, g }, sum, &[]);
    }
}

#[test]
fn products_of_constants_make_no_row() {
    for (f, g, product) in [(0, 0, 0), (0, 1, 0), (1, 0, 0), (1, 1, 1)] {
        expect_appended(&mut table(0, &[], 0), Call::Product { f, g }, product, &[]);
    }
}

#[test]
fn a_sum_of_unequal_roots_takes_the_smaller() {
    // 2: x0, 3: x1
    let rows = [(0, 1, 0), (1, 1, 0)];
    expect_appended(&mut table(2, &rows, 3), Call::Sum { f: 2, g: 3 }, 4, &[(0, 1, 3)]);
    expect_appended(&mut table(2, &rows, 3), Call::Sum { f: 3, g: 2 }, 4, &[(0, 1, 3)]);
    // A constant's root is N, so it is added to the else-part.
    expect_appended(&mut table(2, &rows, 3), Call::Sum { f: 1, g: 2 }, 4, &[(0, 1, 1)]);
}

#[test]
fn a_sum_of_equal_roots_adds_then_parts_first() {
    // 2: x3, 3: x2, 4: x1, 5: x0x2+x1, 6: x0x3+x2; sum: x0(x2+x3)+(x1+x2)
    let rows = [(3, 1, 0), (2, 1, 0), (1, 1, 0), (0, 3, 4), (0, 2, 3)];
    let appended = [(2, 1, 2), (1, 1, 3), (0, 7, 8)];
    expect_appended(&mut table(4, &rows, 8), Call::Sum { f: 5, g: 6 }, 9, &appended);
}

#[test]
fn a_product_of_unequal_roots_makes_the_then_part_first() {
    // 2: x3, 3: x2, 4: x1, 5: x0x1+x2
    let rows = [(3, 1, 0), (2, 1, 0), (1, 1, 0), (0, 4, 3)];
    // x1·x3 is made, then x2·x3, then x0·(x1x3)+x2x3.
    let appended = [(1, 2, 0), (2, 2, 0), (0, 6, 7)];
    expect_appended(&mut table(4, &rows, 7), Call::Product { f: 5, g: 2 }, 8, &appended);
    expect_appended(&mut table(4, &rows, 7), Call::Product { f: 2, g: 5 }, 8, &appended);
}

#[test]
fn a_product_of_equal_roots_keeps_the_written_order() {
    // N = 5. 2: x4, 3: x3, 4: x2, 5: x1, f = 6: x0x1+x2, g = 7: x0x3+x4
    let rows = [(4, 1, 0), (3, 1, 0), (2, 1, 0), (1, 1, 0), (0, 5, 4), (0, 3, 2)];
    let appended = [
        (2, 3, 0),  // 8: else(f)·then(g) = x2x3
        (1, 3, 0),  // 9: then(f)·then(g) = x1x3
        (1, 2, 0),  // 10: then(f)·else(g) = x1x4
        (1, 3, 8),  // 11: the first two: x1x3+x2x3
        (3, 1, 2),  // 12: then-parts of 11 and 10: x3+x4
        (1, 12, 8), // 13: that plus the third: x1(x3+x4)+x2x3
        (2, 2, 0),  // 14: else(f)·else(g) = x2x4
        (0, 13, 14),
    ];
    expect_appended(&mut table(5, &rows, 14), Call::Product { f: 6, g: 7 }, 15, &appended);
}

#[test]
fn a_product_the_other_way_appends_other_rows() {
    // As above with the operands exchanged: f = x0x3+x4, g = x0x1+x2.
    let rows = [(4, 1, 0), (3, 1, 0), (2, 1, 0), (1, 1, 0), (0, 5, 4), (0, 3, 2)];
    let appended = [
        (1, 2, 0),   // 8: else(f)·then(g) = x4·x1
        (1, 3, 0),   // 9: then(f)·then(g) = x3·x1
        (2, 3, 0),   // 10: then(f)·else(g) = x3·x2
        (3, 1, 2),   // 11: then-parts of 8 and 9: x4+x3
        (1, 11, 0),  // 12: the first two: x1(x3+x4)
        (1, 11, 10), // 13: that plus the third
        (2, 2, 0),   // 14: else(f)·else(g) = x4·x2
        (0, 13, 14),
    ];
    expect_appended(&mut table(5, &rows, 14), Call::Product { f: 7, g: 6 }, 15, &appended);
}

#[test]
fn rows_made_on_the_way_stay() {
    // 2: x1, 3: x0+1, 4: x0x1: the product is 0, and no row is needed for it.
    let rows = [(1, 1, 0), (0, 1, 1), (0, 2, 0)];
    expect_appended(&mut table(2, &rows, 3), Call::Product { f: 3, g: 4 }, 0, &[]);
    // 2: x2, 3: x1, 4: x0x1+x1, 5: x0x2: the product is 0, and x1x2 is made on the way.
    let rows = [(2, 1, 0), (1, 1, 0), (0, 3, 3), (0, 2, 0)];
    expect_appended(&mut table(3, &rows, 5), Call::Product { f: 4, g: 5 }, 0, &[(1, 2, 0)]);
    expect_no_room(&table(3, &rows, 4), Call::Product { f: 4, g: 5 });
}

#[test]
fn normal_form_makes_a_then_b_then_c() {
    // N = 6. F = {x0 + (x1x3), x3 + x5}, p = x0·(x2x3) + x3x4.
    // 2: x5, 3: x3, 4: x4, 5: x1x3, 6: x2x3, 7: x3x4, 8: p, 9: {x3+x5}, 10: F
    let rows = [
        (5, 1, 0),
        (3, 1, 0),
        (4, 1, 0),
        (1, 3, 0),
        (2, 3, 0),
        (3, 4, 0),
        (0, 6, 7),
        (3, 1, 2),
        (0, 9, 5),
    ];
    let appended = [
        (1, 2, 0),   // 11: a = x1x5
        (2, 2, 0),   // 12: b = x2x5
        (4, 2, 0),   // 13: c = x3x4 by {x3+x5} = x5·x4
        (1, 12, 0),  // 14: a·b = x1x2x5: then(a)·b = x5·(x2x5) = x2x5
        (1, 12, 13), // 15: that + c
    ];
    expect_appended(&mut table(6, &rows, 14), Call::NormalForm { p: 8, system: 10 }, 15, &appended);
}

#[test]
fn room_is_exact() {
    // As in the product of equal roots: 8 rows are appended to 6.
    let rows = [(4, 1, 0), (3, 1, 0), (2, 1, 0), (1, 1, 0), (0, 5, 4), (0, 3, 2)];
    for room in 6..14 {
        expect_no_room(&table(5, &rows, room), Call::Product { f: 6, g: 7 });
    }
    let answer = make(&mut table(5, &rows, 14), Call::Product { f: 6, g: 7 });
    assert_eq!(answer, Answer::Appended { row: 15, new_count: 14 });
}

#[test]
fn the_value_is_the_polynomials() {
    // 2: x2+1, 3: x1, 4: x0x1+x2+1
    let rows = [(2, 1, 1), (1, 1, 0), (0, 3, 2)];
    let expected = [
        ([0, 0, 0], 1),
        ([0, 0, 1], 0),
        ([0, 1, 0], 1),
        ([0, 1, 1], 0),
        ([1, 0, 0], 1),
        ([1, 0, 1], 0),
        ([1, 1, 0], 0),
        ([1, 1, 1], 1),
    ];
    for (assignment, value) in expected {
        let mut lent = table(3, &rows, 3);
        lent.assignment = assignment.to_vec();
        assert_eq!(make(&mut lent, Call::Value { f: 4 }), Answer::Value(value));
        assert_eq!(lent.assignment, assignment);
        assert_eq!(make(&mut lent, Call::Value { f: 0 }), Answer::Value(0));
        assert_eq!(make(&mut lent, Call::Value { f: 1 }), Answer::Value(1));
    }
}

#[test]
fn a_one_follows_the_else_part_where_it_can() {
    // 2: x3, 3: x2x3, 4: x1x2x3, 5: x0x2x3+x1x2x3: the least one is 0,1,1,1.
    let rows = [(3, 1, 0), (2, 2, 0), (1, 3, 0), (0, 3, 4)];
    let mut lent = table(4, &rows, 4);
    lent.assignment = vec![200; 4];
    assert_eq!(make(&mut lent, Call::One { f: 5 }), Answer::One);
    assert_eq!(lent.assignment, [0, 1, 1, 1]);
    // x2x3 alone: x0 and x1 are not met.
    lent.assignment = vec![200; 4];
    assert_eq!(make(&mut lent, Call::One { f: 3 }), Answer::One);
    assert_eq!(lent.assignment, [0, 0, 1, 1]);
}
