//! Tables for the tests, and the checks that every call is put to.

use second::calls::{self, Answer, Call};
use second::lent::{Lent, Slices};

/// A row (v, t, e), as the tests write it.
pub type Written = (u16, u16, u16);

/// What free rows hold before a call.
pub const FREE: Written = (51, 52, 53);

/// A table of the given room with the rows in use.
pub fn table(n: u64, rows: &[Written], room: usize) -> Lent {
    let mut all = rows.to_vec();
    all.resize(room, FREE);
    Lent {
        n,
        table: slices(&all),
        count: rows.len() as u64,
        work: vec![u64::MAX, 7, 0],
        ..Lent::default()
    }
}

pub fn slices(rows: &[Written]) -> Slices {
    Slices {
        var: rows.iter().map(|row| row.0).collect(),
        then: rows.iter().map(|row| row.1).collect(),
        els: rows.iter().map(|row| row.2).collect(),
    }
}

/// Makes a call without a bound on its steps.
pub fn make(lent: &mut Lent, call: Call) -> Answer {
    let answer = calls::answer(lent, call, u64::MAX).unwrap();
    assert_eq!(lent.work, vec![0; lent.work.len()], "the working slice is all zeros");
    answer
}

/// The call is answered with the row number and appends exactly the given rows.
pub fn expect_appended(lent: &mut Lent, call: Call, row: u16, appended: &[Written]) {
    let before = lent.clone();
    let in_use = before.count as usize;
    let new_count = before.count + appended.len() as u64;
    let answer = make(lent, call);
    assert_eq!(answer, Answer::Appended { row, new_count }, "{call:?}");
    let mut expected = before.table;
    for (k, &(v, t, e)) in appended.iter().enumerate() {
        expected.var[in_use + k] = v;
        expected.then[in_use + k] = t;
        expected.els[in_use + k] = e;
    }
    assert_eq!(lent.table, expected, "{call:?}");
    assert_eq!(lent.count, new_count, "{call:?}");
}

/// The call is refused with the number, and nothing but the working slice is written.
pub fn expect_refused(lent: &Lent, call: Call, number: u32) {
    let mut after = lent.clone();
    assert_eq!(make(&mut after, call), Answer::Refused(number), "{call:?}");
    assert_eq!(after.table, lent.table, "{call:?}");
    assert_eq!(after.count, lent.count, "{call:?}");
    assert_eq!(after.assignment, lent.assignment, "{call:?}");
}

/// The call is refused with 7: rows and count in use stay, all free rows are zero.
pub fn expect_no_room(lent: &Lent, call: Call) {
    let mut after = lent.clone();
    assert_eq!(make(&mut after, call), Answer::Refused(7), "{call:?}");
    assert_eq!(after.count, lent.count, "{call:?}");
    let in_use = lent.count as usize;
    let slices = [
        (&lent.table.var, &after.table.var),
        (&lent.table.then, &after.table.then),
        (&lent.table.els, &after.table.els),
    ];
    for (before, after) in slices {
        assert_eq!(before[..in_use], after[..in_use], "{call:?}");
        assert_eq!(after[in_use..], vec![0; after.len() - in_use], "{call:?}");
    }
}
