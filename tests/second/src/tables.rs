//! Random tables for the generator: sound ones of several shapes, and spoilt ones.

use crate::rng::Rng;
use crate::steps::Row;

fn root(n: u64, rows: &[Row], f: u32) -> u64 {
    if f < 2 {
        n
    } else {
        rows[f as usize - 2].var.into()
    }
}

/// A number whose root is greater in index than `var`; a constant where no row is found so.
fn number_below(n: u64, rows: &[Row], var: u64, tries: usize, rng: &mut Rng) -> u32 {
    for _ in 0..tries {
        let f = rng.below(rows.len() + 2) as u32;
        if root(n, rows, f) > var {
            return f;
        }
    }
    rng.below(2) as u32
}

/// Up to `length` rows of a sound table, the first ones of the last variables. The more tries, the
/// fewer parts are constants.
pub fn layered_rows(n: u64, length: usize, tries: usize, rng: &mut Rng) -> Vec<Row> {
    let mut rows: Vec<Row> = Vec::new();
    for at in 0..length {
        let reached = (n as usize * (at + 1)).div_ceil(length);
        let Some(var) = n.checked_sub(1 + rng.below(reached) as u64) else { break };
        let then = number_below(n, &rows, var, tries, rng);
        let els = number_below(n, &rows, var, tries, rng);
        let row = Row { var: var as u32, then, els };
        if then != 0 && !rows.contains(&row) {
            rows.push(row);
        }
    }
    rows
}

/// Up to `length` rows of a sound table.
pub fn sound_rows(n: u64, length: usize, rng: &mut Rng) -> Vec<Row> {
    let tries = rng.below(6);
    layered_rows(n, length, tries, rng)
}

/// Appends rows x·a + b and x·b + a for two rows a and b of one root, and gives their numbers. Their
/// product takes both a·b and b·a, which append different rows.
pub fn mirror_rows(n: u64, rows: &mut Vec<Row>, rng: &mut Rng) -> Option<(u16, u16)> {
    for _ in 0..30 {
        let (a, b) = (rng.below(rows.len() + 2) as u32, rng.below(rows.len() + 2) as u32);
        let (root_a, root_b) = (root(n, rows, a), root(n, rows, b));
        if a < 2 || a == b || root_a != root_b || root_a == 0 {
            continue;
        }
        let var = rng.below(root_a as usize) as u32;
        let pair = [Row { var, then: a, els: b }, Row { var, then: b, els: a }];
        if !rows.contains(&pair[0]) && !rows.contains(&pair[1]) {
            rows.extend(pair);
            return Some((rows.len() as u16, rows.len() as u16 + 1));
        }
    }
    None
}

/// Appends a row of the given variable whose parts are mostly not constants, and gives its number,
/// if it is a row of a sound table.
fn push_row(
    n: u64,
    rows: &mut Vec<Row>,
    var: u64,
    then: Option<u32>,
    rng: &mut Rng,
) -> Option<u16> {
    let then = then.unwrap_or_else(|| number_below(n, rows, var, 9, rng));
    let els = number_below(n, rows, var, 9, rng);
    let row = Row { var: var as u32, then, els };
    if then == 0 || rows.contains(&row) {
        return None;
    }
    rows.push(row);
    Some(rows.len() as u16 + 1)
}

/// Appends rows for a system of equations with falling leads, and for polynomials with the same
/// roots; gives pairs of such a polynomial and the system up to its root. The last variables are
/// no leads.
pub fn system_rows(n: u64, rows: &mut Vec<Row>, rng: &mut Rng) -> Vec<(u16, u16)> {
    let mut system = 1;
    let mut pairs = vec![(1, 1)];
    for lead in (0..n.saturating_sub(3)).rev() {
        if rng.chance(2, 3) {
            system = push_row(n, rows, lead, Some(system.into()), rng).unwrap_or(system);
            pairs.extend(push_row(n, rows, lead, None, rng).map(|p| (p, system)));
        }
    }
    pairs
}

/// Rows with one number for each variable from the last to the first, each built on the one before.
pub fn chain(n: u64, length: usize, step: fn(u32) -> (u32, u32)) -> Vec<Row> {
    let mut last = 1;
    let mut rows = Vec::new();
    for k in 0..length {
        let (then, els) = step(last);
        rows.push(Row { var: (n - 1) as u32 - k as u32, then, els });
        last = rows.len() as u32 + 1;
    }
    rows
}

/// The rows of all variables and of the system of all x_i + x_(i+1); gives them with the numbers of
/// x_0 and of the system.
pub fn linked_rows(n: u32) -> (Vec<Row>, u16, u16) {
    let mut rows = vec![Row { var: n - 1, then: 1, els: 0 }];
    let (mut variable, mut system) = (2, 1);
    for lead in (0..n - 1).rev() {
        rows.push(Row { var: lead, then: 1, els: 0 });
        rows.push(Row { var: lead, then: system, els: variable });
        (variable, system) = (rows.len() as u32, rows.len() as u32 + 1);
    }
    (rows, variable as u16, system as u16)
}

/// Breaks one rule of soundness in one row.
pub fn spoil(rows: &mut Vec<Row>, n: u64, rng: &mut Rng) {
    if rows.is_empty() {
        rows.push(Row { var: rng.below(4) as u32, then: rng.below(3) as u32, els: 0 });
        return;
    }
    let k = rng.below(rows.len());
    let own = k as u32 + 2;
    match rng.below(8) {
        0 => rows[k].var = rng.pick(&[n as u32, n as u32 + 1, 65_535]),
        1 => rows[k].then = rng.pick(&[own, own + 1, rows.len() as u32 + 2, 65_535]),
        2 => rows[k].els = rng.pick(&[own, own + 1, rows.len() as u32 + 2, 65_535]),
        3 => rows[k].then = 0,
        4 => rows[k].then = rng.below(own as usize) as u32,
        5 => rows[k].els = rng.below(own as usize) as u32,
        6 => rows[k].var = rng.below(n as usize) as u32,
        _ => {
            let copy = rows[k];
            rows.push(copy);
        }
    }
}
