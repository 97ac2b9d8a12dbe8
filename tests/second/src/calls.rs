//! The calls on a table: what each answers and leaves in every lent slice.

use std::collections::HashSet;

use crate::lent::Lent;
use crate::steps::{Number, Row, Step, Steps, Stop};

/// "N ring variables, 0 ≤ N ≤ 1,024"
pub const RING_LIMIT: u64 = 1_024;
/// A call on a table with its operands.
#[derive(Clone, Copy, Debug, PartialEq, Eq)]
pub enum Call {
    Variable { v: u16 },
    Sum { f: u16, g: u16 },
    Product { f: u16, g: u16 },
    Value { f: u16 },
    One { f: u16 },
    Equation { lead: u16, system: u16, tail: u16 },
    NormalForm { p: u16, system: u16 },
}

/// What a call on a table answers.
#[derive(Clone, Copy, Debug, PartialEq, Eq)]
pub enum Answer {
    /// "A call that may append returns the row number and the new count of rows in use."
    Appended {
        row: u16,
        new_count: u64,
    },
    Value(u8),
    /// The assignment is written in its lent slice.
    One,
    /// "A refusal returns its number alone."
    Refused(u32),
}

impl Call {
    fn numbers(self) -> Vec<u16> {
        match self {
            Call::Variable { .. } => vec![],
            Call::Sum { f, g } | Call::Product { f, g } => vec![f, g],
            Call::Value { f } | Call::One { f } => vec![f],
            Call::Equation { system, tail, .. } => vec![system, tail],
            Call::NormalForm { p, system } => vec![p, system],
        }
    }

    pub fn takes_assignment(self) -> bool {
        matches!(self, Call::Value { .. } | Call::One { .. })
    }

    pub fn appends(self) -> bool {
        !self.takes_assignment()
    }
}

/// 1: "N, lengths or count out of range; assignment length not N"
fn out_of_range(lent: &Lent, call: Call) -> bool {
    lent.n > RING_LIMIT
        || !lent.table.lengths_in_range()
        || lent.count > lent.table.var.len() as u64
        || (call.takes_assignment() && lent.assignment.len() as u64 != lent.n)
}

/// "A table is sound when each row in use has v < N, t and e below its own number, t not 0, any
/// row named by t or e has a greater variable index than v, and no two rows are alike."
pub fn is_sound(n: u64, rows: &[Row]) -> bool {
    let mut seen = HashSet::new();
    rows.iter().enumerate().all(|(k, row)| {
        let own_number = k as Number + 2;
        let below_own = row.then < own_number && row.els < own_number;
        let greater = |f: Number| f < 2 || rows[f as usize - 2].var > row.var;
        u64::from(row.var) < n
            && below_own
            && row.then != 0
            && greater(row.then)
            && greater(row.els)
            && seen.insert(*row)
    })
}

/// 2: "table not sound"
fn not_sound(lent: &Lent, _: Call) -> bool {
    !is_sound(lent.n, &lent.table.rows(lent.count as usize))
}

/// 3: "a number isn't 0, 1 or a row in use"
fn number_not_in_use(lent: &Lent, call: Call) -> bool {
    call.numbers().iter().any(|&f| u64::from(f) >= lent.count + 2)
}

/// 8: "an assignment byte isn't 0 or 1 (value only)"
fn byte_not_bit(lent: &Lent, call: Call) -> bool {
    matches!(call, Call::Value { .. }) && lent.assignment.iter().any(|&byte| byte > 1)
}

/// 4: "system number is 0"
fn system_is_zero(_: &Lent, call: Call) -> bool {
    match call {
        Call::Equation { system, .. } | Call::NormalForm { system, .. } => system == 0,
        _ => false,
    }
}

/// 5: "lead or tail out of order, or a lead or asked variable not below N"
fn out_of_order(lent: &Lent, call: Call) -> bool {
    match call {
        Call::Variable { v } => u64::from(v) >= lent.n,
        Call::Equation { lead, system, tail } => {
            let root = |f: u16| match f {
                0 | 1 => lent.n,
                row => u64::from(lent.table.var[usize::from(row) - 2]),
            };
            // "Adding an equation needs i < N, and the roots of F and of t to be greater in index
            // than i."
            let lead = u64::from(lead);
            lead >= lent.n || root(system) <= lead || root(tail) <= lead
        }
        _ => false,
    }
}

/// 6: "find a one of 0"
fn one_of_zero(_: &Lent, call: Call) -> bool {
    call == Call::One { f: 0 }
}

/// Whether a refusal applies; those shown earlier do not.
type Applies = fn(&Lent, Call) -> bool;

/// "Calls on a table check in the order shown."
fn refusal(lent: &Lent, call: Call) -> Option<u32> {
    let shown: [(u32, Applies); 7] = [
        (1, out_of_range),
        (2, not_sound),
        (3, number_not_in_use),
        (8, byte_not_bit),
        (4, system_is_zero),
        (5, out_of_order),
        (6, one_of_zero),
    ];
    shown.iter().find(|(_, applies)| applies(lent, call)).map(|&(number, _)| number)
}

/// The steps of a call that may append.
fn append(steps: &mut Steps, call: Call) -> Step<Number> {
    match call {
        // "the variable x_v, made as (v, 1, 0)"
        Call::Variable { v } => steps.make(v.into(), 1, 0),
        Call::Sum { f, g } => steps.sum(f.into(), g.into()),
        Call::Product { f, g } => steps.product(f.into(), g.into()),
        // "Row (i, F, t) is the system F with the equation x_i + t = 0 added."
        Call::Equation { lead, system, tail } => {
            steps.make(lead.into(), system.into(), tail.into())
        }
        Call::NormalForm { p, system } => steps.normal_form(p.into(), system.into()),
        Call::Value { .. } | Call::One { .. } => unreachable!("not a call that appends"),
    }
}

/// The rows in use of a table that is in range, with the given room.
fn steps_of(lent: &Lent, room: usize, budget: u64) -> Steps {
    Steps { n: lent.n as u32, rows: lent.table.rows(lent.count as usize), room, budget }
}

/// The call went over its budget of steps; the lent slices are then of no use.
#[derive(Debug, PartialEq, Eq)]
pub struct OverBudget;

/// The call, with every lent slice left as the paper says.
pub fn answer(lent: &mut Lent, call: Call, budget: u64) -> Result<Answer, OverBudget> {
    // "It is all zeros after every call, refused or not."
    lent.work.fill(0);
    if let Some(number) = refusal(lent, call) {
        return Ok(Answer::Refused(number));
    }
    let mut steps = steps_of(lent, lent.table.var.len(), budget);
    match call {
        Call::Value { f } => Ok(Answer::Value(steps.value(f.into(), &lent.assignment))),
        Call::One { f } => {
            // "finding a one writes the whole assignment"
            lent.assignment = steps.find_one(f.into());
            Ok(Answer::One)
        }
        _ => appended(lent, &mut steps, call),
    }
}

/// A call that may append, when nothing but room can still stop it.
fn appended(lent: &mut Lent, steps: &mut Steps, call: Call) -> Result<Answer, OverBudget> {
    let in_use = lent.count as usize;
    match append(steps, call) {
        Ok(row) => {
            // "Success changes no row in use at entry and no row free at exit"
            lent.table.write(in_use, &steps.rows[in_use..]);
            lent.count = steps.rows.len() as u64;
            Ok(Answer::Appended { row: row as u16, new_count: lent.count })
        }
        Err(Stop::NoRoom) => {
            // "Refusal 7 keeps the rows and count in use and zeros all free rows."
            lent.table.zero_from(in_use);
            Ok(Answer::Refused(7))
        }
        Err(Stop::OverBudget) => Err(OverBudget),
    }
}

/// How many rows the call's steps would end with if room were unlimited; `None` where the call
/// refuses before its steps, does not append, or goes over its budget.
pub fn rows_without_limit(lent: &Lent, call: Call, budget: u64) -> Option<usize> {
    if !call.appends() || refusal(lent, call).is_some() {
        return None;
    }
    let mut steps = steps_of(lent, usize::MAX, budget);
    append(&mut steps, call).ok()?;
    Some(steps.rows.len())
}
