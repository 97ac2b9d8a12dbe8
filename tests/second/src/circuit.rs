//! The circuit call and the text call.

use crate::calls::OverBudget;
use crate::lent::Lent;
use crate::steps::{Number, Step, Steps, Stop};
use crate::text::{self, variable_of, Circuit};

/// What the circuit call answers.
#[derive(Clone, Copy, Debug, PartialEq, Eq)]
pub enum Answer {
    /// Verdict 0, with the count of rows made.
    Zero {
        rows: usize,
    },
    /// Verdict 1, with the count of rows made; the pattern is in its lent slice.
    One {
        rows: usize,
    },
    /// Verdict 2: "carries no count".
    NoRoom,
    Refused(u32),
}

/// The checks in the paper's order: "1 (table lengths), 9, the header (10, then 11), then line by
/// line ... then 14, 15".
fn check(lent: &Lent, output: u64) -> Result<Circuit, u32> {
    if !lent.table.lengths_in_range() {
        return Err(1);
    }
    let circuit = text::read(&lent.text).map_err(text::TextRefusal::number)?;
    if output >= circuit.outputs.len() as u64 {
        return Err(14);
    }
    if lent.pattern.len() != circuit.inputs.len() {
        return Err(15);
    }
    Ok(circuit)
}

/// "Variable v becomes ring variable M - v, N = M."
fn ring_variable(circuit: &Circuit, literal: u16) -> u32 {
    u32::from(circuit.max - variable_of(literal))
}

/// "Literals 0 and 1 are the numbers 0 and 1 and make no row. For v of at least 1, literal 2v is
/// made as (M-v, 1, 0), 2v+1 as (M-v, 1, 1)."
fn literal(steps: &mut Steps, circuit: &Circuit, literal: u16) -> Step<Number> {
    match literal {
        0 => Ok(0),
        1 => Ok(1),
        _ => steps.make(ring_variable(circuit, literal), 1, u32::from(literal % 2)),
    }
}

/// "For each gate: right0, right1, their product, then the equation is added. For an output: its
/// literal, then the normal form by the whole system".
fn output_form(steps: &mut Steps, circuit: &Circuit, output: u16) -> Step<Number> {
    let mut system = 1;
    for gate in &circuit.gates {
        let right0 = literal(steps, circuit, gate.right0)?;
        let right1 = literal(steps, circuit, gate.right1)?;
        let product = steps.product(right0, right1)?;
        system = steps.make(ring_variable(circuit, gate.left), system, product)?;
    }
    let asked = literal(steps, circuit, output)?;
    steps.normal_form(asked, system)
}

/// "Every output starts from an empty table".
fn empty_table(circuit: &Circuit, room: usize, budget: u64) -> Steps {
    Steps { n: u32::from(circuit.max), rows: Vec::new(), room, budget }
}

/// "one byte for each input in file order"
fn pattern_of(circuit: &Circuit, assignment: &[u8]) -> Vec<u8> {
    let value = |&input: &u16| assignment[ring_variable(circuit, input) as usize];
    circuit.inputs.iter().map(value).collect()
}

/// The circuit call, with every lent slice left as the paper says.
pub fn answer(lent: &mut Lent, output: u64, budget: u64) -> Result<Answer, OverBudget> {
    // "It is all zeros after every call, refused or not."
    lent.work.fill(0);
    let circuit = match check(lent, output) {
        Ok(circuit) => circuit,
        // "Refusals touch neither rows nor pattern."
        Err(number) => return Ok(Answer::Refused(number)),
    };
    let mut steps = empty_table(&circuit, lent.table.var.len(), budget);
    match output_form(&mut steps, &circuit, circuit.outputs[output as usize]) {
        Ok(form) => {
            // "which stand from row 0 on, and leaves the rest untouched"
            lent.table.write(0, &steps.rows);
            let rows = steps.rows.len();
            if form == 0 {
                return Ok(Answer::Zero { rows });
            }
            // "Only verdict 1 writes the pattern".
            lent.pattern = pattern_of(&circuit, &steps.find_one(form));
            Ok(Answer::One { rows })
        }
        Err(Stop::NoRoom) => {
            // "verdict 2 (room ran out) ... leaves all rows zero"
            lent.table.zero_from(0);
            Ok(Answer::NoRoom)
        }
        Err(Stop::OverBudget) => Err(OverBudget),
    }
}

/// How many rows the steps for an output end with if room is unlimited; `None` over the budget.
pub fn rows_without_limit(circuit: &Circuit, output: usize, budget: u64) -> Option<usize> {
    let mut steps = empty_table(circuit, usize::MAX, budget);
    output_form(&mut steps, circuit, circuit.outputs[output]).ok()?;
    Some(steps.rows.len())
}

/// The text call: "the same checks from 9 to the output literals, and returns I and O".
pub fn text_answer(text: &[u8]) -> Result<(usize, usize), u32> {
    let circuit = text::read(text).map_err(text::TextRefusal::number)?;
    Ok((circuit.inputs.len(), circuit.outputs.len()))
}
