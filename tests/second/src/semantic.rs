//! A second check of every answer, by plain values and not by the written steps.
//!
//! Up to ten ring variables all assignments are taken, above that some random ones; a circuit with
//! at most twelve inputs is evaluated at all patterns. A failed check is an error of this program's
//! own reading, so it panics.

use std::collections::HashSet;

use crate::calls::{self, Answer, Call};
use crate::circuit;
use crate::lent::Lent;
use crate::rng::Rng;
use crate::steps::{Number, Row};
use crate::text::{self, variable_of, Circuit};

/// Up to this many ring variables every assignment is taken.
const ALL_ASSIGNMENTS: usize = 10;
/// Up to this many inputs every pattern is taken.
const ALL_PATTERNS: usize = 12;
/// Words of 64 random assignments each, where not all are taken.
const RANDOM_WORDS: usize = 4;
/// How many random patterns are taken, where not all are.
const RANDOM_PATTERNS: usize = 100;
/// Steps allowed for finding how many rows unlimited room would take.
const BUDGET: u64 = 200_000;

/// One bit for each assignment.
type Bits = Vec<u64>;

/// Assignments, as a column of bits for each variable.
struct Points {
    columns: Vec<Bits>,
    words: usize,
    /// Every assignment is there, in the order that reads x_0 first.
    all: bool,
}

impl Points {
    fn new(n: usize) -> Points {
        if n <= ALL_ASSIGNMENTS {
            Points::all(n)
        } else {
            Points::random(n)
        }
    }

    fn all(n: usize) -> Points {
        let words = (1usize << n).div_ceil(64);
        // Below six variables the assignments repeat to fill the word.
        let bit = |v: usize, point: usize| (point >> (n - 1 - v)) as u64 & 1;
        let word = |v: usize, w: usize| (0..64).fold(0, |bits, i| bits | bit(v, 64 * w + i) << i);
        let columns = (0..n).map(|v| (0..words).map(|w| word(v, w)).collect()).collect();
        Points { columns, words, all: true }
    }

    fn random(n: usize) -> Points {
        let mut rng = Rng::new(n as u64);
        let columns = (0..n).map(|_| (0..RANDOM_WORDS).map(|_| rng.bits()).collect()).collect();
        Points { columns, words: RANDOM_WORDS, all: false }
    }

    /// The values of every number at these points. Where an equation x_i + t = 0 is given, x_i
    /// takes the value of t, so that all points satisfy the equations.
    fn values(&self, rows: &[Row], equations: &[(u32, Number)]) -> Vec<Bits> {
        let mut columns = self.columns.clone();
        let mut values = vec![vec![0; self.words]; rows.len() + 2];
        values[1] = vec![u64::MAX; self.words];
        let mut order: Vec<usize> = (0..rows.len()).collect();
        order.sort_by_key(|&k| std::cmp::Reverse(rows[k].var));
        let mut settled = None;
        for k in order {
            let Row { var, then, els } = rows[k];
            if settled != Some(var) {
                settled = Some(var);
                if let Some(&(_, tail)) = equations.iter().find(|&&(lead, _)| lead == var) {
                    columns[var as usize] = values[tail as usize].clone();
                }
            }
            let parts = values[then as usize].iter().zip(&values[els as usize]);
            let value = columns[var as usize].iter().zip(parts).map(|(x, (t, e))| (x & t) ^ e);
            values[k + 2] = value.collect();
        }
        values
    }

    /// The index of the point where one variable is flipped.
    fn flipped(&self, point: usize, var: u32) -> usize {
        point ^ (1 << (self.columns.len() - 1 - var as usize))
    }
}

fn bit(bits: &Bits, point: usize) -> u8 {
    (bits[point / 64] >> (point % 64) & 1) as u8
}

fn require(holds: bool, what: &str, call: Call) {
    assert!(holds, "semantic check failed: {what}, in {call:?}");
}

/// The equations of a system, by following then-branches.
fn equations(rows: &[Row], system: Number) -> Vec<(u32, Number)> {
    let mut list = Vec::new();
    let mut at = system;
    while at != 1 {
        let row = rows[at as usize - 2];
        list.push((row.var, row.els));
        at = row.then;
    }
    list
}

/// The variables a polynomial depends on: those of the rows its number leads to.
fn variables(rows: &[Row], f: Number) -> HashSet<u32> {
    let mut reached = HashSet::from([f]);
    let mut found = HashSet::new();
    for (k, row) in rows.iter().enumerate().rev() {
        if reached.contains(&(k as Number + 2)) {
            found.insert(row.var);
            reached.extend([row.then, row.els]);
        }
    }
    found
}

/// Checks a call on a table, given what was lent before and after it.
pub fn check_call(before: &Lent, after: &Lent, call: Call, answer: Answer) {
    require(after.work.iter().all(|&word| word == 0), "working slice all zeros", call);
    match answer {
        Answer::Refused(7) => check_no_room(before, after, call),
        Answer::Refused(_) => check_untouched(before, after, call),
        Answer::Appended { row, new_count } => check_appended(before, after, call, row, new_count),
        Answer::Value(value) => {
            check_untouched(before, after, call);
            check_value(before, call, value);
        }
        Answer::One => {
            require(before.table == after.table, "rows stay", call);
            check_one(after, call);
        }
    }
}

/// "Refusals 1 to 6 and 8 write nothing but the working slice."
fn check_untouched(before: &Lent, after: &Lent, call: Call) {
    let same = before.table == after.table
        && before.count == after.count
        && before.assignment == after.assignment;
    require(same, "nothing written", call);
}

/// Room runs out exactly when unlimited room would end with more than R rows.
fn check_no_room(before: &Lent, after: &Lent, call: Call) {
    let room = before.table.var.len();
    if let Some(rows) = calls::rows_without_limit(before, call, BUDGET) {
        require(rows > room, "the steps need more than R rows", call);
    }
    let in_use = before.count as usize;
    require(before.table.rows(in_use) == after.table.rows(in_use), "rows in use stay", call);
    let zero = Row { var: 0, then: 0, els: 0 };
    let free = &after.table.rows(room)[in_use..];
    require(free.iter().all(|&row| row == zero), "free rows are zero", call);
}

fn check_appended(before: &Lent, after: &Lent, call: Call, row: u16, new_count: u64) {
    let (old, new) = (before.count as usize, new_count as usize);
    let room = before.table.var.len();
    let rows = after.table.rows(new);
    require(old <= new && new <= room && after.count == new_count, "count in range", call);
    require(rows[..old] == before.table.rows(old)[..], "rows in use stay", call);
    require(
        after.table.rows(room)[new..] == before.table.rows(room)[new..],
        "free rows stay",
        call,
    );
    require(calls::is_sound(after.n, &rows), "the table stays sound", call);
    let points = Points::new(after.n as usize);
    check_distinct(&points, &rows, call);
    check_result(&points, &rows, call, row.into());
}

/// "In a sound table two numbers are equal exactly when their polynomials agree at every
/// assignment."
fn check_distinct(points: &Points, rows: &[Row], call: Call) {
    if points.all {
        let values = points.values(rows, &[]);
        let distinct: HashSet<&Bits> = values.iter().collect();
        require(distinct.len() == values.len(), "different numbers differ somewhere", call);
    }
}

/// The polynomial of the row number that a call returned.
fn check_result(points: &Points, rows: &[Row], call: Call, row: Number) {
    let values = points.values(rows, &[]);
    let value = |f: u16| &values[usize::from(f)];
    let result = &values[row as usize];
    let combined = |f: u16, g: u16, with: fn(&u64, &u64) -> u64| -> Bits {
        value(f).iter().zip(value(g)).map(|(a, b)| with(a, b)).collect()
    };
    match call {
        Call::Variable { v } => {
            require(*result == points.columns[usize::from(v)], "the variable", call);
        }
        Call::Sum { f, g } => require(*result == combined(f, g, |a, b| a ^ b), "the sum", call),
        Call::Product { f, g } => {
            require(*result == combined(f, g, |a, b| a & b), "the product", call);
        }
        Call::Equation { lead, system, tail } => {
            let mut expected = equations(rows, system.into());
            expected.insert(0, (lead.into(), tail.into()));
            require(equations(rows, row) == expected, "the system with one equation more", call);
        }
        Call::NormalForm { p, system } => {
            check_normal_form(points, rows, call, (p.into(), system.into(), row));
        }
        Call::Value { .. } | Call::One { .. } => unreachable!("not a call that appends"),
    }
}

/// The normal form agrees with p wherever the system's equations hold, and no lead remains.
fn check_normal_form(
    points: &Points,
    rows: &[Row],
    call: Call,
    (p, system, form): (Number, Number, Number),
) {
    let equations = equations(rows, system);
    let on_system = points.values(rows, &equations);
    require(on_system[p as usize] == on_system[form as usize], "the normal form's values", call);
    let found = variables(rows, form);
    let anywhere = points.values(rows, &[]);
    for &(lead, _) in &equations {
        require(!found.contains(&lead), "no lead remains", call);
        if points.all {
            let form = &anywhere[form as usize];
            let depends = |point| bit(form, point) != bit(form, points.flipped(point, lead));
            let mut all = 0..1usize << points.columns.len();
            require(!all.any(depends), "no value depends on a lead", call);
        }
    }
}

/// The value of a number at an assignment, by monomials: each is a path that takes a then-branch
/// for every variable in it.
fn value_by_monomials(rows: &[Row], f: Number, assignment: &[u8]) -> u8 {
    match f {
        0 => 0,
        1 => 1,
        _ => {
            let row = rows[f as usize - 2];
            let without = value_by_monomials(rows, row.els, assignment);
            if assignment[row.var as usize] == 0 {
                return without;
            }
            without ^ value_by_monomials(rows, row.then, assignment)
        }
    }
}

fn check_value(lent: &Lent, call: Call, value: u8) {
    let Call::Value { f } = call else { unreachable!("not the value call") };
    let rows = lent.table.rows(lent.count as usize);
    if lent.n as usize <= ALL_ASSIGNMENTS {
        let expected = value_by_monomials(&rows, f.into(), &lent.assignment);
        require(value == expected, "the value", call);
    }
}

/// The assignment is a one, and the least where all are taken.
fn check_one(after: &Lent, call: Call) {
    let Call::One { f } = call else { unreachable!("not the call for a one") };
    let n = after.n as usize;
    let rows = after.table.rows(after.count as usize);
    require(after.assignment.len() == n, "as many bytes as variables", call);
    let points = Points::new(n);
    if points.all {
        let values = points.values(&rows, &[]);
        let least = (0..1usize << n).find(|&point| bit(&values[usize::from(f)], point) == 1);
        let written = after.assignment.iter().fold(0, |index, &x| 2 * index + usize::from(x));
        require(least == Some(written), "the least one", call);
    } else {
        let fixed = fixed_points(&after.assignment);
        let values = fixed.values(&rows, &[]);
        require(bit(&values[usize::from(f)], 0) == 1, "a one", call);
    }
}

/// Points that are all the one given assignment.
fn fixed_points(assignment: &[u8]) -> Points {
    let column = |&x: &u8| vec![if x == 1 { u64::MAX } else { 0 }];
    Points { columns: assignment.iter().map(column).collect(), words: 1, all: false }
}

/// The value of an output when the inputs, in file order, have the given values.
fn simulate(circuit: &Circuit, output: usize, pattern: &[u8]) -> u8 {
    let mut values = vec![0; usize::from(circuit.max) + 1];
    for (&input, &value) in circuit.inputs.iter().zip(pattern) {
        values[usize::from(variable_of(input))] = value;
    }
    for gate in &circuit.gates {
        let both = literal_value(&values, gate.right0) & literal_value(&values, gate.right1);
        values[usize::from(variable_of(gate.left))] = both;
    }
    literal_value(&values, circuit.outputs[output])
}

/// Variable 0 has the value 0, so literals 0 and 1 are the constants.
fn literal_value(values: &[u8], literal: u16) -> u8 {
    values[usize::from(variable_of(literal))] ^ (literal % 2) as u8
}

/// The least pattern where the output is 1: it "reads the highest-numbered input variable first".
fn least_pattern(circuit: &Circuit, output: usize) -> Option<Vec<u8>> {
    let mut places: Vec<usize> = (0..circuit.inputs.len()).collect();
    places.sort_by_key(|&place| std::cmp::Reverse(circuit.inputs[place]));
    let pattern = |index: usize| {
        let mut bytes = vec![0; places.len()];
        for (position, &place) in places.iter().enumerate() {
            bytes[place] = (index >> (places.len() - 1 - position) & 1) as u8;
        }
        bytes
    };
    (0..1usize << places.len()).map(pattern).find(|bytes| simulate(circuit, output, bytes) == 1)
}

/// Checks the circuit call, given what was lent before and after it.
pub fn check_circuit(before: &Lent, after: &Lent, output: u64, answer: circuit::Answer) {
    assert!(after.work.iter().all(|&word| word == 0), "semantic check failed: working slice");
    if let circuit::Answer::Refused(number) = answer {
        let same = before.table == after.table && before.pattern == after.pattern;
        assert!(same, "semantic check failed: refusal {number} wrote");
        return;
    }
    let circuit = text::read(&before.text).expect("a verdict needs an accepted text");
    let output = output as usize;
    match answer {
        circuit::Answer::Zero { rows } => {
            check_rows(before, after, &circuit, output, rows);
            assert_eq!(before.pattern, after.pattern, "semantic check failed: pattern written");
            check_verdict_zero(&circuit, output);
        }
        circuit::Answer::One { rows } => {
            check_rows(before, after, &circuit, output, rows);
            check_verdict_one(&circuit, output, &after.pattern);
        }
        circuit::Answer::NoRoom => check_verdict_two(before, after, &circuit, output),
        circuit::Answer::Refused(_) => unreachable!("handled above"),
    }
}

fn check_verdict_zero(circuit: &Circuit, output: usize) {
    let inputs = circuit.inputs.len();
    if inputs <= ALL_PATTERNS {
        assert_eq!(least_pattern(circuit, output), None, "semantic check failed: verdict 0");
        return;
    }
    let mut rng = Rng::new(inputs as u64);
    for _ in 0..RANDOM_PATTERNS {
        let pattern: Vec<u8> = (0..inputs).map(|_| rng.below(2) as u8).collect();
        assert_eq!(simulate(circuit, output, &pattern), 0, "semantic check failed: verdict 0");
    }
}

fn check_verdict_one(circuit: &Circuit, output: usize, pattern: &[u8]) {
    if circuit.inputs.len() <= ALL_PATTERNS {
        let least = least_pattern(circuit, output);
        assert_eq!(least.as_deref(), Some(pattern), "semantic check failed: least pattern");
    } else {
        assert_eq!(simulate(circuit, output, pattern), 1, "semantic check failed: pattern");
    }
}

/// Verdict 2: unlimited room would end with more than R rows, and all rows are zero.
fn check_verdict_two(before: &Lent, after: &Lent, circuit: &Circuit, output: usize) {
    let room = after.table.var.len();
    if let Some(rows) = circuit::rows_without_limit(circuit, output, BUDGET) {
        assert!(rows > room, "semantic check failed: verdict 2 with room for {rows} rows");
    }
    let zero = Row { var: 0, then: 0, els: 0 };
    let all_zero = after.table.rows(room).iter().all(|&row| row == zero);
    assert!(all_zero, "semantic check failed: rows left by verdict 2");
    assert_eq!(before.pattern, after.pattern, "semantic check failed: pattern written");
}

/// Verdicts 0 and 1: the rows made are a sound table, and the others are left as they were.
fn check_rows(before: &Lent, after: &Lent, circuit: &Circuit, output: usize, count: usize) {
    let room = after.table.var.len();
    assert!(count <= room, "semantic check failed: count of rows");
    let (old, new) = (before.table.rows(room), after.table.rows(room));
    assert_eq!(old[count..], new[count..], "semantic check failed: free rows stay");
    let sound = calls::is_sound(circuit.max.into(), &new[..count]);
    assert!(sound, "semantic check failed: rows of output {output} are not sound");
}

/// Checks an accepted text: its numbers, printed again, are the text up to the last gate line.
pub fn check_text(text: &[u8]) {
    if let Ok(circuit) = text::read(text) {
        let printed = text::print(&circuit);
        assert!(text.starts_with(printed.as_bytes()), "semantic check failed: accepted text");
    }
}
