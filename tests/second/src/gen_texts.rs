//! `second gen texts`: cases for the circuit call and the text call.

use std::io::{self, Write};

use crate::case::{Case, BUDGET};
use crate::circuit;
use crate::command::{Command, Rest, Spec};
use crate::corpus;
use crate::damage;
use crate::fixed;
use crate::rng::Rng;
use crate::shapes;
use crate::text::{self, Circuit};

/// Lends a pattern buffer of the given length with garbage in it.
fn lend_pattern(case: &mut Case, length: usize, rng: &mut Rng) {
    case.set(Command::Pattern(Spec::new(length, vec![], Rest::Garbage(rng.bits() >> 40))));
}

/// A room that makes verdict 2 likely, unlikely or just avoided, given the rows that are needed.
fn room_for(needed: usize, rng: &mut Rng) -> usize {
    match rng.below(40) {
        0 => 0,
        1 => rng.pick(&[4_096, 8_192]),
        2..=17 => needed,
        18..=24 => needed.saturating_sub(1),
        25..=27 => rng.below(needed + 1),
        _ => needed + rng.between(1, 20),
    }
    .min(8_192)
}

/// A circuit whose outputs all stay within the budget.
fn any_circuit(rng: &mut Rng) -> Circuit {
    loop {
        let shape = rng.pick(&[shapes::small_circuit, shapes::large_circuit]);
        let circuit = shape(rng);
        let within = |output| circuit::rows_without_limit(&circuit, output, BUDGET).is_some();
        if (0..circuit.outputs.len()).all(within) {
            return circuit;
        }
    }
}

/// A circuit call for one output, in a table of fitting or too small room.
fn ask(case: &mut Case, circuit: &Circuit, output: usize, rng: &mut Rng) {
    let needed = circuit::rows_without_limit(circuit, output, BUDGET).unwrap_or(0);
    let room = room_for(needed, rng);
    case.columns(&[], [room; 3], rng);
    case.work(rng);
    lend_pattern(case, circuit.inputs.len(), rng);
    case.circuit(output as u64);
}

/// An output number, a pattern length or both that the circuit does not have.
fn ask_wrongly(case: &mut Case, circuit: &Circuit, rng: &mut Rng) {
    let (inputs, outputs) = (circuit.inputs.len(), circuit.outputs.len() as u64);
    let wrong_outputs = [outputs, outputs + 1, 65_536, 1 << 32, u64::MAX];
    let wrong_lengths = [inputs + 1, inputs.saturating_sub(1), 0, 64, inputs + 65_536];
    let fault = rng.below(3);
    let length = if fault > 0 { rng.pick(&wrong_lengths) } else { inputs };
    let output = if fault < 2 { rng.pick(&wrong_outputs) } else { 0 };
    let room = rng.below(12);
    case.columns(&[], [room; 3], rng);
    case.work(rng);
    lend_pattern(case, length, rng);
    case.circuit(output);
}

/// A valid circuit, asked for some of its outputs. A later call may find in the table what an
/// earlier one left there.
fn valid(case: &mut Case, rng: &mut Rng) {
    let circuit = any_circuit(rng);
    case.set(Command::Bytes(text::print(&circuit).into_bytes()));
    if rng.chance(1, 3) {
        case.text();
    }
    for _ in 0..rng.between(1, 3) {
        if circuit.outputs.is_empty() || rng.chance(1, 8) {
            ask_wrongly(case, &circuit, rng);
            continue;
        }
        let output = rng.below(circuit.outputs.len());
        ask(case, &circuit, output, rng);
        if rng.chance(1, 2) {
            case.circuit(rng.below(circuit.outputs.len()) as u64);
        }
    }
}

/// Both calls for a text that may be anything.
fn ask_anyway(case: &mut Case, text: Vec<u8>, rng: &mut Rng) {
    let counts = text::read(&text).map_or((2, 1), |c| (c.inputs.len(), c.outputs.len()));
    case.set(Command::Bytes(text));
    case.text();
    let room = if rng.chance(1, 3) { rng.below(300) } else { rng.below(30) };
    case.columns(&[], [room; 3], rng);
    case.work(rng);
    lend_pattern(case, counts.0, rng);
    let output = rng.below(counts.1) as u64;
    case.circuit(output);
}

/// A text with some damage.
fn damaged(case: &mut Case, rng: &mut Rng) {
    let text = corpus::generated_text(rng);
    ask_anyway(case, text, rng);
}

/// A hand-chosen text with some damage more.
fn chosen(case: &mut Case, rng: &mut Rng) {
    let mut all = fixed::texts();
    let mut text = all.swap_remove(rng.below(all.len())).text;
    damage::once(&mut text, rng);
    ask_anyway(case, text, rng);
}

/// Table lengths out of range, before every fault of the text.
fn lengths(case: &mut Case, rng: &mut Rng) {
    let text = corpus::generated_text(rng);
    case.set(Command::Bytes(text));
    let room = rng.below(20);
    let mut lengths = [room; 3];
    match rng.below(4) {
        0 => lengths = [rng.pick(&[8_193, 9_000, 65_536 + room]); 3],
        1 => lengths[rng.below(3)] = rng.pick(&[8_192, 8_193, 65_536 + room]),
        _ => lengths[rng.below(3)] = room + 1,
    }
    if rng.chance(1, 4) {
        case.set(Command::Pad { length: 32_769, byte: b' ' });
    }
    case.columns(&[], lengths, rng);
    case.work(rng);
    let length = rng.below(4);
    lend_pattern(case, length, rng);
    let output = rng.below(3) as u64;
    case.circuit(output);
}

/// A text brought to a length at the limit by bytes that are not read.
fn padded(case: &mut Case, rng: &mut Rng) {
    let circuit = any_circuit(rng);
    case.set(Command::Bytes(text::print(&circuit).into_bytes()));
    let length = rng.pick(&[32_767, 32_768, 32_769, 32_770, 65_536, 65_600, 100_000]);
    let byte = rng.pick(b"\n 0x\0\xff");
    case.set(Command::Pad { length, byte });
    case.text();
    if circuit.outputs.is_empty() {
        ask_wrongly(case, &circuit, rng);
    } else {
        let output = rng.below(circuit.outputs.len());
        ask(case, &circuit, output, rng);
    }
}

/// The paper's printed run, with tables of 7, 8, 9 and 4,096 rows.
fn printed_run(case: &mut Case, rng: &mut Rng) {
    case.set(Command::Bytes(b"aag 4 2 0 2 2\n2\n4\n8\n6\n6 2 5\n8 6 4\n".to_vec()));
    case.text();
    for output in 0..2 {
        let room = rng.pick(&[6, 7, 7, 8, 8, 8, 9, 9, 9, 10]);
        case.columns(&[], [room; 3], rng);
        case.work(rng);
        lend_pattern(case, 2, rng);
        case.circuit(output);
    }
}

/// Any kind of case but the hand-chosen texts as they are.
fn any_kind(rng: &mut Rng) -> (&'static str, fn(&mut Case, &mut Rng)) {
    match rng.below(100) {
        0..=49 => ("valid", valid),
        50..=86 => ("damaged", damaged),
        87..=91 => ("chosen", chosen),
        92..=95 => ("lengths", lengths),
        96..=97 => ("padded", padded),
        _ => ("printed_run", printed_run),
    }
}

/// Writes `count` cases. Every fourth one is a hand-chosen text, as long as there are any.
pub fn write(seed: u64, count: u64, out: &mut impl Write) -> io::Result<()> {
    let mut seeds = Rng::new(seed);
    let mut fixed = fixed::texts().into_iter();
    for index in 0..count {
        let mut rng = Rng::new(seeds.bits());
        let next = if index % 4 == 0 { fixed.next() } else { None };
        let case = if let Some(fixed) = next {
            let mut case = Case::new(format!("{index}-fixed"));
            ask_anyway(&mut case, fixed.text, &mut rng);
            case
        } else {
            let (name, fill) = any_kind(&mut rng);
            let mut case = Case::new(format!("{index}-{name}"));
            fill(&mut case, &mut rng);
            case
        };
        case.write(out)?;
    }
    Ok(())
}
