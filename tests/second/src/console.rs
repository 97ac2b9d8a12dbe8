//! `second answer`: prints exactly what the console must print.

use std::fmt::Write as _;
use std::io::{self, BufRead, Write};

use crate::calls::{self, Answer, Call};
use crate::circuit;
use crate::command::Command;
use crate::lent::Lent;
use crate::semantic;

/// Above this many elements a slice is printed as a hash and its first elements.
const PRINTED_WHOLE: usize = 4_096;
/// How many elements stand after the hash.
const PRINTED_FIRST: usize = 64;
/// What out-parameters hold before a call, in as many bytes as they have.
const UNWRITTEN: u64 = 0xA5A5_A5A5;

/// FNV-1a, 64 bits.
fn hash(bytes: impl Iterator<Item = u8>) -> u64 {
    bytes.fold(0xCBF2_9CE4_8422_2325, |hash, byte| {
        (hash ^ u64::from(byte)).wrapping_mul(0x0000_0100_0000_01B3)
    })
}

/// A line with a slice: its name, its length and its elements.
fn slice_line<T: Copy + Into<u64>>(out: &mut String, name: &str, slice: &[T]) {
    let _ = write!(out, "{name} {}", slice.len());
    let mut shown = slice;
    if slice.len() > PRINTED_WHOLE {
        let width = std::mem::size_of::<T>();
        let bytes = slice.iter().flat_map(|&e| e.into().to_le_bytes().into_iter().take(width));
        let _ = write!(out, " #{:016x}", hash(bytes));
        shown = &slice[..PRINTED_FIRST];
    }
    for &element in shown {
        let _ = write!(out, " {}", element.into());
    }
    out.push('\n');
}

fn table_lines(out: &mut String, lent: &Lent) {
    slice_line(out, "var", &lent.table.var);
    slice_line(out, "then", &lent.table.then);
    slice_line(out, "else", &lent.table.els);
    slice_line(out, "work", &lent.work);
}

fn call_lines(out: &mut String, lent: &mut Lent, call: Call) {
    let before = lent.clone();
    let answer = calls::answer(lent, call, u64::MAX).expect("no budget can be gone over");
    semantic::check_call(&before, lent, call, answer);
    let (number, row, count, value) = match answer {
        Answer::Appended { row, new_count } => (0, row, new_count, UNWRITTEN as u8),
        Answer::Value(value) => (0, UNWRITTEN as u16, UNWRITTEN, value),
        Answer::One => (0, UNWRITTEN as u16, UNWRITTEN, UNWRITTEN as u8),
        Answer::Refused(number) => (number, UNWRITTEN as u16, UNWRITTEN, UNWRITTEN as u8),
    };
    let _ = write!(out, "{} -> {number}", Command::Call(call));
    let _ = match call {
        Call::One { .. } => writeln!(out),
        Call::Value { .. } => writeln!(out, " value={value}"),
        _ => writeln!(out, " row={row} count={count}"),
    };
    table_lines(out, lent);
    if call.takes_assignment() {
        slice_line(out, "assignment", &lent.assignment);
    }
}

fn circuit_lines(out: &mut String, lent: &mut Lent, output: u64) {
    let before = lent.clone();
    let answer = circuit::answer(lent, output, u64::MAX).expect("no budget can be gone over");
    semantic::check_circuit(&before, lent, output, answer);
    let (number, verdict, rows) = match answer {
        circuit::Answer::Zero { rows } => (0, 0, rows as u64),
        circuit::Answer::One { rows } => (0, 1, rows as u64),
        circuit::Answer::NoRoom => (0, 2, UNWRITTEN),
        circuit::Answer::Refused(number) => (number, UNWRITTEN, UNWRITTEN),
    };
    let echo = Command::Circuit { output };
    let _ = writeln!(out, "{echo} -> {number} verdict={verdict} rows={rows}");
    table_lines(out, lent);
    slice_line(out, "pattern", &lent.pattern);
    out.push_str("text same\n");
}

fn text_lines(out: &mut String, lent: &Lent) {
    semantic::check_text(&lent.text);
    let (number, inputs, outputs) = match circuit::text_answer(&lent.text) {
        Ok((inputs, outputs)) => (0, inputs as u64, outputs as u64),
        Err(number) => (number, UNWRITTEN, UNWRITTEN),
    };
    let echo = Command::Text;
    let _ = writeln!(out, "{echo} -> {number} inputs={inputs} outputs={outputs}");
    out.push_str("text same\n");
}

/// What the console prints for one line, with the lent slices changed as by the call.
fn answer_command(out: &mut String, lent: &mut Lent, name: &mut String, command: &Command) {
    command.apply(lent);
    match command {
        Command::Case(new) => name.clone_from(new),
        Command::Call(call) => call_lines(out, lent, *call),
        Command::Circuit { output } => circuit_lines(out, lent, *output),
        Command::Text => text_lines(out, lent),
        Command::End => {
            let _ = writeln!(out, "end {name}");
        }
        _ => {}
    }
}

/// Answers every line of the input.
pub fn answer(input: &mut impl BufRead, out: &mut impl Write) -> io::Result<()> {
    let mut lent = Lent::default();
    let mut name = String::new();
    let mut printed = String::new();
    for line in input.lines() {
        let line = line?;
        let Some(command) = Command::parse(&line) else {
            return Err(io::Error::new(io::ErrorKind::InvalidData, format!("bad line: {line}")));
        };
        answer_command(&mut printed, &mut lent, &mut name, &command);
        out.write_all(printed.as_bytes())?;
        printed.clear();
    }
    Ok(())
}

#[cfg(test)]
mod tests {
    use super::hash;

    /// The published test vectors of FNV-1a.
    #[test]
    fn hash_of_known_bytes() {
        assert_eq!(hash(b"".iter().copied()), 0xCBF2_9CE4_8422_2325);
        assert_eq!(hash(b"a".iter().copied()), 0xAF63_DC4C_8601_EC8C);
        assert_eq!(hash(b"foobar".iter().copied()), 0x8594_4171_F739_67E8);
    }
}
