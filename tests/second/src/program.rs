//! `second verdicts`: what the circuit program must print for a text.

use crate::circuit::{self, Answer};
use crate::lent::{Lent, Slices};

/// "The circuit program, with a table of 4,096 rows".
pub const PROGRAM_ROOM: usize = 4_096;

/// "the verdict, `b` with the output's number, on verdict 1 an empty line (no latches) and the
/// input values in file order, then a dot."
fn block(output: usize, answer: Answer, pattern: &[u8]) -> String {
    let values = || pattern.iter().map(u8::to_string).collect::<String>();
    match answer {
        Answer::Zero { .. } => format!("0\nb{output}\n.\n"),
        Answer::One { .. } => format!("1\nb{output}\n\n{}\n.\n", values()),
        Answer::NoRoom => format!("2\nb{output}\n.\n"),
        Answer::Refused(number) => unreachable!("an accepted text refused with {number}"),
    }
}

/// Everything the program prints for a text, with a table of the given room.
pub fn print(text: &[u8], room: usize) -> String {
    let (inputs, outputs) = match circuit::text_answer(text) {
        Ok(counts) => counts,
        // "A refused text prints only `refused` with a space and the number."
        Err(number) => return format!("refused {number}\n"),
    };
    let slices = Slices { var: vec![0; room], then: vec![0; room], els: vec![0; room] };
    let lent =
        Lent { table: slices, text: text.to_vec(), pattern: vec![0; inputs], ..Lent::default() };
    let print_output = |output: usize| {
        let mut lent = lent.clone();
        let answer = circuit::answer(&mut lent, output as u64, u64::MAX);
        block(output, answer.expect("no budget can be gone over"), &lent.pattern)
    };
    (0..outputs).map(print_output).collect()
}
