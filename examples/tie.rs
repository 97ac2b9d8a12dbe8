// tie FILE: checks the tie in an .aag file, output 0. Exit status: the verdict, 0, 1 or 2; 3 where there is none.
//
//     (cd crates/mg && rt lib)
//     rustc --edition 2021 -O examples/tie.rs -L crates/mg/out -l static=mg -o tie
use std::process::ExitCode;

// As include/mg.h declares them; a slice passes as a pointer and a length.
#[rustfmt::skip]
extern "C" {
    fn mg_text(text: *const u8, text_length: usize, inputs: *mut usize, outputs: *mut usize) -> u32;
    fn mg_circuit(
        text: *const u8, text_length: usize, var: *mut u16, var_length: usize, then: *mut u16, then_length: usize, els: *mut u16, els_length: usize,
        work: *mut u64, work_length: usize, output: usize, pattern: *mut u8, pattern_length: usize, verdict: *mut u32, rows: *mut usize,
    ) -> u32;
}

const ROWS: usize = 4096;
const WORK: usize = 32768;
const NO_VERDICT: u8 = 3;

enum Verdict {
    Never { rows: usize },
    Can { rows: usize, pattern: Vec<u8> },
    RoomOut,
}

/// The number of inputs, or the number of the refusal.
fn inputs(text: &[u8]) -> Result<usize, u32> {
    let (mut inputs, mut outputs) = (0, 0);
    match unsafe { mg_text(text.as_ptr(), text.len(), &mut inputs, &mut outputs) } {
        0 => Ok(inputs),
        refusal => Err(refusal),
    }
}

/// The verdict for one output, or the number of the refusal.
fn circuit(text: &[u8], output: usize) -> Result<Verdict, u32> {
    let mut pattern = vec![0; inputs(text)?];
    let [mut var, mut then, mut els] = [[0u16; ROWS]; 3];
    let mut work = vec![0u64; WORK]; // a longer one only makes the call faster
    let (mut verdict, mut rows) = (0, 0);
    #[rustfmt::skip]
    let refusal = unsafe {
        mg_circuit(
            text.as_ptr(), text.len(), var.as_mut_ptr(), var.len(), then.as_mut_ptr(), then.len(), els.as_mut_ptr(), els.len(),
            work.as_mut_ptr(), work.len(), output, pattern.as_mut_ptr(), pattern.len(), &mut verdict, &mut rows,
        )
    };
    match (refusal, verdict) {
        (0, 0) => Ok(Verdict::Never { rows }),
        (0, 1) => Ok(Verdict::Can { rows, pattern }),
        (0, _) => Ok(Verdict::RoomOut),
        _ => Err(refusal),
    }
}

/// Prints the verdict in words; gives the exit status.
fn print(judged: Result<Verdict, u32>) -> u8 {
    match judged {
        Ok(Verdict::Never { rows }) => {
            println!("the versions never differ ({rows} rows)");
            0
        }
        Ok(Verdict::Can { rows, pattern }) => {
            println!("the versions differ ({rows} rows), first at");
            for (k, value) in pattern.iter().enumerate() {
                println!("input {k}: {value}");
            }
            1
        }
        Ok(Verdict::RoomOut) => {
            println!("room ran out: no answer");
            2
        }
        Err(refusal) => {
            println!("refused: {refusal}");
            NO_VERDICT
        }
    }
}

fn main() -> ExitCode {
    let text = std::env::args_os().nth(1).and_then(|name| std::fs::read(name).ok());
    let Some(text) = text else {
        eprintln!("usage: tie FILE, an .aag file that can be read");
        return ExitCode::from(NO_VERDICT);
    };
    ExitCode::from(print(circuit(&text, 0)))
}
