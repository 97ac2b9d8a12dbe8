#![forbid(unsafe_code)]

use std::io::{self, BufWriter, Read, Write};
use std::process::ExitCode;
use std::thread;

use second::{console, corpus, gen_scripts, gen_texts, program};

const USAGE: &str = "usage: second gen scripts SEED COUNT
       second gen texts SEED COUNT
       second answer < CASES
       second verdicts < TEXT
       second corpus SEED
       second corpus-answers < CORPUS";

/// The written steps nest as deep as the ring has variables, several kinds of step inside another.
const STACK: usize = 256 << 20;

fn number(word: &str) -> Option<u64> {
    word.parse().ok()
}

/// Prints what the circuit program must print for the text on standard input.
fn verdicts(input: &mut impl Read, out: &mut impl Write) -> io::Result<()> {
    let mut text = Vec::new();
    input.read_to_end(&mut text)?;
    out.write_all(program::print(&text, program::PROGRAM_ROOM).as_bytes())
}

/// Runs the command; `None` where the words are not a command.
fn run(words: &[&str]) -> Option<io::Result<()>> {
    let mut input = io::stdin().lock();
    let mut out = BufWriter::new(io::stdout().lock());
    let done = match words {
        ["gen", "scripts", seed, count] => {
            gen_scripts::write(number(seed)?, number(count)?, &mut out)
        }
        ["gen", "texts", seed, count] => gen_texts::write(number(seed)?, number(count)?, &mut out),
        ["answer"] => console::answer(&mut input, &mut out),
        ["verdicts"] => verdicts(&mut input, &mut out),
        ["corpus", seed] => corpus::write(number(seed)?, &mut out),
        ["corpus-answers"] => corpus::answer(&mut input, &mut out),
        _ => return None,
    };
    Some(done.and_then(|()| out.flush()))
}

fn run_arguments() -> ExitCode {
    let arguments: Vec<String> = std::env::args().skip(1).collect();
    let words: Vec<&str> = arguments.iter().map(String::as_str).collect();
    match run(&words) {
        Some(Ok(())) => ExitCode::SUCCESS,
        Some(Err(error)) => {
            eprintln!("second: {error}");
            ExitCode::FAILURE
        }
        None => {
            eprintln!("{USAGE}");
            ExitCode::from(2)
        }
    }
}

fn main() -> ExitCode {
    let worker = thread::Builder::new().stack_size(STACK).spawn(run_arguments);
    match worker.map(thread::JoinHandle::join) {
        Ok(Ok(code)) => code,
        // A panic has printed its message: a semantic check of this program itself failed.
        _ => ExitCode::from(101),
    }
}
