//! The corpus of texts for the text call, framed by their lengths.

use std::io::{self, BufRead, Write};

use crate::damage;
use crate::fixed;
use crate::rng::Rng;
use crate::shapes;
use crate::text;

/// How many texts follow the hand-chosen ones.
const GENERATED: usize = 300;

/// A valid text, most often damaged, sometimes with symbol lines behind it.
pub fn generated_text(rng: &mut Rng) -> Vec<u8> {
    let mut text = text::print(&shapes::small_circuit(rng)).into_bytes();
    if rng.chance(1, 4) {
        text.extend_from_slice(rng.pick(&[
            b"i0 a\no0 b\n".as_slice(),
            b"i0 name",
            b"c\ncomment \xff\n",
            b"\n",
            b"2 2 2\n",
            b"\r\n\0",
        ]));
    }
    let pieces = rng.pick(&[0, 1, 1, 1, 1, 2, 3]);
    for _ in 0..pieces {
        damage::once(&mut text, rng);
    }
    text
}

fn write_framed(out: &mut impl Write, text: &[u8]) -> io::Result<()> {
    writeln!(out, "{}", text.len())?;
    out.write_all(text)
}

/// `second corpus SEED`: the hand-chosen texts, then generated ones.
pub fn write(seed: u64, out: &mut impl Write) -> io::Result<()> {
    for fixed in fixed::texts() {
        write_framed(out, &fixed.text)?;
    }
    let mut rng = Rng::new(seed);
    for _ in 0..GENERATED {
        write_framed(out, &generated_text(&mut rng))?;
    }
    Ok(())
}

/// The next framed text, or `None` at the end.
fn read_framed(input: &mut impl BufRead) -> io::Result<Option<Vec<u8>>> {
    let mut line = String::new();
    if input.read_line(&mut line)? == 0 {
        return Ok(None);
    }
    let bad = |_| io::Error::new(io::ErrorKind::InvalidData, format!("not a length: {line:?}"));
    let length: usize = line.trim_end_matches('\n').parse().map_err(bad)?;
    let mut text = vec![0; length];
    input.read_exact(&mut text)?;
    Ok(Some(text))
}

/// The text call's answer in one line.
pub fn answer_line(text: &[u8]) -> String {
    match text::read(text) {
        Ok(circuit) => format!("{} {}", circuit.inputs.len(), circuit.outputs.len()),
        Err(refusal) => format!("refused {}", refusal.number()),
    }
}

/// `second corpus-answers`: one line for each framed text.
pub fn answer(input: &mut impl BufRead, out: &mut impl Write) -> io::Result<()> {
    while let Some(text) = read_framed(input)? {
        writeln!(out, "{}", answer_line(&text))?;
    }
    Ok(())
}
