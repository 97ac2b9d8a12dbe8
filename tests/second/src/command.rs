//! The console's input, line by line; `tests/README.md` describes it.

use std::fmt;

use crate::calls::Call;
use crate::lent::Lent;
use crate::rng::Rng;

/// What the elements of a slice are after the listed ones.
#[derive(Clone, Copy, Debug, PartialEq, Eq)]
pub enum Rest {
    Zeros,
    /// `=V`
    Equal(u64),
    /// `*SEED`
    Garbage(u64),
}

/// A slice: its length, its first elements, and how it goes on.
#[derive(Clone, Debug, PartialEq, Eq)]
pub struct Spec {
    pub length: usize,
    pub first: Vec<u64>,
    pub rest: Rest,
}

impl Spec {
    pub fn new(length: usize, first: Vec<u64>, rest: Rest) -> Spec {
        Spec { length, first, rest }
    }

    /// All elements, not yet cut to the slice's width.
    fn elements(&self) -> Vec<u64> {
        let mut elements = self.first.clone();
        elements.truncate(self.length);
        let missing = self.length - elements.len();
        match self.rest {
            Rest::Zeros => elements.resize(self.length, 0),
            Rest::Equal(value) => elements.resize(self.length, value),
            Rest::Garbage(seed) => {
                let mut rng = Rng::new(seed);
                elements.extend((0..missing).map(|_| rng.bits()));
            }
        }
        elements
    }

    pub fn bytes(&self) -> Vec<u8> {
        self.elements().into_iter().map(|element| element as u8).collect()
    }

    pub fn halves(&self) -> Vec<u16> {
        self.elements().into_iter().map(|element| element as u16).collect()
    }

    pub fn words(&self) -> Vec<u64> {
        self.elements()
    }

    fn parse(words: &[&str]) -> Option<Spec> {
        let (length, items) = words.split_first()?;
        let mut spec = Spec::new(length.parse().ok()?, Vec::new(), Rest::Zeros);
        for item in items {
            if let Some(value) = item.strip_prefix('=') {
                spec.rest = Rest::Equal(value.parse().ok()?);
            } else if let Some(seed) = item.strip_prefix('*') {
                spec.rest = Rest::Garbage(seed.parse().ok()?);
            } else {
                spec.first.push(item.parse().ok()?);
            }
        }
        Some(spec)
    }
}

impl fmt::Display for Spec {
    fn fmt(&self, out: &mut fmt::Formatter) -> fmt::Result {
        write!(out, "{}", self.length)?;
        for element in &self.first {
            write!(out, " {element}")?;
        }
        match self.rest {
            Rest::Zeros => Ok(()),
            Rest::Equal(value) => write!(out, " ={value}"),
            Rest::Garbage(seed) => write!(out, " *{seed}"),
        }
    }
}

/// One line of a case.
#[derive(Clone, Debug, PartialEq, Eq)]
pub enum Command {
    Case(String),
    Ring(u64),
    Var(Spec),
    Then(Spec),
    Else(Spec),
    Count(u64),
    Work(Spec),
    Assignment(Spec),
    Pattern(Spec),
    Bytes(Vec<u8>),
    Pad { length: usize, byte: u8 },
    Call(Call),
    Circuit { output: u64 },
    Text,
    End,
}

fn escape(bytes: &[u8]) -> String {
    let mut escaped = String::new();
    for &byte in bytes {
        match byte {
            b'\n' => escaped.push_str("\\n"),
            b'\\' => escaped.push_str("\\\\"),
            b' '..=b'~' => escaped.push(byte.into()),
            _ => escaped.push_str(&format!("\\x{byte:02x}")),
        }
    }
    escaped
}

fn unescape(escaped: &str) -> Option<Vec<u8>> {
    let mut bytes = Vec::new();
    let mut rest = escaped.as_bytes();
    while let Some((&byte, after)) = rest.split_first() {
        rest = after;
        if byte != b'\\' {
            bytes.push(byte);
            continue;
        }
        let (&kind, after) = rest.split_first()?;
        rest = after;
        match kind {
            b'n' => bytes.push(b'\n'),
            b'\\' => bytes.push(b'\\'),
            b'x' => {
                let digits = std::str::from_utf8(rest.get(..2)?).ok()?;
                bytes.push(u8::from_str_radix(digits, 16).ok()?);
                rest = &rest[2..];
            }
            _ => return None,
        }
    }
    Some(bytes)
}

fn parse_call(words: &[&str]) -> Option<Command> {
    let (name, operands) = words.split_first()?;
    if let ("circuit", [output]) = (*name, operands) {
        return Some(Command::Circuit { output: output.parse().ok()? });
    }
    let operands: Vec<u16> =
        operands.iter().map(|word| word.parse().ok()).collect::<Option<_>>()?;
    let call = match (*name, operands.as_slice()) {
        ("text", []) => return Some(Command::Text),
        ("variable", &[v]) => Call::Variable { v },
        ("sum", &[f, g]) => Call::Sum { f, g },
        ("product", &[f, g]) => Call::Product { f, g },
        ("value", &[f]) => Call::Value { f },
        ("one", &[f]) => Call::One { f },
        ("equation", &[lead, system, tail]) => Call::Equation { lead, system, tail },
        ("normal_form", &[p, system]) => Call::NormalForm { p, system },
        _ => return None,
    };
    Some(Command::Call(call))
}

impl Command {
    /// Reads one line, without its newline; `None` where it is not a line of the protocol.
    pub fn parse(line: &str) -> Option<Command> {
        if let Some(escaped) = line.strip_prefix("bytes ") {
            return unescape(escaped).map(Command::Bytes);
        }
        let words: Vec<&str> = line.split(' ').collect();
        let (name, operands) = words.split_first()?;
        let spec = || Spec::parse(operands);
        let number = || match operands {
            [word] => word.parse().ok(),
            _ => None,
        };
        match *name {
            "case" => operands.first().map(|name| Command::Case(name.to_string())),
            "n" => number().map(Command::Ring),
            "var" => spec().map(Command::Var),
            "then" => spec().map(Command::Then),
            "else" => spec().map(Command::Else),
            "count" => number().map(Command::Count),
            "work" => spec().map(Command::Work),
            "assignment" => spec().map(Command::Assignment),
            "pattern" => spec().map(Command::Pattern),
            "pad" => match operands {
                [length, byte] => {
                    Some(Command::Pad { length: length.parse().ok()?, byte: byte.parse().ok()? })
                }
                _ => None,
            },
            "call" => parse_call(operands),
            "end" => Some(Command::End),
            _ => None,
        }
    }

    /// Sets what the line says to lend; calls lend nothing.
    pub fn apply(&self, lent: &mut Lent) {
        match self {
            Command::Case(_) => *lent = Lent::default(),
            Command::Ring(n) => lent.n = *n,
            Command::Var(spec) => lent.table.var = spec.halves(),
            Command::Then(spec) => lent.table.then = spec.halves(),
            Command::Else(spec) => lent.table.els = spec.halves(),
            Command::Count(count) => lent.count = *count,
            Command::Work(spec) => lent.work = spec.words(),
            Command::Assignment(spec) => lent.assignment = spec.bytes(),
            Command::Pattern(spec) => lent.pattern = spec.bytes(),
            Command::Bytes(bytes) => lent.text.clone_from(bytes),
            Command::Pad { length, byte } => lent.text.resize(*length, *byte),
            Command::Call(_) | Command::Circuit { .. } | Command::Text | Command::End => {}
        }
    }
}

fn write_call(call: Call, out: &mut fmt::Formatter) -> fmt::Result {
    match call {
        Call::Variable { v } => write!(out, "call variable {v}"),
        Call::Sum { f, g } => write!(out, "call sum {f} {g}"),
        Call::Product { f, g } => write!(out, "call product {f} {g}"),
        Call::Value { f } => write!(out, "call value {f}"),
        Call::One { f } => write!(out, "call one {f}"),
        Call::Equation { lead, system, tail } => {
            write!(out, "call equation {lead} {system} {tail}")
        }
        Call::NormalForm { p, system } => write!(out, "call normal_form {p} {system}"),
    }
}

impl fmt::Display for Command {
    fn fmt(&self, out: &mut fmt::Formatter) -> fmt::Result {
        match self {
            Command::Case(name) => write!(out, "case {name}"),
            Command::Ring(n) => write!(out, "n {n}"),
            Command::Var(spec) => write!(out, "var {spec}"),
            Command::Then(spec) => write!(out, "then {spec}"),
            Command::Else(spec) => write!(out, "else {spec}"),
            Command::Count(count) => write!(out, "count {count}"),
            Command::Work(spec) => write!(out, "work {spec}"),
            Command::Assignment(spec) => write!(out, "assignment {spec}"),
            Command::Pattern(spec) => write!(out, "pattern {spec}"),
            Command::Bytes(bytes) => write!(out, "bytes {}", escape(bytes)),
            Command::Pad { length, byte } => write!(out, "pad {length} {byte}"),
            Command::Call(call) => write_call(*call, out),
            Command::Circuit { output } => write!(out, "call circuit {output}"),
            Command::Text => write!(out, "call text"),
            Command::End => write!(out, "end"),
        }
    }
}
