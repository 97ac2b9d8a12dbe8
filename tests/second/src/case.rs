//! A case under construction: its lines, and what they lend so far.

use std::io::{self, Write};

use crate::calls::{self, Answer, Call};
use crate::circuit;
use crate::command::{Command, Rest, Spec};
use crate::lent::Lent;
use crate::rng::Rng;
use crate::steps::Row;

/// Steps a call may take; calls over it are left out of their case.
pub const BUDGET: u64 = 500_000;

pub struct Case {
    commands: Vec<Command>,
    pub lent: Lent,
}

impl Case {
    pub fn new(name: String) -> Case {
        let mut case = Case { commands: Vec::new(), lent: Lent::default() };
        case.set(Command::Case(name));
        case
    }

    /// Adds a line that lends something.
    pub fn set(&mut self, command: Command) {
        command.apply(&mut self.lent);
        self.commands.push(command);
    }

    /// Adds a call on a table, unless it goes over its budget.
    pub fn call(&mut self, call: Call) -> Option<Answer> {
        let mut after = self.lent.clone();
        let answer = calls::answer(&mut after, call, BUDGET).ok()?;
        self.lent = after;
        self.commands.push(Command::Call(call));
        Some(answer)
    }

    /// Adds a circuit call, unless it goes over its budget.
    pub fn circuit(&mut self, output: u64) {
        let mut after = self.lent.clone();
        if circuit::answer(&mut after, output, BUDGET).is_ok() {
            self.lent = after;
            self.commands.push(Command::Circuit { output });
        }
    }

    /// Adds a text call.
    pub fn text(&mut self) {
        self.commands.push(Command::Text);
    }

    /// Lends a table of the given room with the given rows in use, and garbage after them.
    pub fn table(&mut self, rows: &[Row], room: usize, rng: &mut Rng) {
        self.columns(rows, [room; 3], rng);
        self.set(Command::Count(rows.len() as u64));
    }

    /// Lends three slices of any lengths.
    pub fn columns(&mut self, rows: &[Row], [var, then, els]: [usize; 3], rng: &mut Rng) {
        let column = |field: fn(&Row) -> u32| rows.iter().map(|row| field(row).into()).collect();
        self.set(Command::Var(Spec::new(var, column(|row| row.var), free_rows(rng))));
        self.set(Command::Then(Spec::new(then, column(|row| row.then), free_rows(rng))));
        self.set(Command::Else(Spec::new(els, column(|row| row.els), free_rows(rng))));
    }

    /// Lends a working slice of any length with anything in it; a long one more often where the table is large.
    pub fn work(&mut self, rng: &mut Rng) {
        let large = self.lent.table.var.len() > 64;
        let length = if rng.chance(1, if large { 2 } else { 3 }) {
            long_work(large, rng)
        } else {
            rng.pick(&[0, 1, 2, 7, 63, 64, 65])
        };
        let first = if rng.chance(1, 3) { plausible_words(length.min(65), rng) } else { vec![] };
        let rest = match rng.below(4) {
            0 => Rest::Zeros,
            1 => Rest::Equal(rng.pick(&[1, u64::MAX, 0x0002_0002_0002, 0x0003_0002_0001_0000])),
            _ => Rest::Garbage(rng.bits() >> 40),
        };
        self.set(Command::Work(Spec::new(length, first, rest)));
    }

    /// Writes the case's lines.
    pub fn write(&self, out: &mut impl Write) -> io::Result<()> {
        for command in &self.commands {
            writeln!(out, "{command}")?;
        }
        writeln!(out, "{}", Command::End)
    }
}

/// What stands in rows that are not in use.
fn free_rows(rng: &mut Rng) -> Rest {
    match rng.below(5) {
        0 => Rest::Zeros,
        1 => Rest::Equal(rng.below(70_000).min(65_535) as u64),
        _ => Rest::Garbage(rng.bits() >> 40),
    }
}

/// The length of a long working slice: any, or a sum of two powers of two or one less.
fn long_work(large: bool, rng: &mut Rng) -> usize {
    match rng.below(4) {
        0 if !large => rng.between(66, 300),
        0 | 1 => rng.between(300, 4_000),
        2 => rng.between(4_000, 40_000),
        _ => (1 << rng.between(6, 15)) + (1 << rng.between(6, 14)) - rng.below(2),
    }
}

/// Words that could be remembered results: small numbers in their four parts.
fn plausible_words(count: usize, rng: &mut Rng) -> Vec<u64> {
    let mut word = || (0..4).fold(0, |word, _| word << 16 | rng.below(12) as u64);
    (0..count).map(|_| word()).collect()
}
