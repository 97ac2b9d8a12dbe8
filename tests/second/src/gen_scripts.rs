//! `second gen scripts`: cases for the calls on a table.

use std::io::{self, Write};

use crate::calls::{self, Call};
use crate::case::{Case, BUDGET};
use crate::command::{Command, Rest, Spec};
use crate::rng::Rng;
use crate::steps::Row;
use crate::tables::{
    chain, layered_rows, linked_rows, mirror_rows, sound_rows, spoil, system_rows,
};

/// A ring's size: small most often, so that the written steps end soon.
fn ring_size(rng: &mut Rng) -> u64 {
    match rng.below(12) {
        0 => 0,
        1 => 1,
        2 => rng.between(9, 12) as u64,
        _ => rng.between(2, 8) as u64,
    }
}

/// A number of a row in use or a constant, or seldom one that is neither.
fn number(case: &Case, rng: &mut Rng) -> u16 {
    let in_use = case.lent.count.min(60_000) as usize + 2;
    match rng.below(60) {
        0 => in_use as u16,
        1 => rng.pick(&[65_535, 65_534, 32_768, 8_194, 8_193]),
        2 => (in_use + rng.below(5)) as u16,
        3..=5 => rng.below(2) as u16,
        6..=30 => (in_use - 1 - rng.below(in_use.min(6))) as u16,
        _ => rng.below(in_use) as u16,
    }
}

/// The root of a number that may be no number of the table.
fn root_of(case: &Case, f: u16) -> u64 {
    match f {
        0 | 1 => case.lent.n,
        _ => case.lent.table.var.get(usize::from(f) - 2).map_or(0, |&var| var.into()),
    }
}

/// A lead that is in order for the system and the tail, or seldom any other.
fn lead(case: &Case, system: u16, tail: u16, rng: &mut Rng) -> u16 {
    let bound = root_of(case, system).min(root_of(case, tail));
    match rng.below(12) {
        0 => bound as u16,
        1 => rng.pick(&[65_535, 1_024, 1_023, case.lent.n as u16]),
        2 => rng.below(case.lent.n.min(2_000) as usize + 1) as u16,
        _ => rng.below(bound as usize) as u16,
    }
}

fn any_call(case: &Case, rng: &mut Rng) -> Call {
    let (f, g) = (number(case, rng), number(case, rng));
    match rng.below(20) {
        0..=1 => Call::Variable { v: rng.below(case.lent.n.min(2_000) as usize + 1) as u16 },
        2..=5 => Call::Sum { f, g },
        6..=9 => Call::Product { f, g },
        10..=11 => Call::Value { f },
        12..=13 => Call::One { f },
        14..=16 => {
            let system = if rng.chance(1, 4) { 1 } else { f };
            Call::Equation { lead: lead(case, system, g, rng), system, tail: g }
        }
        _ => Call::NormalForm { p: f, system: if g == 0 && rng.chance(3, 4) { 1 } else { g } },
    }
}

/// Lends an assignment for value or one, seldom a wrong one.
fn lend_assignment(case: &mut Case, call: Call, rng: &mut Rng) {
    let n = case.lent.n.min(2_000) as usize;
    let length = match rng.below(25) {
        0 => n + 1,
        1 => n.saturating_sub(1),
        2 => rng.pick(&[0, 1, 1_024, 1_025]),
        _ => n,
    };
    let mut bits: Vec<u64> = (0..length).map(|_| rng.below(2) as u64).collect();
    if matches!(call, Call::One { .. }) || rng.chance(1, 20) {
        case.set(Command::Assignment(Spec::new(length, vec![], Rest::Garbage(rng.bits() >> 40))));
        return;
    }
    if length > 0 && rng.chance(1, 8) {
        let place = rng.below(length);
        bits[place] = rng.pick(&[2, 3, 128, 254, 255]);
    }
    case.set(Command::Assignment(Spec::new(length, bits, Rest::Zeros)));
}

/// Adds a call, with a fresh working slice and, where it takes one, an assignment.
fn add_call(case: &mut Case, call: Call, rng: &mut Rng) {
    if rng.chance(3, 4) {
        case.work(rng);
    }
    if call.takes_assignment() {
        lend_assignment(case, call, rng);
    }
    case.call(call);
}

fn add_calls(case: &mut Case, count: usize, rng: &mut Rng) {
    for _ in 0..count {
        let call = any_call(case, rng);
        add_call(case, call, rng);
    }
}

/// Room for some rows more.
fn some_room(in_use: usize, rng: &mut Rng) -> usize {
    match rng.below(60) {
        0 => rng.pick(&[4_095, 4_096, 4_097, 8_191, 8_192]),
        1 => rng.between(in_use, 2_000),
        2..=10 => in_use + rng.below(3),
        11..=20 => in_use + rng.below(10),
        _ => in_use + rng.between(10, 40),
    }
}

/// A sound table and calls on it.
fn mixed(case: &mut Case, rng: &mut Rng) {
    let n = ring_size(rng);
    let length = rng.below(40);
    let rows = sound_rows(n, length, rng);
    case.set(Command::Ring(n));
    let room = some_room(rows.len(), rng);
    case.table(&rows, room, rng);
    let count = rng.between(1, 8);
    add_calls(case, count, rng);
}

/// Many rows over more variables, and few calls.
fn deep(case: &mut Case, rng: &mut Rng) {
    let n = rng.between(6, 12) as u64;
    let length = rng.between(30, 150);
    let rows = sound_rows(n, length, rng);
    case.set(Command::Ring(n));
    let more = if rng.chance(1, 4) { rng.between(400, 4_000) } else { rng.between(50, 400) };
    case.table(&rows, rows.len() + more, rng);
    let count = rng.between(1, 3);
    add_calls(case, count, rng);
}

/// Of some rows the one with the least root.
fn top_row(case: &Case, tries: usize, rng: &mut Rng) -> u16 {
    let any = |_| rng.below(case.lent.count as usize + 2) as u16;
    (0..tries).map(any).min_by_key(|&f| root_of(case, f)).unwrap_or(1)
}

/// A product that takes some of its smaller products both ways round.
fn mirror(case: &mut Case, rng: &mut Rng) {
    let n = rng.between(5, 9) as u64;
    let length = rng.between(12, 40);
    let mut rows = layered_rows(n, length, 9, rng);
    let pair = mirror_rows(n, &mut rows, rng);
    let any = |case: &Case, rng: &mut Rng| match pair {
        Some((f, g)) => Call::Product { f, g },
        None => any_call(case, rng),
    };
    add_fitting_calls(case, n, &rows, any, rng);
}

/// Rows the steps of a call end with, if room is unlimited and they are not too many.
fn rows_needed(case: &Case, call: Call) -> usize {
    let in_use = case.lent.count as usize;
    let needed = calls::rows_without_limit(&case.lent, call, BUDGET).unwrap_or(in_use);
    needed.min(in_use + 600)
}

/// Of some calls the one that needs the most rows.
fn hungry_call(case: &Case, any: impl Fn(&Case, &mut Rng) -> Call, rng: &mut Rng) -> Call {
    let some: Vec<Call> = (0..rng.between(1, 8)).map(|_| any(case, rng)).collect();
    some.into_iter().max_by_key(|&call| rows_needed(case, call)).expect("at least one call")
}

/// Lends a table just large enough for a call, or one row too small, or smaller or larger still;
/// then adds that call and further ones.
fn add_fitting_calls(
    case: &mut Case,
    n: u64,
    rows: &[Row],
    any: impl Fn(&Case, &mut Rng) -> Call,
    rng: &mut Rng,
) {
    case.set(Command::Ring(n));
    let mut trial = Case::new(String::new());
    trial.set(Command::Ring(n));
    trial.table(rows, rows.len(), rng);
    let call = hungry_call(&trial, &any, rng);
    let needed = rows_needed(&trial, call);
    let room = match rng.below(7) {
        0..=1 => needed,
        2 => needed.saturating_sub(1).max(rows.len()),
        3 => rng.between(rows.len(), needed),
        _ => needed + rng.below(60),
    };
    case.table(rows, room, rng);
    add_call(case, call, rng);
    for _ in 0..rng.below(3) {
        let call = any(case, rng);
        add_call(case, call, rng);
    }
}

/// Sums and products whose parts are mostly not constants.
fn combine(case: &mut Case, rng: &mut Rng) {
    let n = rng.between(4, 9) as u64;
    let length = rng.between(8, 30);
    let rows = layered_rows(n, length, 6, rng);
    let any = |case: &Case, rng: &mut Rng| {
        let (f, g) = (top_row(case, 3, rng), top_row(case, 3, rng));
        if rng.chance(2, 3) {
            Call::Product { f, g }
        } else {
            Call::Sum { f, g }
        }
    };
    add_fitting_calls(case, n, &rows, any, rng);
}

/// Normal forms by systems of several equations.
fn reduce(case: &mut Case, rng: &mut Rng) {
    let n = rng.between(5, 10) as u64;
    let length = rng.between(12, 40);
    let mut rows = layered_rows(n, length, 9, rng);
    let pairs = system_rows(n, &mut rows, rng);
    let any = |case: &Case, rng: &mut Rng| {
        let (p, system) = pairs[pairs.len() - 1 - rng.below(pairs.len().min(4))];
        let p = if rng.chance(1, 3) { top_row(case, 3, rng) } else { p };
        Call::NormalForm { p, system }
    };
    add_fitting_calls(case, n, &rows, any, rng);
}

/// From the empty table: variables, polynomials of them, a system, normal forms, ones and values.
fn build(case: &mut Case, rng: &mut Rng) {
    let n = rng.between(1, 8) as u64;
    case.set(Command::Ring(n));
    let room = rng.between(10, 80);
    case.table(&[], room, rng);
    for v in 0..n {
        add_call(case, Call::Variable { v: v as u16 }, rng);
    }
    for _ in 0..rng.below(5) {
        let (f, g) = (number(case, rng), number(case, rng));
        let call = if rng.chance(1, 2) { Call::Sum { f, g } } else { Call::Product { f, g } };
        add_call(case, call, rng);
    }
    add_system(case, rng);
    add_calls(case, 2, rng);
}

/// Adds equations with falling leads, then a normal form by them.
fn add_system(case: &mut Case, rng: &mut Rng) {
    let mut system = 1;
    for lead in (0..case.lent.n as u16).rev() {
        let tail = number(case, rng);
        if rng.chance(1, 2) && root_of(case, tail) > u64::from(lead) {
            let answer = case.call(Call::Equation { lead, system, tail });
            if let Some(calls::Answer::Appended { row, .. }) = answer {
                system = row;
            }
        }
    }
    let p = number(case, rng);
    add_call(case, Call::NormalForm { p, system }, rng);
}

/// Calls of all kinds in a table that just fits the first.
fn fit(case: &mut Case, rng: &mut Rng) {
    let n = rng.between(2, 9) as u64;
    let length = rng.between(5, 40);
    let mut rows = layered_rows(n, length, 6, rng);
    system_rows(n, &mut rows, rng);
    add_fitting_calls(case, n, &rows, any_call, rng);
}

/// A table that is most often not sound.
fn unsound(case: &mut Case, rng: &mut Rng) {
    let n = ring_size(rng);
    let length = rng.between(1, 25);
    let mut rows = sound_rows(n, length, rng);
    spoil(&mut rows, n, rng);
    case.set(Command::Ring(n));
    let room = rows.len() + rng.below(10);
    case.table(&rows, room, rng);
    if rng.chance(1, 6) {
        // The count may take in free rows, or leave the spoilt one out.
        let count = rng.below(room + 1) as u64;
        case.set(Command::Count(count));
    }
    let count = rng.between(1, 3);
    add_calls(case, count, rng);
}

/// N that is too great, also where it is small in 16 or 32 bits.
fn ring_out_of_range(rng: &mut Rng) -> u64 {
    let small = rng.below(8) as u64;
    rng.pick(&[
        1_025,
        1_026,
        65_535,
        65_536 + small,
        (1 << 32) + small,
        (1 << 63) + small,
        u64::MAX,
    ])
}

/// Lengths that are not one length from 0 to 8,192.
fn lengths_out_of_range(room: usize, rng: &mut Rng) -> [usize; 3] {
    let mut lengths = [room; 3];
    match rng.below(6) {
        0 => lengths = [rng.pick(&[8_193, 8_194, 10_000, 65_536 + 7]); 3],
        1 => lengths[rng.below(3)] = rng.pick(&[0, 8_192, 8_193, 65_536 + room]),
        2 => lengths[rng.below(3)] = room.saturating_sub(1),
        _ => lengths[rng.below(3)] = room + 1,
    }
    lengths
}

/// Refusal 1 in its many forms, often with other faults behind it.
fn range(case: &mut Case, rng: &mut Rng) {
    let n = ring_size(rng);
    let length = rng.below(15);
    let mut rows = sound_rows(n, length, rng);
    if rng.chance(1, 3) {
        spoil(&mut rows, n, rng);
    }
    let room = rows.len() + rng.below(10);
    let count = rows.len() as u64;
    let fault = rng.below(4);
    let ring = if fault == 0 { ring_out_of_range(rng) } else { n };
    case.set(Command::Ring(ring));
    let lengths = if fault == 1 { lengths_out_of_range(room, rng) } else { [room; 3] };
    case.columns(&rows, lengths, rng);
    let above = [room as u64 + 1, room as u64 + 65_536, (1 << 32) + count, u64::MAX, u64::MAX - 1];
    let count = if fault == 2 { rng.pick(&above) } else { count };
    case.set(Command::Count(count));
    let count = rng.between(1, 4);
    add_calls(case, count, rng);
}

/// Several faults at once: the refusal that comes first in the paper's order must be given.
fn faults(case: &mut Case, rng: &mut Rng) {
    let n = rng.between(2, 6) as u64;
    let length = rng.between(4, 20);
    let mut rows = sound_rows(n, length, rng);
    if rng.chance(1, 5) {
        spoil(&mut rows, n, rng);
    }
    case.set(Command::Ring(n));
    let room = rows.len() + rng.below(2);
    case.table(&rows, room, rng);
    let in_use = rows.len() as u16 + 2;
    for _ in 0..rng.between(1, 4) {
        let bad = |rng: &mut Rng| {
            let any = rng.below(in_use.into()) as u16;
            rng.pick(&[0, 0, 1, any, any, in_use, 65_535])
        };
        let variable = rng.pick(&[0, n as u16 - 1, n as u16, 65_535]);
        let (f, g) = (bad(rng), bad(rng));
        let call = match rng.below(7) {
            0 => Call::Value { f },
            1 => Call::One { f },
            2 => Call::NormalForm { p: f, system: g },
            3 => Call::Variable { v: variable },
            _ => Call::Equation { lead: variable, system: f, tail: g },
        };
        add_call(case, call, rng);
    }
}

/// Many variables in simple shapes: products, sums and systems of all of them.
fn wide(case: &mut Case, rng: &mut Rng) {
    let n = rng.pick(&[100, 200, 300, 511, 512, 513, 1_000, 1_023, 1_024]) as u64;
    let length = rng.between(n as usize / 2, n as usize);
    case.set(Command::Ring(n));
    let steps: [fn(u32) -> (u32, u32); 4] =
        [|last| (last, 0), |last| (1, last), |last| (last, 1), |_| (1, 0)];
    let rows = chain(n, length, rng.pick(&steps));
    let room = (rows.len() + rng.below(700)).min(8_192);
    case.table(&rows, room, rng);
    let top = rows.len() as u16 + 1;
    for _ in 0..rng.between(1, 3) {
        let other = rng.between(0, top.into()) as u16;
        let call = match rng.below(7) {
            0 => Call::Sum { f: top, g: other },
            1 => Call::Product { f: top, g: other },
            2 => Call::Product { f: other, g: top },
            3 => Call::One { f: top },
            4 => Call::Value { f: top },
            5 => Call::NormalForm { p: top, system: other.max(1) },
            _ => Call::Variable { v: rng.below(n as usize) as u16 },
        };
        add_call(case, call, rng);
    }
}

/// The system of all x_i + x_(i+1), and the normal form by it of x_0 or of another number.
fn wide_system(case: &mut Case, rng: &mut Rng) {
    let n = rng.pick(&[60, 150, 400, 1_024]);
    let (rows, variable, system) = linked_rows(n);
    case.set(Command::Ring(n.into()));
    let room = rows.len() + rng.below(4);
    case.table(&rows, room, rng);
    let other = rng.below(rows.len()) as u16 + 2;
    let p = rng.pick(&[variable, variable, other]);
    add_call(case, Call::NormalForm { p, system }, rng);
}

/// A table that is full or nearly full at its greatest length.
fn full(case: &mut Case, rng: &mut Rng) {
    let n = rng.pick(&[10, 64, 1_024]);
    let length = rng.pick(&[3_000, 9_000]);
    let mut rows = layered_rows(n, length, 6, rng);
    rows.truncate(8_192);
    let room = rng.pick(&[rows.len(), rows.len() + 1, 8_192]).min(8_192);
    case.set(Command::Ring(n));
    case.table(&rows, room, rng);
    add_calls(case, 2, rng);
}

/// Any kind of case, the small ones most often.
fn any_kind(rng: &mut Rng) -> (&'static str, fn(&mut Case, &mut Rng)) {
    match rng.below(300) {
        0..=39 => ("mixed", mixed),
        40..=49 => ("mirror", mirror),
        50..=59 => ("deep", deep),
        60..=89 => ("combine", combine),
        90..=129 => ("reduce", reduce),
        130..=174 => ("fit", fit),
        175..=194 => ("build", build),
        195..=229 => ("unsound", unsound),
        230..=259 => ("range", range),
        260..=293 => ("faults", faults),
        294..=297 => ("wide", wide),
        298 => ("wide_system", wide_system),
        _ => ("full", full),
    }
}

/// Writes `count` cases.
pub fn write(seed: u64, count: u64, out: &mut impl Write) -> io::Result<()> {
    let mut seeds = Rng::new(seed);
    for index in 0..count {
        let mut rng = Rng::new(seeds.bits());
        let (name, fill) = any_kind(&mut rng);
        let mut case = Case::new(format!("{index}-{name}"));
        fill(&mut case, &mut rng);
        case.write(out)?;
    }
    Ok(())
}
