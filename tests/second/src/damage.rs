//! Damage to valid texts: by bytes, by numbers and by lines.

use crate::rng::Rng;

/// Bytes that matter to the reader, and some that do not.
const BYTES: &[u8] = b"\n\n\n  \t\r0123456789-+xaAgi.,\0\x7f\x80\xff";

/// Numbers at the edges of the rules.
const NUMBERS: &[&str] = &[
    "0",
    "1",
    "2",
    "3",
    "4",
    "5",
    "6",
    "7",
    "8",
    "9",
    "10",
    "00",
    "01",
    "02",
    "007",
    "1023",
    "1024",
    "1025",
    "2047",
    "2048",
    "2049",
    "2050",
    "65534",
    "65535",
    "65536",
    "65537",
    "65538",
    "99999",
    "131072",
    "4294967296",
    "4294967298",
    "18446744073709551616",
    "18446744073709551618",
    "00000000000000000000000000000002",
    "-1",
    "-0",
    "+2",
    "2.",
    "1e1",
    "0x2",
    "",
    " ",
];

fn replace_byte(text: &mut [u8], rng: &mut Rng) {
    if !text.is_empty() {
        let at = rng.below(text.len());
        text[at] = if rng.chance(1, 5) { rng.below(256) as u8 } else { rng.pick(BYTES) };
    }
}

fn delete_byte(text: &mut Vec<u8>, rng: &mut Rng) {
    if !text.is_empty() {
        let at = rng.below(text.len());
        text.remove(at);
    }
}

fn insert_byte(text: &mut Vec<u8>, rng: &mut Rng) {
    let at = rng.below(text.len() + 1);
    let byte = rng.pick(BYTES);
    text.insert(at, byte);
}

fn truncate(text: &mut Vec<u8>, rng: &mut Rng) {
    let length = if rng.chance(1, 2) {
        text.len().saturating_sub(rng.between(1, 4))
    } else {
        rng.below(text.len() + 1)
    };
    text.truncate(length);
}

/// Where the runs of digits stand.
fn number_places(text: &[u8]) -> Vec<(usize, usize)> {
    let mut places = Vec::new();
    let mut at = 0;
    while at < text.len() {
        let start = at;
        while at < text.len() && text[at].is_ascii_digit() {
            at += 1;
        }
        if at > start {
            places.push((start, at));
        }
        at += 1;
    }
    places
}

/// A number near another one.
fn near(number: &[u8], rng: &mut Rng) -> String {
    let value: i64 = String::from_utf8_lossy(number).parse().unwrap_or(0);
    let moved = value + rng.pick(&[-3, -2, -1, 1, 2, 3]);
    moved.max(0).to_string()
}

fn replace_number(text: &mut Vec<u8>, rng: &mut Rng) {
    let places = number_places(text);
    if places.is_empty() {
        return;
    }
    let (start, end) = rng.pick(&places);
    let new = match rng.below(3) {
        0 => rng.pick(NUMBERS).to_string(),
        1 => near(&text[start..end], rng),
        _ => {
            let (from, to) = rng.pick(&places);
            String::from_utf8_lossy(&text[from..to]).into_owned()
        }
    };
    text.splice(start..end, new.into_bytes());
}

/// Lines with their newlines.
fn lines_of(text: &[u8]) -> Vec<Vec<u8>> {
    text.split_inclusive(|&byte| byte == b'\n').map(<[u8]>::to_vec).collect()
}

fn change_lines(text: &mut Vec<u8>, rng: &mut Rng) {
    let mut lines = lines_of(text);
    if lines.is_empty() {
        return;
    }
    let at = rng.below(lines.len());
    let other = rng.below(lines.len());
    match rng.below(5) {
        0 => drop(lines.remove(at)),
        1 => lines.insert(at, lines[other].clone()),
        2 => lines.swap(at, other),
        3 => lines.insert(at, b"\n".to_vec()),
        _ => {
            if let Some(end) = lines[at].iter().position(|&byte| byte == b'\n') {
                let tail = rng.pick(&[" ", "\t", "\r", " 0", "  ", "x", " 2 2"]);
                lines[at].splice(end..end, tail.bytes());
            }
        }
    }
    *text = lines.concat();
}

fn double_space(text: &mut Vec<u8>, rng: &mut Rng) {
    let places: Vec<usize> = (0..text.len()).filter(|&at| text[at] == b' ').collect();
    if !places.is_empty() {
        let at = rng.pick(&places);
        let new = rng.pick(&["  ", "\t", "", " \t", "\n", ","]);
        text.splice(at..=at, new.bytes());
    }
}

/// One random piece of damage; it may happen to leave the text valid.
pub fn once(text: &mut Vec<u8>, rng: &mut Rng) {
    match rng.below(10) {
        0 => replace_byte(text, rng),
        1 => delete_byte(text, rng),
        2 => insert_byte(text, rng),
        3 => truncate(text, rng),
        4..=6 => replace_number(text, rng),
        7 => double_space(text, rng),
        _ => change_lines(text, rng),
    }
}
