//! Hand-chosen texts with hand-written answers, one for every rule and fault the paper names.
//!
//! The expected answers are written from the paper, never computed. `tests/corpus.rs` checks that
//! the reader agrees with them.

/// What the text call must answer.
#[derive(Clone, Copy, Debug, PartialEq, Eq)]
pub enum Expected {
    /// I and O.
    Counts(usize, usize),
    /// A refusal other than 10.
    Refused(u32),
    /// Refusal 10, with the way the line breaks the form: 'a', 'b' or 'c'.
    Broken(char),
}

pub struct Fixed {
    pub name: &'static str,
    pub text: Vec<u8>,
    pub expected: Expected,
}

use Expected::{Broken, Counts, Refused};

fn plain(name: &'static str, text: &[u8], expected: Expected) -> Fixed {
    Fixed { name, text: text.to_vec(), expected }
}

/// A text padded with one byte up to a length.
fn padded(name: &'static str, text: &[u8], byte: u8, length: usize, expected: Expected) -> Fixed {
    let mut text = text.to_vec();
    text.resize(length, byte);
    Fixed { name, text, expected }
}

/// A text put together from a start, many equal or counted lines, and an end.
fn built(
    name: &'static str,
    start: &str,
    lines: impl Iterator<Item = String>,
    end: &str,
    expected: Expected,
) -> Fixed {
    let mut text = start.to_string();
    for line in lines {
        text.push_str(&line);
        text.push('\n');
    }
    text.push_str(end);
    Fixed { name, text: text.into_bytes(), expected }
}

/// Every hand-chosen text.
pub fn texts() -> Vec<Fixed> {
    let mut all = accepted();
    all.extend(broken_headers());
    all.extend(broken_lines());
    all.extend(limits());
    all.extend(input_literals());
    all.extend(gate_lefts_and_order());
    all.extend(gate_rights());
    all.extend(output_literals());
    all.extend(orders_of_faults());
    all.extend(long_texts());
    all
}

/// Texts that break no rule.
fn accepted() -> Vec<Fixed> {
    vec![
        plain("the printed run", b"aag 4 2 0 2 2\n2\n4\n8\n6\n6 2 5\n8 6 4\n", Counts(2, 2)),
        plain("nothing at all", b"aag 0 0 0 0 0\n", Counts(0, 0)),
        plain("constant outputs, M = 0", b"aag 0 0 0 2 0\n0\n1\n", Counts(0, 2)),
        plain("an input and no output", b"aag 1 1 0 0 0\n2\n", Counts(1, 0)),
        plain("input straight to output", b"aag 1 1 0 1 0\n2\n2\n", Counts(1, 1)),
        plain("inverted input as output", b"aag 1 1 0 1 0\n2\n3\n", Counts(1, 1)),
        plain("the same output twice", b"aag 1 1 0 2 0\n2\n3\n3\n", Counts(1, 2)),
        plain("inputs in descending order", b"aag 2 2 0 1 0\n4\n2\n2\n", Counts(2, 1)),
        plain("M above I + A", b"aag 9 1 0 1 0\n6\n7\n", Counts(1, 1)),
        plain("M = 1,024 with one input, the top one", b"aag 1024 1 0 1 0\n2048\n2049\n", Counts(1, 1)),
        plain("an input numbered above a gate", b"aag 3 2 0 1 1\n2\n6\n4\n4 2 2\n", Counts(2, 1)),
        plain("a gate with two constant rights", b"aag 1 0 0 1 1\n2\n2 0 1\n", Counts(0, 1)),
        plain("a gate with rights 1 and 0", b"aag 1 0 0 1 1\n3\n2 1 0\n", Counts(0, 1)),
        plain("a gate with equal rights", b"aag 2 1 0 1 1\n2\n4\n4 2 2\n", Counts(1, 1)),
        plain("a gate with a literal and its inverse", b"aag 2 1 0 1 1\n2\n4\n4 2 3\n", Counts(1, 1)),
        plain("rights in ascending order", b"aag 3 2 0 1 1\n2\n4\n6\n6 2 4\n", Counts(2, 1)),
        plain("rights in descending order", b"aag 3 2 0 1 1\n2\n4\n6\n6 4 2\n", Counts(2, 1)),
        plain("gaps between gate lefts", b"aag 9 1 0 1 2\n2\n18\n8 2 2\n18 8 9\n", Counts(1, 1)),
        plain("an output before its gate is defined", b"aag 2 1 0 1 1\n2\n5\n4 3 3\n", Counts(1, 1)),
        plain("gates but no outputs", b"aag 2 1 0 0 1\n2\n4 2 3\n", Counts(1, 0)),
        plain("gates but no inputs", b"aag 2 0 0 1 2\n4\n2 1 1\n4 2 3\n", Counts(0, 1)),
        plain("symbol lines after the gates", b"aag 2 1 0 1 1\n2\n4\n4 2 2\ni0 x\no0 y\n", Counts(1, 1)),
        plain("a symbol line up to the text's end", b"aag 1 1 0 1 0\n2\n2\ni0 name", Counts(1, 1)),
        plain("a comment after the gates", b"aag 1 1 0 1 0\n2\n2\nc\nanything\n", Counts(1, 1)),
        plain("garbage after the last gate", b"aag 2 1 0 1 1\n2\n4\n4 2 2\n\xff\x00 -7 \t\r", Counts(1, 1)),
        plain("a further gate line is not read", b"aag 2 1 0 1 1\n2\n4\n4 2 2\n4 2 2\n", Counts(1, 1)),
        plain("an empty line after the gates", b"aag 1 1 0 1 0\n2\n2\n\n", Counts(1, 1)),
        plain("garbage right after a header of zeros", b"aag 0 0 0 0 0\naag 9 9 9 9 9\n", Counts(0, 0)),
        plain("no outputs and garbage after the inputs", b"aag 1 1 0 0 0\n2\nx", Counts(1, 0)),
        plain("CR after the last gate line", b"aag 1 1 0 1 0\n2\n2\n\r\n", Counts(1, 1)),
        plain("one more digit after the last line", b"aag 1 1 0 1 0\n2\n2\n3", Counts(1, 1)),
    ]
}

/// Faults of line 1: all are 10.
fn broken_headers() -> Vec<Fixed> {
    vec![
        plain("empty text", b"", Broken('a')),
        plain("header without a newline", b"aag 0 0 0 0 0", Broken('a')),
        plain("header cut in the word, no newline", b"aa", Broken('a')),
        plain("a bad header without a newline is (a)", b"xyz 01 65536", Broken('a')),
        plain("only a newline", b"\n", Broken('c')),
        plain("binary form", b"aig 0 0 0 0 0\n", Broken('c')),
        plain("capital letters", b"AAG 0 0 0 0 0\n", Broken('c')),
        plain("blank before the word", b" aag 0 0 0 0 0\n", Broken('c')),
        plain("newline before the word", b"\naag 0 0 0 0 0\n", Broken('c')),
        plain("byte order mark", b"\xef\xbb\xbfaag 0 0 0 0 0\n", Broken('c')),
        plain("word too short", b"aa 0 0 0 0 0\n", Broken('c')),
        plain("word cut by the newline", b"aa\n", Broken('c')),
        plain("word too long", b"aagg 0 0 0 0 0\n", Broken('c')),
        plain("no space after the word", b"aag0 0 0 0 0\n", Broken('c')),
        plain("word alone", b"aag\n", Broken('b')),
        plain("word and a blank", b"aag \n", Broken('b')),
        plain("two blanks after the word", b"aag  0 0 0 0 0\n", Broken('b')),
        plain("tab after the word", b"aag\t0 0 0 0 0\n", Broken('c')),
        plain("tab between numbers", b"aag 0\t0 0 0 0\n", Broken('c')),
        plain("two blanks between numbers", b"aag 0 0  0 0 0\n", Broken('b')),
        plain("four numbers", b"aag 0 0 0 0\n", Broken('b')),
        plain("four numbers and a blank", b"aag 0 0 0 0 \n", Broken('b')),
        plain("six numbers, as AIGER 1.9 has", b"aag 0 0 0 0 0 0\n", Broken('c')),
        plain("blank at the end", b"aag 0 0 0 0 0 \n", Broken('c')),
        plain("CR at the end", b"aag 0 0 0 0 0\r\n", Broken('c')),
        plain("letter at the end", b"aag 0 0 0 0 0x\n", Broken('c')),
        plain("letter in a number", b"aag 0 0 0 0x0 0\n", Broken('c')),
        plain("zero byte in a separator's place", b"aag 0\x000 0 0 0\n", Broken('c')),
        plain("00", b"aag 00 0 0 0 0\n", Broken('b')),
        plain("leading zero in M", b"aag 01 1 0 0 0\n2\n", Broken('b')),
        plain("leading zero in I", b"aag 1 01 0 0 0\n2\n", Broken('b')),
        plain("leading zero in L", b"aag 1 1 00 0 0\n2\n", Broken('b')),
        plain("leading zero in O", b"aag 1 1 0 00 0\n2\n", Broken('b')),
        plain("leading zero in A", b"aag 1 1 0 0 00\n2\n", Broken('b')),
        plain("minus sign", b"aag -1 0 0 0 0\n", Broken('b')),
        plain("minus zero", b"aag 0 -0 0 0 0\n", Broken('b')),
        plain("plus sign", b"aag 0 0 0 0 +0\n", Broken('b')),
        plain("letter for a number", b"aag M I L O A\n", Broken('b')),
        plain("65,536 for M", b"aag 65536 0 0 0 0\n", Broken('b')),
        plain("65,536 for A", b"aag 0 0 0 0 65536\n", Broken('b')),
        plain("2^32 for M", b"aag 4294967296 0 0 0 0\n", Broken('b')),
        plain("2^64 for M", b"aag 18446744073709551616 0 0 0 0\n", Broken('b')),
        plain("65,536 after an L of 1 is still 10", b"aag 0 0 1 0 65536\n", Broken('b')),
        plain("a further header number after an L of 1 is still 10", b"aag 0 0 1 0 0 0\n", Broken('c')),
        plain("65,536 with a bad byte after it", b"aag 65536x 0 0 0 0\n", Broken('b')),
        plain("leading zero with a bad byte after it", b"aag 00x 0 0 0 0\n", Broken('b')),
        plain("decimal point", b"aag 1.0 0 0 0 0\n", Broken('c')),
        plain("non-ASCII digit", b"aag \xd9\xa1 0 0 0 0\n", Broken('b')),
        plain("header split over two lines", b"aag 1 1 0\n1 0\n2\n2\n", Broken('b')),
    ]
}

/// Faults of input, output and gate lines: 10 as well.
fn broken_lines() -> Vec<Fixed> {
    vec![
        plain("input line missing", b"aag 1 1 0 0 0\n", Broken('a')),
        plain("input line without a newline", b"aag 1 1 0 0 0\n2", Broken('a')),
        plain("second input line missing", b"aag 2 2 0 0 0\n2\n", Broken('a')),
        plain("output line missing", b"aag 1 1 0 1 0\n2\n", Broken('a')),
        plain("output line without a newline", b"aag 1 1 0 1 0\n2\n2", Broken('a')),
        plain("gate line missing", b"aag 2 1 0 1 1\n2\n4\n", Broken('a')),
        plain("gate line without a newline", b"aag 2 1 0 1 1\n2\n4\n4 2 2", Broken('a')),
        plain("last of two gate lines without a newline", b"aag 3 1 0 1 2\n2\n6\n4 2 2\n6 4 4", Broken('a')),
        plain("bad input line without a newline is (a)", b"aag 1 1 0 0 0\n02x", Broken('a')),
        plain("empty input line", b"aag 1 1 0 0 0\n\n", Broken('b')),
        plain("empty output line", b"aag 1 1 0 1 0\n2\n\n2\n", Broken('b')),
        plain("empty gate line", b"aag 2 1 0 1 1\n2\n4\n\n4 2 2\n", Broken('b')),
        plain("blank before an input", b"aag 1 1 0 0 0\n 2\n", Broken('b')),
        plain("tab before an input", b"aag 1 1 0 0 0\n\t2\n", Broken('b')),
        plain("blank after an input", b"aag 1 1 0 0 0\n2 \n", Broken('c')),
        plain("CR after an input", b"aag 1 1 0 0 0\n2\r\n", Broken('c')),
        plain("tab after an input", b"aag 1 1 0 0 0\n2\t\n", Broken('c')),
        plain("two inputs on a line", b"aag 2 2 0 0 0\n2 4\n", Broken('c')),
        plain("letter after an input", b"aag 1 1 0 0 0\n2x\n", Broken('c')),
        plain("letter for an input", b"aag 1 1 0 0 0\nx\n", Broken('b')),
        plain("minus before an input", b"aag 1 1 0 0 0\n-2\n", Broken('b')),
        plain("plus before an input", b"aag 1 1 0 0 0\n+2\n", Broken('b')),
        plain("leading zero in an input", b"aag 1 1 0 0 0\n02\n", Broken('b')),
        plain("input 65,536", b"aag 1 1 0 0 0\n65536\n", Broken('b')),
        plain("input 65,538, 2 in 16 bits", b"aag 1 1 0 0 0\n65538\n", Broken('b')),
        plain("input 2^32 + 2", b"aag 1 1 0 0 0\n4294967298\n", Broken('b')),
        plain("input 2^64 + 2", b"aag 1 1 0 0 0\n18446744073709551618\n", Broken('b')),
        plain("input with a hundred leading zeros", &[b"aag 1 1 0 0 0\n".as_slice(), &[b'0'; 100], b"2\n"].concat(), Broken('b')),
        plain("blank after an output", b"aag 1 1 0 1 0\n2\n2 \n", Broken('c')),
        plain("CR after an output", b"aag 1 1 0 1 0\n2\n2\r\n", Broken('c')),
        plain("two outputs on a line", b"aag 1 1 0 2 0\n2\n2 3\n", Broken('c')),
        plain("leading zero in an output", b"aag 1 1 0 1 0\n2\n00\n", Broken('b')),
        plain("output 65,536", b"aag 1 1 0 1 0\n2\n65536\n", Broken('b')),
        plain("minus before an output", b"aag 1 1 0 1 0\n2\n-2\n", Broken('b')),
        plain("gate line of one number", b"aag 2 1 0 0 1\n2\n4\n", Broken('b')),
        plain("gate line of two numbers", b"aag 2 1 0 0 1\n2\n4 2\n", Broken('b')),
        plain("gate line of two numbers and a blank", b"aag 2 1 0 0 1\n2\n4 2 \n", Broken('b')),
        plain("gate line of four numbers", b"aag 2 1 0 0 1\n2\n4 2 2 2\n", Broken('c')),
        plain("gate line with a blank at its end", b"aag 2 1 0 0 1\n2\n4 2 2 \n", Broken('c')),
        plain("gate line with CR", b"aag 2 1 0 0 1\n2\n4 2 2\r\n", Broken('c')),
        plain("gate line with two blanks", b"aag 2 1 0 0 1\n2\n4 2  2\n", Broken('b')),
        plain("gate line with a tab", b"aag 2 1 0 0 1\n2\n4\t2 2\n", Broken('c')),
        plain("gate line with a comma", b"aag 2 1 0 0 1\n2\n4,2 2\n", Broken('c')),
        plain("gate line with a blank before it", b"aag 2 1 0 0 1\n2\n 4 2 2\n", Broken('b')),
        plain("leading zero in a left", b"aag 2 1 0 0 1\n2\n04 2 2\n", Broken('b')),
        plain("leading zero in right0", b"aag 2 1 0 0 1\n2\n4 02 2\n", Broken('b')),
        plain("leading zero in right1", b"aag 2 1 0 0 1\n2\n4 2 02\n", Broken('b')),
        plain("65,540 for a left", b"aag 2 1 0 0 1\n2\n65540 2 2\n", Broken('b')),
        plain("65,538 for right0", b"aag 2 1 0 0 1\n2\n4 65538 2\n", Broken('b')),
        plain("65,538 for right1", b"aag 2 1 0 0 1\n2\n4 2 65538\n", Broken('b')),
        plain("minus before a right", b"aag 2 1 0 0 1\n2\n4 2 -2\n", Broken('b')),
        plain("symbol line in place of a gate", b"aag 2 1 0 0 1\n2\ni0 x\n4 2 2\n", Broken('b')),
        plain("comment in place of an output", b"aag 1 1 0 1 0\n2\nc\n2\n", Broken('b')),
        plain("a fault further right does not matter", b"aag 2 1 0 0 1\n2\n4x 65536 02\n", Broken('c')),
    ]
}

/// The header's limits: 11.
fn limits() -> Vec<Fixed> {
    vec![
        plain("M = 1,025", b"aag 1025 0 0 0 0\n", Refused(11)),
        plain("M = 65,535", b"aag 65535 0 0 0 0\n", Refused(11)),
        plain("M = 1,024 and nothing else", b"aag 1024 0 0 0 0\n", Counts(0, 0)),
        plain("O = 1,025", b"aag 0 0 0 1025 0\n", Refused(11)),
        plain("O = 65,535", b"aag 0 0 0 65535 0\n", Refused(11)),
        plain("one latch", b"aag 1 0 1 0 0\n2 3\n", Refused(11)),
        plain("L = 65,535", b"aag 0 0 65535 0 0\n", Refused(11)),
        plain("I above M", b"aag 1 2 0 0 0\n2\n4\n", Refused(11)),
        plain("A above M", b"aag 1 0 0 0 2\n2 0 0\n4 0 0\n", Refused(11)),
        plain("I + A above M", b"aag 2 2 0 0 1\n2\n4\n6 2 4\n", Refused(11)),
        plain("I + A = 65,536 is not 0", b"aag 0 32768 0 0 32768\n", Refused(11)),
        plain("I + A = 65,537 is not 1", b"aag 1 65535 0 0 2\n", Refused(11)),
        plain("I = 65,535", b"aag 1024 65535 0 0 0\n", Refused(11)),
        plain("limits before the next line's form", b"aag 1025 1 0 0 0\nx\n", Refused(11)),
        plain("limits before a missing line", b"aag 0 1 0 0 0\n", Refused(11)),
        plain("a latch before a broken latch line", b"aag 1 0 1 0 0\n", Refused(11)),
    ]
}

/// Inputs out of form: 12.
fn input_literals() -> Vec<Fixed> {
    vec![
        plain("input 0", b"aag 1 1 0 0 0\n0\n", Refused(12)),
        plain("input 1", b"aag 1 1 0 0 0\n1\n", Refused(12)),
        plain("odd input", b"aag 1 1 0 0 0\n3\n", Refused(12)),
        plain("input 2M + 2", b"aag 1 1 0 0 0\n4\n", Refused(12)),
        plain("input 2M + 1, odd", b"aag 2 1 0 0 0\n5\n", Refused(12)),
        plain("input 2M", b"aag 2 1 0 0 0\n4\n", Counts(1, 0)),
        plain("input 65,535", b"aag 1 1 0 0 0\n65535\n", Refused(12)),
        plain("input 65,534", b"aag 1024 1 0 0 0\n65534\n", Refused(12)),
        plain("input 2,050 with M = 1,024", b"aag 1024 1 0 0 0\n2050\n", Refused(12)),
        plain("input twice", b"aag 2 2 0 0 0\n2\n2\n", Refused(12)),
        plain("input and its inverse", b"aag 2 2 0 0 0\n2\n3\n", Refused(12)),
        plain("second input bad, third line missing", b"aag 3 3 0 0 0\n2\n9\n", Refused(12)),
    ]
}

/// Faults of a gate's left (12), then its order (13).
fn gate_lefts_and_order() -> Vec<Fixed> {
    vec![
        plain("left 0", b"aag 1 0 0 0 1\n0 0 0\n", Refused(12)),
        plain("left 1", b"aag 1 0 0 0 1\n1 0 0\n", Refused(12)),
        plain("odd left", b"aag 2 1 0 0 1\n2\n5 2 2\n", Refused(12)),
        plain("left above 2M + 1", b"aag 2 1 0 0 1\n2\n6 2 2\n", Refused(12)),
        plain("left 65,534", b"aag 2 1 0 0 1\n2\n65534 2 2\n", Refused(12)),
        plain("left is an input", b"aag 2 1 0 0 1\n2\n2 0 0\n", Refused(12)),
        plain("left twice", b"aag 3 1 0 0 2\n2\n4 2 2\n4 2 2\n", Refused(12)),
        plain("left is an input, and the order is broken", b"aag 2 1 0 0 1\n2\n2 4 4\n", Refused(12)),
        plain("odd left, and the order is broken", b"aag 2 1 0 0 1\n2\n5 9 9\n", Refused(12)),
        plain("lefts in descending order", b"aag 3 1 0 0 2\n2\n6 2 2\n4 2 2\n", Refused(13)),
        plain("right0 is the left", b"aag 2 1 0 0 1\n2\n4 4 2\n", Refused(13)),
        plain("right1 is the left", b"aag 2 1 0 0 1\n2\n4 2 4\n", Refused(13)),
        plain("right0 is the left's inverse", b"aag 2 1 0 0 1\n2\n4 5 2\n", Refused(13)),
        plain("right1 is the left's inverse", b"aag 2 1 0 0 1\n2\n4 2 5\n", Refused(13)),
        plain("right is an input above the left", b"aag 3 2 0 0 1\n2\n6\n4 2 6\n", Refused(13)),
        plain("right is a later gate", b"aag 3 1 0 0 2\n2\n4 6 2\n6 2 2\n", Refused(13)),
        plain("right above 2M + 1", b"aag 2 1 0 0 1\n2\n4 2 6\n", Refused(13)),
        plain("right 65,535", b"aag 2 1 0 0 1\n2\n4 65535 2\n", Refused(13)),
        plain("order before an undefined right", b"aag 5 1 0 0 1\n2\n8 6 10\n", Refused(13)),
        plain("order before an undefined right, other side", b"aag 5 1 0 0 1\n2\n8 10 6\n", Refused(13)),
        plain("descending left with an undefined right", b"aag 9 1 0 0 2\n2\n18 2 2\n8 6 6\n", Refused(13)),
    ]
}

/// Undefined rights: 12.
fn gate_rights() -> Vec<Fixed> {
    vec![
        plain("right0 undefined", b"aag 3 1 0 0 1\n2\n6 4 2\n", Refused(12)),
        plain("right1 undefined", b"aag 3 1 0 0 1\n2\n6 2 4\n", Refused(12)),
        plain("inverted right undefined", b"aag 3 1 0 0 1\n2\n6 2 5\n", Refused(12)),
        plain("both rights undefined", b"aag 4 1 0 0 1\n2\n8 4 6\n", Refused(12)),
        plain("right that a later, lower gate would define", b"aag 4 1 0 0 2\n2\n8 4 4\n4 2 2\n", Refused(12)),
        plain("constant right is defined", b"aag 2 1 0 0 1\n2\n4 0 1\n", Counts(1, 0)),
        plain("right is an earlier gate", b"aag 3 1 0 0 2\n2\n4 2 2\n6 4 5\n", Counts(1, 0)),
    ]
}

/// Output literals are checked after the last gate: 12.
fn output_literals() -> Vec<Fixed> {
    vec![
        plain("output above 2M + 1", b"aag 1 1 0 1 0\n2\n4\n", Refused(12)),
        plain("output 2M + 1", b"aag 1 1 0 1 0\n2\n3\n", Counts(1, 1)),
        plain("output 65,535", b"aag 1 1 0 1 0\n2\n65535\n", Refused(12)),
        plain("output undefined", b"aag 2 1 0 1 0\n2\n4\n", Refused(12)),
        plain("inverted output undefined", b"aag 2 1 0 1 0\n2\n5\n", Refused(12)),
        plain("second output undefined", b"aag 2 1 0 2 0\n2\n2\n4\n", Refused(12)),
        plain("output 2 with M = 0", b"aag 0 0 0 1 0\n2\n", Refused(12)),
        plain("output 1 with M = 0", b"aag 0 0 0 1 0\n1\n", Counts(0, 1)),
    ]
}

/// Which of two faults comes first.
fn orders_of_faults() -> Vec<Fixed> {
    vec![
        plain("input line: form before literal", b"aag 1 1 0 0 0\n3 \n", Broken('c')),
        plain("input line without newline: form before literal", b"aag 1 1 0 0 0\n3", Broken('a')),
        plain("odd input before a broken output line", b"aag 1 1 0 1 0\n3\nx\n", Refused(12)),
        plain("broken output line before an undefined one", b"aag 1 1 0 2 0\n2\n9\nx\n", Broken('b')),
        plain("broken gate line before an output out of range", b"aag 2 1 0 1 1\n2\n9\n4 2\n", Broken('b')),
        plain("gate order before an output out of range", b"aag 2 1 0 1 1\n2\n9\n4 4 2\n", Refused(13)),
        plain("odd left before an output out of range", b"aag 2 1 0 1 1\n2\n9\n5 2 2\n", Refused(12)),
        plain("gate line: form before left", b"aag 2 1 0 0 1\n2\n5 2 2 \n", Broken('c')),
        plain("gate line: form before order", b"aag 2 1 0 0 1\n2\n4 4 x\n", Broken('b')),
        plain("first gate's order before the second's form", b"aag 3 1 0 0 2\n2\n4 4 2\nx\n", Refused(13)),
        plain("first gate's undefined right before the second's form", b"aag 4 1 0 0 2\n2\n8 6 2\nx\n", Refused(12)),
        plain("a missing gate line before an undefined output", b"aag 2 1 0 1 1\n2\n9\n", Broken('a')),
    ]
}

/// Texts at the limits of length and of counts.
fn long_texts() -> Vec<Fixed> {
    let zero = b"aag 0 0 0 0 0\n";
    let evens = |count: usize| (1..=count).map(|variable| (2 * variable).to_string());
    let zeros = |count: usize| (0..count).map(|_| "0".to_string());
    let chain = |count: usize| (1..count).map(|gate| format!("{} {} 1", 2 * gate + 2, 2 * gate));
    vec![
        padded("32,768 bytes", zero, b'x', 32_768, Counts(0, 0)),
        padded("32,769 bytes", zero, b'x', 32_769, Refused(9)),
        padded("32,768 bytes without a newline", b"aag 0 0 0 0 ", b'0', 32_768, Broken('a')),
        padded("32,769 bytes without a newline", b"aag 0 0 0 0 ", b'0', 32_769, Refused(9)),
        padded("40,000 newlines", b"", b'\n', 40_000, Refused(9)),
        padded("32,768 newlines", b"", b'\n', 32_768, Broken('c')),
        padded("66,000 bytes", zero, b'\n', 66_000, Refused(9)),
        built("1,024 inputs", "aag 1024 1024 0 1 0\n", evens(1024), "2049\n", Counts(1024, 1)),
        built("1,023 of 1,024 inputs", "aag 1024 1024 0 0 0\n", evens(1023), "", Broken('a')),
        built("1,024 outputs", "aag 0 0 0 1024 0\n", zeros(1024), "", Counts(0, 1024)),
        built("1,023 of 1,024 outputs", "aag 0 0 0 1024 0\n", zeros(1023), "", Broken('a')),
        built("1,023 gates in a chain", "aag 1024 1 0 1 1023\n2\n2048\n", chain(1024), "", Counts(1, 1)),
        built("a chain of gates with one too few", "aag 1024 1 0 1 1023\n2\n2048\n", chain(1023), "", Broken('a')),
    ]
}
