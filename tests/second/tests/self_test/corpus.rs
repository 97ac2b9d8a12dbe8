//! The reader agrees with the hand-written answers of the hand-chosen texts.

use second::corpus::{answer, answer_line, write};
use second::fixed::{texts, Expected};
use second::text::{read, LineFault, TextRefusal};

fn expected_line(expected: Expected) -> String {
    match expected {
        Expected::Counts(inputs, outputs) => format!("{inputs} {outputs}"),
        Expected::Refused(number) => format!("refused {number}"),
        Expected::Broken(_) => "refused 10".to_string(),
    }
}

#[test]
fn hand_written_answers() {
    for fixed in texts() {
        assert_eq!(answer_line(&fixed.text), expected_line(fixed.expected), "{}", fixed.name);
    }
}

#[test]
fn hand_written_kinds_of_broken_lines() {
    for fixed in texts() {
        if let Expected::Broken(letter) = fixed.expected {
            let fault = match letter {
                'a' => LineFault::NoNewline,
                'b' => LineFault::Number,
                _ => LineFault::Other,
            };
            assert_eq!(read(&fixed.text), Err(TextRefusal::Line(fault)), "{}", fixed.name);
        }
    }
}

#[test]
fn names_and_texts_are_told_apart() {
    let all = texts();
    assert!(all.len() >= 150);
    for (index, one) in all.iter().enumerate() {
        for other in &all[..index] {
            assert_ne!(one.name, other.name);
        }
    }
}

#[test]
fn corpus_has_a_line_of_answer_for_each_text() {
    let mut framed = Vec::new();
    write(1, &mut framed).unwrap();
    let mut lines = Vec::new();
    answer(&mut framed.as_slice(), &mut lines).unwrap();
    let lines = String::from_utf8(lines).unwrap();
    assert!(lines.lines().count() >= 300);
    for (line, fixed) in lines.lines().zip(texts()) {
        assert_eq!(line, expected_line(fixed.expected), "{}", fixed.name);
    }
}
