//! The console's input and output.

use second::command::Command;
use second::console::answer;
use second::rng::Rng;
use second::{gen_scripts, gen_texts};

fn answered(cases: &str) -> String {
    let mut out = Vec::new();
    answer(&mut cases.as_bytes(), &mut out).unwrap();
    String::from_utf8(out).unwrap()
}

#[test]
fn splitmix64_from_0() {
    let mut rng = Rng::new(0);
    assert_eq!(rng.bits(), 0xE220_A839_7B1D_CDAF);
    assert_eq!(rng.bits(), 0x6E78_9E6A_A1B9_65F4);
    assert_eq!(rng.bits(), 0x06C4_5D18_8009_454F);
}

#[test]
fn every_line_is_read_as_it_is_written() {
    let lines = [
        "case 7-name",
        "n 18446744073709551615",
        "var 5 1 2 *77",
        "then 0",
        "else 3 =65535",
        "count 4",
        "work 2 18446744073709551615 0",
        "assignment 3 0 1 255",
        "pattern 1 =9",
        "bytes aag 1\\n\\\\ \\x00\\xff ",
        "bytes ",
        "pad 32769 10",
        "call variable 65535",
        "call sum 1 2",
        "call product 3 4",
        "call value 5",
        "call one 6",
        "call equation 1 2 3",
        "call normal_form 2 1",
        "call circuit 18446744073709551615",
        "call text",
        "end",
    ];
    for line in lines {
        assert_eq!(Command::parse(line).unwrap().to_string(), line);
    }
}

#[test]
fn lines_of_no_known_form_are_not_read() {
    for line in ["", "var", "var x", "call", "call sum 1", "call sum 1 65536", "bytes \\q", "n"] {
        assert_eq!(Command::parse(line), None, "{line}");
    }
}

#[test]
fn a_case_answered() {
    let cases = "case a\nn 2\nvar 3 =9\nthen 3 *0\nelse 3\nwork 2 =5\n\
                 call variable 1\ncall variable 0\nassignment 2 =7\ncall one 3\ncall value 3\n\
                 call sum 2 9\nend\n";
    // The garbage of seed 0 in 16 bits is 52655, 26100, 17743.
    let expected = "\
call variable 1 -> 0 row=2 count=1
var 3 1 9 9
then 3 1 26100 17743
else 3 0 0 0
work 2 0 0
call variable 0 -> 0 row=3 count=2
var 3 1 0 9
then 3 1 1 17743
else 3 0 0 0
work 2 0 0
call one 3 -> 0
var 3 1 0 9
then 3 1 1 17743
else 3 0 0 0
work 2 0 0
assignment 2 1 0
call value 3 -> 0 value=1
var 3 1 0 9
then 3 1 1 17743
else 3 0 0 0
work 2 0 0
assignment 2 1 0
call sum 2 9 -> 3 row=42405 count=2779096485
var 3 1 0 9
then 3 1 1 17743
else 3 0 0 0
work 2 0 0
end a
";
    assert_eq!(answered(cases), expected);
}

#[test]
fn a_circuit_case_answered() {
    let cases =
        "case b\nbytes aag 1 1 0 1 0\\n2\\n3\\n\ncall text\nvar 1 =7\nthen 1 =7\nelse 1 =7\n\
                 pattern 1 =7\ncall circuit 0\ncall circuit 1\npad 3 10\ncall text\nend\n";
    let expected = "\
call text -> 0 inputs=1 outputs=1
text same
call circuit 0 -> 0 verdict=1 rows=1
var 1 0
then 1 1
else 1 1
work 0
pattern 1 0
text same
call circuit 1 -> 14 verdict=2779096485 rows=2779096485
var 1 0
then 1 1
else 1 1
work 0
pattern 1 0
text same
call text -> 10 inputs=2779096485 outputs=2779096485
text same
end b
";
    assert_eq!(answered(cases), expected);
}

/// The twelve proved cases and the printed run, with answers written by hand; the console must give
/// the same.
#[test]
fn the_papers_cases() {
    let cases = include_str!("../../../paper.cases");
    let answers = include_str!("../../../paper.answers");
    for (found, expected) in answered(cases).lines().zip(answers.lines()) {
        assert_eq!(found, expected);
    }
    assert_eq!(answered(cases), answers);
}

#[test]
fn long_slices_are_hashed() {
    let printed = answered("case c\nn 0\nwork 4096\ncall sum 0 0\nwork 4097\ncall sum 0 0\nend\n");
    let lines: Vec<&str> = printed.lines().filter(|line| line.starts_with("work")).collect();
    assert_eq!(lines[0], format!("work 4096{}", " 0".repeat(4_096)));
    assert!(lines[1].starts_with("work 4097 #"));
    assert!(lines[1].ends_with(&" 0".repeat(64)));
    assert_eq!(lines[1].split(' ').count(), 3 + 64);
}

#[test]
fn generated_cases_are_the_same_for_the_same_seed_and_all_answered() {
    type Generator = fn(u64, u64, &mut Vec<u8>) -> std::io::Result<()>;
    let generators: [Generator; 2] = [gen_scripts::write, gen_texts::write];
    for generate in generators {
        let (mut one, mut other) = (Vec::new(), Vec::new());
        generate(5, 200, &mut one).unwrap();
        generate(5, 200, &mut other).unwrap();
        assert_eq!(one, other);
        let answers = answered(&String::from_utf8(one).unwrap());
        assert_eq!(answers.lines().filter(|line| line.starts_with("end ")).count(), 200);
    }
}
