#!/usr/bin/env bash
# The examples: every examples/NAME.out is held to the plain evaluation of all patterns, to the second program and to the circuit program.
# Then refused texts, texts without outputs and other bounds of what is printed, with answers written by hand.
# Then how the command ends where something cannot be read or written. Then the programs examples/tie.c and examples/tie.rs, which check one tie through the library.
set -u
cd "$(dirname "$0")/.." || exit 2
source tests/counting
made=$(mktemp -d)
trap 'rm -rf "$made"' EXIT

# prints OUT TEXT COMMAND..: the command, given the text, must end with status 0 and print what stands in OUT
prints() {
    local out=$1 text=$2
    shift 2
    "$@" <"$text" >"$made/printed" && cmp "$made/printed" "$out"
}

(cd tests/second && cargo build --release --offline --quiet) || failed=$((failed + 1))
second=tests/second/target/release/second
program=./mullagrane
"$program" </dev/null >"$made/said" 2>&1 || { cat "$made/said" && echo "examples: the circuit program is not built" && echo "$passed passed, $((failed + 1)) failed" && exit 1; }

for text in examples/*.aag; do
    out=${text%.aag}.out
    python3 tests/evaluate.py "$text" "$out"
    status=$?
    if [ "$status" -ne 3 ]; then
        what "$out is not the plain evaluation" [ "$status" -eq 0 ]
    fi
    what "$out is not what the second program prints" prints "$out" "$text" "$second" verdicts
    what "$out is not what $program prints" prints "$out" "$text" "$program"
done

# both NAME: the text in $made/text is printed as $made/expected by the circuit program and by the second program
both() {
    what "$1: $program prints something else" prints "$made/expected" "$made/text" "$program"
    what "$1: the second program prints something else" prints "$made/expected" "$made/text" "$second" verdicts
}

# text NAME TEXT EXPECTED: TEXT and EXPECTED as printf writes them
text() {
    printf "$2" >"$made/text"
    printf "$3" >"$made/expected"
    both "$1"
}

# "A refused text prints only `refused` with a space and the number."
text 'an empty text' '' 'refused 10\n'
text 'a header without its newline' 'aag 0 0 0 0 0' 'refused 10\n'
text 'a gate line that ends early' 'aag 2 1 0 1 1\n2\n4\n4 2\n' 'refused 10\n'
text '1,025 variables' 'aag 1025 0 0 0 0\n' 'refused 11\n'
text '1,025 outputs' 'aag 0 0 0 1025 0\n' 'refused 11\n'
text 'a latch' 'aag 1 0 1 0 0\n2 3\n' 'refused 11\n'
text 'an odd input, and no outputs' 'aag 1 1 0 0 0\n3\n' 'refused 12\n'
text 'a right that nothing defines' 'aag 3 1 0 1 1\n2\n6\n6 4 2\n' 'refused 12\n'
text 'an output out of range' 'aag 1 1 0 2 0\n2\n2\n4\n' 'refused 12\n'
text 'a left below the one before' 'aag 3 1 0 1 2\n2\n4\n6 2 2\n4 2 2\n' 'refused 13\n'
text 'a gate that reads itself' 'aag 2 1 0 1 1\n2\n4\n4 2 4\n' 'refused 13\n'
text '32,769 bytes, most of them not read' 'aag 1 1 0 1 0\n2\n2\n%32751s' 'refused 9\n'
text '100,000 bytes' '%100000s' 'refused 9\n'

# "With no outputs nothing is printed."
text 'nothing in the circuit' 'aag 0 0 0 0 0\n' ''
text 'an input and no outputs' 'aag 1 1 0 0 0\n2\n' ''
text 'a gate and no outputs' 'aag 2 1 0 0 1\n2\n4 2 3\n' ''

# "Bytes after the last gate line aren't read."
text '32,768 bytes' 'aag 1 1 0 1 0\n2\n2\n%32750s' '1\nb0\n\n1\n.\n'
text 'symbol lines' 'aag 2 1 0 1 1\n2\n4\n4 2 3\ni0 door\no0 open\n' '0\nb0\n.\n'
text 'garbage behind the last gate line' 'aag 2 1 0 1 1\n2\n5\n4 2 2\n9 \0\377 03\n\n4 2' '1\nb0\n\n0\n.\n'
text 'garbage and no outputs' 'aag 1 1 0 0 0\n2\n3\naag' ''

# constants; no inputs make an empty line, too
text 'the constants' 'aag 0 0 0 2 0\n1\n0\n' '1\nb0\n\n\n.\n0\nb1\n.\n'

# every output number that there is
{ echo aag 0 0 0 1024 0 && printf '0\n%.0s' {1..1024}; } >"$made/text"
printf '0\nb%d\n.\n' {0..1023} >"$made/expected"
both '1,024 outputs'

# ends STATUS COMMAND..: with which status a command ends
ends() {
    local status=$1
    shift
    "$@" >"$made/printed"
    [ $? -eq "$status" ]
}
on_full_disk() { "$@" >/dev/full; }
what "a file that is not there is not told" ends 2 "$program" "$made/none"
what "a folder is taken for a text" ends 2 "$program" examples
what "a second file is passed over" ends 2 "$program" examples/paper.aag examples/adder.aag
what "a file is not read as standard input is" ends 0 "$program" examples/paper.aag
what "a file is not printed as standard input is" cmp "$made/printed" examples/paper.out
what "what could not be written is not told" ends 1 on_full_disk "$program" examples/paper.aag

# tied PROGRAM NAME: the exit status is the verdict that examples/NAME.out has for output 0, and what is printed by input is its pattern
tied() {
    local said verdict pattern=
    said=$("$1" "examples/$2.aag")
    verdict=$?
    if [ "$verdict" -eq 1 ]; then pattern=$(sed -n 4p "examples/$2.out"); fi
    [ "$verdict" = "$(sed -n 1p "examples/$2.out")" ] && [ "$(sed -n 's/^input [0-9]*: //p' <<<"$said" | tr -d '\n')" = "$pattern" ]
}
refuses() {
    local said
    said=$("$1" /dev/null)
    [ $? -eq 3 ] && [ "$said" = "refused: 10" ]
}

# ties PROGRAM SOURCE COMMAND..: builds an example program and tries it on ties with each verdict, and on an empty text
ties() {
    local program=$1 source=$2 name
    shift 2
    what "$source is not built" "$@"
    for name in counter counter-dropped adder-apart; do
        what "$source has another verdict for $name.aag" tied "$program" "$name"
    done
    what "$source does not refuse an empty text with 10" refuses "$program"
}

library() { tests/library >"$made/said" 2>&1 || { tail -n 20 "$made/said" && false; }; }
what "the library is not built" library
ties "$made/tie-c" examples/tie.c tests/build-c examples/tie.c "$made/tie-c"
if [ "$(uname -m)" = x86_64 ]; then
    ties "$made/tie-rs" examples/tie.rs rustc --edition 2021 -O -D warnings examples/tie.rs -L crates/mg/out -l static=mg -o "$made/tie-rs"
else
    echo "examples: the library is compiled for x86-64, and rustc here is not; nothing is counted for examples/tie.rs"
fi

python3 bench/blocks.py examples "$made"
for text in "$made"/*.aag; do
    what "examples/${text##*/} is not what bench/blocks.py makes" cmp "$text" "examples/${text##*/}"
done

echo "$passed passed, $failed failed"
[ "$failed" -eq 0 ]
