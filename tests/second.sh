#!/usr/bin/env bash
# The independent second program: its own tests, then the corpus of AIGER texts that crates/texts runs on. The corpus and its answers are the second
# program's, written from the paper alone; this shows that what is stored is still what it says.
set -u
cd "$(dirname "$0")/second" || exit 2
source ../counting
log=$(mktemp)
trap 'rm -f "$log" "$log.corpus" "$log.tail"' EXIT

cargo test --release --offline --quiet >"$log" 2>&1
status=$?
passed=$(sed -n 's/^test result: .* \([0-9]*\) passed;.*/\1/p' "$log" | awk '{ n += $1 } END { print n + 0 }')
failed=$(sed -n 's/^test result: .* \([0-9]*\) failed;.*/\1/p' "$log" | awk '{ n += $1 } END { print n + 0 }')
if [ "$status" -ne 0 ] || [ "$passed" -eq 0 ]; then
    tail -n 30 "$log"
    failed=$((failed + 1))
fi

cargo build --release --offline --quiet || failed=$((failed + 1))
second=target/release/second
texts=../../crates/texts

"$second" corpus 1 >"$log.corpus"
tail -c "$(wc -c <"$log.corpus")" "$texts/stdin" >"$log.tail"
what "the stored corpus ends with the second program's" cmp "$log.corpus" "$log.tail"
"$second" corpus-answers <"$texts/stdin" >"$log"
what "the stored answers are the second program's, also to the texts that were written by hand" cmp "$log" "$texts/stdout"

echo "$passed passed, $failed failed"
[ "$failed" -eq 0 ]
