#!/usr/bin/env bash
# The calls from C: the header, the library, the console over it, and the comparison with the independent second program, in which each case is a test.
# Scripts and texts are compared in portions of 5,000: one by a fixed seed, one by a fresh one; with --long 39 by fresh ones, 200,000 cases of each kind.
set -u
cd "$(dirname "$0")/.." || exit 2
source tests/counting
room=$(mktemp -d)
trap 'rm -rf "$room"' EXIT

# The header is compiled as C++, too, and not every machine has g++.
if ! command -v g++ >/dev/null; then
    echo "mg: g++ is installed"
    (apt-get update && apt-get install -y --no-install-recommends g++) >"$room/said" 2>&1 || tail -n 5 "$room/said"
fi

# compiles LANGUAGE.. < CODE: whether a program that includes the header is compiled without a warning
compiles() { "$@" -Wall -Wextra -pedantic -Werror -Iinclude -fsyntax-only -; }
includes() { echo '#include "mg.h"' | compiles "$@"; }

# asks for x_v, where v is of the type TYPE
variable_of() {
    printf '#include "mg.h"\nuint32_t f(uint16_t *r, uint64_t *w, %s v, mg_row *k, size_t *n) { return mg_variable(1, r, 0, r, 0, r, 0, 0, w, 0, v, k, n); }\n' "$1" |
        compiles gcc -std=c99 -x c
}
mixed_up() { ! variable_of mg_row && ! variable_of uint16_t; }

# compare KIND..: compares the console with the second program; what it says is kept under the KIND
compare() {
    echo "mg: $*" >"$room/$1"
    tests/compare "$room/console" "$@" >>"$room/$1" 2>&1 || echo "mg: the comparison failed" >>"$room/$1"
}

# counted KIND: shows what was said, and adds the count
counted() {
    local said
    cat "$room/$1"
    said=$(grep -E '^[1-9][0-9]* passed, [0-9]+ failed$' "$room/$1" || echo "0 passed, 1 failed")
    passed=$((passed + ${said%% passed*}))
    said=${said#*, }
    failed=$((failed + ${said%% failed*}))
}

what "the header is C99" includes gcc -std=c99 -x c
what "the header is C++" includes g++ -std=c++11 -x c++
what "the header takes a variable" variable_of mg_var
what "the header takes no number for a variable" mixed_up
what "the library" tests/library
what "the console" tests/build-c tests/console.c "$room/console"

# the header asks for 1 MB of stack
deep() {
    (ulimit -s 1024 && python3 tests/deep.py | "$room/console") >"$room/deep" || return
    [ "$(grep -c '^call .* -> 0 ' "$room/deep")" -eq 2 ]
}
what "1 MB of stack is enough for the deepest calls" deep

# caught KIND TRUE FALSE: a console that gives one answer as another is found out
caught() {
    printf '#!/bin/sh\n"%s" | sed "s/%s/%s/"\n' "$room/console" "$2" "$3" >"$room/liar"
    chmod +x "$room/liar"
    tests/compare "$room/liar" "$1" 1 500 | grep -e "^console: call .*$3"
}
what "a refusal 7 given as 0 is found" caught scripts '-> 7 ' '-> 0 '
what "a verdict 2 given as 0 is found" caught texts 'verdict=2' 'verdict=0'

compare paper
counted paper
fresh=$(($(date +%s) * 1000))
if [ "${1:-}" = --long ]; then portions=40; else portions=2; fi
for ((at = 0; at < portions; at++)); do
    if [ "$at" -eq 0 ]; then seed=1; else seed=$((fresh + at)); fi
    compare scripts "$seed" 5000 &
    compare texts "$seed" 5000
    wait
    counted scripts
    counted texts
done

echo "$passed passed, $failed failed"
[ "$failed" -eq 0 ]
