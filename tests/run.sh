#!/usr/bin/env bash
# Builds the library for C and runs everything that stands outside the proofs: what the archive offers and takes, the C test, the header
# under C++, its macros for tables and the page about them, the texts for numbers, the examples and the demo against their stored output,
# what is told at a first run, and the comparison with a second implementation on some millions of calls. Prints a line for each; exits 1
# where one fails. Nothing is fetched.
#     tests/run.sh [--archive-is-built] [SEED [ROUNDS]]      of the comparison; without the word the archive is built first
set -euo pipefail
cd "$(dirname "$(readlink -f "${BASH_SOURCE[0]}")")/.."
archive=target/staticlib/libuss_c.a
out=target/host
mkdir -p "$out"
strict=(-Wall -Wextra -Werror -pedantic -Iinclude)
. tests/saying.sh

# same PROGRAM FILE: what the program prints is what the file has
same() {
    "$1" > "$out/printed" && diff "$2" "$out/printed"
}

# the archive offers the calls that the header declares, and no other
symbols() {
    local declared offered
    declared="$(gcc -fpreprocessed -E -P include/uss.h | grep -oE 'uss_[a-z_0-9]+\(' | tr -d '(' | sort)"
    offered="$(nm -g --defined-only "$archive" | awk 'NF == 3 { print $3 }' | sort)"
    diff <(echo "$declared") <(echo "$offered")
}

# it takes nothing from outside, keeps nothing (no section that may be written, nothing for each thread) and enters no kernel
closed() {
    local undefined kept entered
    undefined="$(nm -u "$archive" | awk 'NF == 2 { print $2 }')"
    kept="$(readelf -SW "$archive" | sed -nE 's/^ *\[ *[0-9]+\] +//p' | awk '$7 ~ /[WT]/ && $5 !~ /^0+$/ { print $1 }')"
    entered="$(objdump -d --no-show-raw-insn "$archive" | awk '$2 ~ /^(syscall|sysenter|int)$/')"
    [ -z "$undefined" ] || echo "undefined: $undefined"
    [ -z "$kept" ] || echo "sections that keep something: $kept"
    [ -z "$entered" ] || echo "calls of the system: $entered"
    [ -z "$undefined$kept$entered" ]
}

# where the module for the chips has been taken, the archive of that run is this one
same_module() {
    [ ! -f target/ports/module/libuss_c.a ] || cmp "$archive" target/ports/module/libuss_c.a
}

# it keeps neither the sixteen pages nor the sixteen nibbles as a list (document 02, W-202)
listless() {
    local kept list
    kept="$(od -An -v -tx1 "$archive" | tr -d ' \n')"
    [ -n "$kept" ] || return 1
    for list in 00020406080a0c0e01030507090b0d0f 00080109020a030b040c050d060e070f; do
        [[ "$kept" != *"$list"* ]] || { echo "the archive has the list $list"; return 1; }
    done
}

c_test() {
    gcc -std=c99 "${strict[@]}" -o "$out/calls" tests/c/calls.c "$archive" && "$out/calls"
}

# tables by the header's macros, as C99 and as C++11, with every conversion that may change a value an error
table_macros() {
    gcc -std=c99 "${strict[@]}" -Wconversion -Wsign-conversion -o "$out/tables" tests/c/tables.c "$archive" && "$out/tables" \
        && g++ -std=c++11 "${strict[@]}" -Wconversion -Wsign-conversion -o "$out/tables" -x c++ tests/c/tables.c -x none "$archive" \
        && "$out/tables"
}

# the table and the values of docs/TABLES.md are taken from the page and pass, and a record's bytes are those that it shows; it names
# each rule of the header, by its number, in order
table_page() {
    sed -n '/^## 2/,/^## 4/s/^    //p' docs/TABLES.md > "$out/page.h"
    gcc -std=c99 "${strict[@]}" -Wconversion -I"$out" -o "$out/page" tests/c/page.c "$archive" && "$out/page" > "$out/printed" \
        && grep -qxFf "$out/printed" docs/TABLES.md \
        && diff <(sed -nE 's/^    USS_RULE_[A-Z_]+ = ([1-9][0-9]*).*/\1/p' include/uss.h) \
            <(sed -n '/^## The rules/,/^## The twelve/s/^| \([0-9]*\) | .*/\1/p' docs/TABLES.md)
}

# record_taken RECORD: whether the compiler takes it; what it says goes to $out/said
record_taken() {
    printf '#include "uss.h"\nconst uint8_t record[] = {%s};\n' "$1" > "$out/record.c"
    gcc -std=c99 "${strict[@]}" -Wno-unused -fsyntax-only "$out/record.c" > "$out/said" 2>&1
}

# a record that breaks a rule of its own is refused when it is compiled, by the macro that names the rule
records_refused() {
    local macro record wrong=0
    record_taken 'USS_WORD(31999, USS_WRITABLE, 254, 0, 65535)' || { cat "$out/said"; wrong=1; }
    while IFS=';' read -r macro record; do
        if record_taken "$record" || ! grep -q "$macro" "$out/said"; then
            echo "$record is not refused by $macro"
            wrong=1
        fi
    done <<'END'
USS_NUMBER_AT_MOST_31999;USS_WORD(32000, USS_WRITABLE, 0, 0, 1)
USS_NUMBER_AT_MOST_31999;USS_WORD(-1, USS_WRITABLE, 0, 0, 1)
USS_ACCESS_IS_0_OR_1;USS_WORD(1, 2, 0, 0, 1)
USS_ELEMENTS_AT_MOST_254;USS_WORD(1, USS_WRITABLE, 255, 0, 1)
USS_LIMIT_FITS_ITS_KIND;USS_WORD(1, USS_WRITABLE, 0, -1, 1)
USS_LIMIT_FITS_ITS_KIND;USS_WORD(1, USS_WRITABLE, 0, 0, 65536)
USS_LIMIT_FITS_ITS_KIND;USS_SIGNED_WORD(1, USS_WRITABLE, 0, -32769, 0)
USS_LIMIT_FITS_ITS_KIND;USS_SIGNED_WORD(1, USS_WRITABLE, 0, 0, 32768)
USS_LIMIT_FITS_ITS_KIND;USS_DOUBLE(1, USS_WRITABLE, 0, 0, 4294967296)
USS_LIMIT_FITS_ITS_KIND;USS_SIGNED_DOUBLE(1, USS_WRITABLE, 0, 0, 2147483648)
USS_MINIMUM_AT_MOST_MAXIMUM;USS_SIGNED_WORD(1, USS_WRITABLE, 0, 5, -5)
END
    return "$wrong"
}

header_in_cpp() {
    printf '#include "uss.h"\nint main() { return uss_bcc(nullptr, 0); }\n' > "$out/header.cpp"
    g++ -std=c++11 "${strict[@]}" -o "$out/header" "$out/header.cpp" "$archive" && "$out/header"
}

# example NAME
example() {
    gcc -std=c99 "${strict[@]}" -o "$out/$1" "examples/$1.c" "$archive" && same "$out/$1" "examples/expected/$1.txt"
}

rust_example() {
    rustc --edition 2021 -O -D warnings -L native=target/staticlib -o "$out/rust_host" examples/host.rs \
        && same "$out/rust_host" examples/expected/host.txt
}

demo() {
    gcc -std=c99 "${strict[@]}" -o "$out/bus" demo/bus.c "$archive" && same demo/run demo/expected.txt
}

comparison() {
    rustc --edition 2021 -O -D warnings -L native=target/staticlib -o "$out/host" tests/host/main.rs && "$out/host" "$@"
}

if [ "${1:-}" = --archive-is-built ]; then
    shift
else
    lib/prove archive > "$out/staticlib.txt" 2>&1 || { cat "$out/staticlib.txt"; echo "FAILED: lib/prove archive"; exit 1; }
    echo "built: $archive"
fi
try 'the archive offers what the header declares' symbols
try 'the archive has no state and no system call, and needs nothing from outside' closed
try 'the archive keeps no list of pages or nibbles' listless
try 'the archive and the module for the chips are of one run' same_module
try 'C test' c_test
try 'header under C++' header_in_cpp
try 'tables by the macros' table_macros
try 'records that break a rule do not compile' records_refused
try 'texts for numbers' tests/text.sh
try 'docs/TABLES.md' table_page
try 'example slave_host.c' example slave_host
try 'example master_host.c' example master_host
try 'example screen_host.c' example screen_host
try 'example host.rs' rust_example
try 'demo' demo
try 'first run' tests/first_run.sh
try 'comparison with a second implementation' comparison "$@"
exit "$failed"
