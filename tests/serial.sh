#!/usr/bin/env bash
# The examples of a serial line, a drive and a master, over two pseudo terminals with a relay between them that damages what passes; and
# docs/SERIAL.md: both are built by the lines of that page, strictly too, and its figures are computed again. Prints a line for each;
# exits 1 where one fails. tests/run.sh, which stands before it in the gate, has proved the library and written the archive.
#     tests/serial.sh [SEED]
set -euo pipefail
cd "$(dirname "$(readlink -f "${BASH_SOURCE[0]}")")/.."
. tests/have.sh
. tests/saying.sh
have gcc gcc
have python3 python3
[ -f target/staticlib/libuss_c.a ] || lib/prove archive > /dev/null

# by the lines of the page, with every warning an error
builds() {
    local line lines
    lines="$(sed -nE 's/^    (gcc .*)$/\1/p' docs/SERIAL.md)"
    [ "$(wc -l <<<"$lines")" = 2 ] || { echo 'docs/SERIAL.md: not two lines that build'; return 1; }
    while read -r line; do
        read -ra line <<<"$line"
        "${line[@]}" -Wall -Wextra -Werror -pedantic -Wconversion -Wsign-conversion || return 1
    done <<<"$lines"
}

try 'examples serial_slave.c and serial_master.c, built as docs/SERIAL.md has it' builds
[ "$failed" = 0 ] || exit 1
python3 -B tests/serial/page.py || failed=1
python3 -B tests/serial/runs.py "$@" || failed=1
exit "$failed"
