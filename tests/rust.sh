#!/usr/bin/env bash
# The crate for Rust: its tests and documentation tests, its example against the stored output, the reasons beside its unsafe lines, and
# which archive it takes for which target. Prints a line for each; exits 1 where one fails. Nothing is fetched. tests/run.sh, which
# stands before it in the gate, has proved the library and written the archive.
#     tests/rust.sh
set -euo pipefail
cd "$(dirname "$(readlink -f "${BASH_SOURCE[0]}")")/.."
. tests/have.sh
. tests/saying.sh
have cargo cargo rustc
[ -f target/staticlib/libuss_c.a ] || lib/prove archive > /dev/null
export CARGO_TARGET_DIR="$PWD/target/rust" RUSTFLAGS='-D warnings' RUSTDOCFLAGS='-D warnings'
unset USS_LIB_DIR
room="$(mktemp -d)"
trap 'rm -rf "$room"' EXIT

# crate COMMAND..: cargo in the crate's folder, without the net
crate() {
    (cd rust && cargo "$@" --offline --quiet)
}

# all tests, with at least one in the documentation of each function
tests() {
    crate test > "$room/tests" 2>&1 || { cat "$room/tests"; return 1; }
    local documented
    documented="$(awk '/^test result: ok/ { last = $4 } END { print last + 0 }' "$room/tests")"
    [ "$documented" -ge "$(grep -c '^pub fn ' rust/src/lib.rs)" ] || { echo "$documented documentation tests"; return 1; }
}

example() {
    crate run --example host | diff examples/expected/host.txt -
}

documentation() {
    crate doc --no-deps
}

# the crate has no std, no heap and no dependency
alone() {
    grep -qx '#!\[no_std\]' rust/src/lib.rs && ! grep -rE 'extern crate' rust/src \
        && [ "$(cd rust && cargo tree --offline --edges all | wc -l)" = 1 ]
}

# each call of the header is made once, in an unsafe block with its reason above it, and nothing else is unsafe
unsafe_lines() {
    local calls
    calls="$(grep -c '^    pub fn uss_' rust/src/raw.rs)"
    [ "$(grep -rw unsafe rust/src | wc -l)" = "$calls" ] && [ "$(cat rust/src/*.rs | awk '
        /^ *\/\/ SAFETY: / { reason = 1; next }
        /^ *\/\/ / { next }
        /unsafe \{/ && reason { open = 1 }
        open && /raw::uss_/ { print; open = 0 }
        { reason = 0 }' | wc -l)" = "$calls" ]
}

# place TARGET: what build.rs says of a target, in a repository that stands in the room
place() {
    TARGET="$1" CARGO_MANIFEST_DIR="$room/repository/rust" "$room/build" 2>&1
}

# found TARGET FOLDER COMMAND: without the archive the build ends and names the command; with it, that folder is searched
found() {
    local folder="$room/repository/target/$2"
    ! place "$1" > "$room/said" && grep -qF "uss: $folder/libuss_c.a is missing: \`$3\` in $room/repository " "$room/said" || return 1
    mkdir -p "$folder"
    touch "$folder/libuss_c.a"
    place "$1" > "$room/said"
    rm -r "$folder"
    grep -qx "cargo:rustc-link-search=native=$folder" "$room/said"
}

# each target of ports/build is some target's of Rust; the archive of x86-64 is that of rt; a target that has none is told so
places() {
    local target folder command
    rustc --edition 2021 -o "$room/build" rust/build.rs
    sed -nE 's/^    \("(.*)", "(.*)"\),$/\1 \2/p' rust/build.rs > "$room/pairs"
    diff <(cut -d" " -f2 "$room/pairs" | sort -u) <({ echo staticlib; ports/build | sed "s|^|ports/|; s| .*||"; } | sort) || return 1
    printf '#!/bin/sh\necho "rustc 1.${MINOR:-89}.0"\n' > "$room/rustc"
    chmod +x "$room/rustc"
    rustc --print target-list > "$room/targets"
    while read -r target folder; do
        grep -qx "$target" "$room/targets" || { echo "rustc knows no $target"; return 1; }
        command="ports/build ${folder#ports/}"
        [ "$folder" != staticlib ] || command='lib/prove archive'
        RUSTC="$room/rustc" found "$target" "$folder" "$command" || { echo "$target: $(cat "$room/said")"; return 1; }
    done < "$room/pairs"
    ! MINOR=88 RUSTC="$room/rustc" place wasm32-unknown-unknown > "$room/said" && grep -q 'needs Rust 1.89' "$room/said" \
        && ! place x86_64-unknown-linux-gnux32 > "$room/said" && grep -q 'no archive for x86_64-unknown-linux-gnux32' "$room/said"
}

# USS_LIB_DIR goes before all that
own_folder() {
    ! USS_LIB_DIR="$room/own" place thumbv7m-none-eabi > "$room/said" && grep -q "^uss: $room/own/libuss_c.a is missing" "$room/said" || return 1
    mkdir "$room/own"
    touch "$room/own/libuss_c.a"
    USS_LIB_DIR="$room/own" place x86_64-unknown-linux-gnux32 > "$room/said" || return 1
    grep -qx "cargo:rustc-link-search=native=$room/own" "$room/said" \
        && ! (cd "$room" && USS_LIB_DIR=own place thumbv7m-none-eabi > "$room/said")
}

try 'crate: tests' tests
try 'crate: example' example
try 'crate: documentation' documentation
try 'crate: no std, no dependency' alone
try 'crate: a reason beside each unsafe call' unsafe_lines
try 'crate: the archive of each target' places
try 'crate: USS_LIB_DIR' own_folder
exit "$failed"
