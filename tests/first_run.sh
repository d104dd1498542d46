#!/usr/bin/env bash
# What demo/run and telegram-list tell before they run (lib/proving.sh): where a tool is missing, what is to be proved and for how long,
# each crate, where the prover's words are kept, and what happens where it refuses. On a house of four crates, with stand-ins for `rt`,
# lib/prove and the C compiler, so that nothing is proved; tests/listing.sh has a first start with `rt` itself. Exits 1 on a difference.
#     tests/first_run.sh
set -euo pipefail
root="$(cd "$(dirname "$(readlink -f "${BASH_SOURCE[0]}")")/.." && pwd)"
room="$(mktemp -d)"
trap 'rm -rf "$room"' EXIT
. "$root/tests/saying.sh"

# run COMMAND..: what it prints and tells, and its status
run() {
    local status=0
    "$@" 2>&1 < /dev/null || status=$?
    echo "status $status"
}

# ---- without a tool

# the tools that come with every machine, without rt and without a compiler
mkdir "$room/tools"
for tool in bash dirname readlink; do ln -s "$(command -v "$tool")" "$room/tools/$tool"; done
more='README.md, "What it needs", says more.'
say 'README.md has that heading' '## What it needs' "$(grep -x '## What it needs' "$root/README.md")"
say 'telegram-list without rt' "telegram-list: rt is missing: the Rattle toolchain, which proves and builds the listing program. $more
status 2" "$(PATH="$room/tools" run "$root/telegram-list")"
say 'demo/run without rt' "demo/run: rt is missing: the Rattle toolchain, which proves and builds the library. $more
status 2" "$(PATH="$room/tools" run "$root/demo/run")"
ln -s "$room/tools/bash" "$room/tools/rt"
say 'demo/run without a C compiler' "demo/run: cc is missing: a C compiler; CC names another than cc. $more
status 2" "$(PATH="$room/tools" CC='' run "$root/demo/run")"
say 'demo/run without the one that CC names' "demo/run: tidy-cc is missing: a C compiler; CC names another than cc. $more
status 2" "$(PATH="$room/tools" CC=tidy-cc run "$root/demo/run")"

# ---- a house of four crates

house="$room/house"
mkdir -p "$house/demo" "$house/target/stamp" "$room/stand-in"
cp -R "$root/telegram-list" "$root/lib" "$house"
cp "$root/demo/run" "$house/demo/run"
echo 'the toolchain is kit-1' > "$house/README.md"
printf '%s\n' '# lowest first' 'low:' 'mid: low' 'side:' 'above: mid' 'uss_c_c staticlib: mid side' 'telegram_list: io mid' > "$house/crates.txt"
for crate in low mid side above uss_c_c telegram_list; do
    mkdir -p "$house/crates/$crate/src" "$house/crates/$crate/must-fail"
    touch "$house/crates/$crate/src/lib.rt" "$house/crates/$crate/must-fail/slip.edit"
done
printf '#!/bin/sh\ncat "${0%%/*}/version"\n' > "$room/stand-in/rt"
cat > "$house/lib/prove" <<PROVE
#!/bin/sh
# says what the file "words" of the stand-in has, with the status in "status"; builds a program that lists, and an archive
case "\$1" in
crates)
    mkdir -p target/bin
    printf '#!/bin/sh\necho telegram listing 1\necho bytes 0 refused 10\n' > target/bin/telegram_list
    chmod +x target/bin/telegram_list
    cat "$room/stand-in/words"
    exit "\$(cat "$room/stand-in/status")"
    ;;
archive)
    echo 'words of the archive'
    mkdir -p target/staticlib && touch target/staticlib/libuss_c.a
    ;;
esac
PROVE
cat > "$room/stand-in/cc" <<'CC'
#!/bin/sh
printf '#!/bin/sh\necho the bus\n' > target/host/bus && chmod +x target/host/bus
CC
chmod +x "$room/stand-in/rt" "$room/stand-in/cc"
PATH="$room/stand-in:$PATH"
unset CC

# rt_says VERSION STATUS LINE..: what the stand-in for rt will say
rt_says() {
    echo "$1" > "$room/stand-in/version"
    echo "$2" > "$room/stand-in/status"
    shift 2
    printf '%s\n' "$@" > "$room/stand-in/words"
}

# stamped CRATE..: these are proved as they stand
stamped() (
    root="$house"
    . "$house/lib/proving.sh"
    sums low mid side above uss_c_c telegram_list
    for crate; do echo "${sum[$crate]}" > "$house/target/stamp/$crate"; done
)

listed='telegram listing 1
bytes 0 refused 10
status 1'

rt_says kit-1 0 'rt: low proved (1 s)' 'words of mid' 'rt: mid proved (2 s)' 'rt: telegram_list proved (3 s)' \
    "rt: telegram_list ran as nobody, and wrote what its file 'stdout' has (0 s)" 'rt: ok, 3 crates proved'
say 'telegram-list, nothing proved' "telegram-list: crates to be proved first: 3. On two cores that takes up to a minute, this once.
telegram-list: crate 1 of 3: low proved (1 s)
telegram-list: crate 2 of 3: mid proved (2 s)
telegram-list: crate 3 of 3: telegram_list proved (3 s)
$listed" "$(run "$house/telegram-list")"
say 'the log has the prover'\''s words' "$(grep -v '^rt: ok' "$room/stand-in/words")" "$(cat "$house/target/first-run/telegram-list.log")"

stamped low mid telegram_list
echo '// more' > "$house/crates/mid/src/lib.rt"
rt_says kit-1 0 'rt: low proved (unchanged since it was last proved)' 'rt: mid proved (2 s)' 'rt: telegram_list proved (3 s)' 'rt: ok, 3 crates proved'
say 'telegram-list, one crate changed' "telegram-list: crates to be proved first: 2. On two cores that takes up to a minute, this once.
telegram-list: crate 2 of 3: mid proved (2 s)
telegram-list: crate 3 of 3: telegram_list proved (3 s)
$listed" "$(run "$house/telegram-list")"

: > "$house/crates/mid/src/lib.rt"
echo '# more' > "$house/crates/mid/must-fail/slip.edit"
echo '// more' > "$house/crates/side/src/lib.rt"
unchanged=(low mid telegram_list)
rt_says kit-1 0 "${unchanged[@]/%/ proved (unchanged since it was last proved)}" 'rt: ok, 3 crates proved'
sed -i '/unchanged/s/^/rt: /' "$room/stand-in/words"
say 'telegram-list, nothing of its own changed' "$listed" "$(run "$house/telegram-list")"
say 'the log is that of the last proofs' 'rt: mid proved (2 s)' "$(head -n 1 "$house/target/first-run/telegram-list.log")"

rt_says kit-2 1 'rt: low proved (unchanged since it was last proved)' 'words of the refusal' 'rt: mid NOT PROVED (exit 1, 2 s)' 'rt: FAILED: mid'
say 'telegram-list, refused, by another toolchain' "telegram-list: mid NOT PROVED (exit 1, 2 s)
telegram-list: FAILED: mid
telegram-list: README.md names another toolchain than this: kit-2
telegram-list: not proved, so nothing is run. What the prover said is in target/first-run/telegram-list.log.
status 2" "$(run "$house/telegram-list")"
say 'the log of the refusal' 'words of the refusal' "$(head -n 1 "$house/target/first-run/telegram-list.log")"

rt_says kit-1 0 'rt: low proved (unchanged since it was last proved)' 'rt: side proved (4 s)' 'rt: mid proved (unchanged since it was last proved)' 'rt: ok, 3 crates proved'
say 'demo/run, one crate and the archive to be made' "demo/run: crates to be proved first: 2. On two cores that takes up to a minute, this once.
demo/run: crate 2 of 4: side proved (4 s)
demo/run: crate 4 of 4: uss_c_c proved, and target/staticlib/libuss_c.a written
the bus
status 0" "$(run "$house/demo/run")"
say 'its log has the words of both' 'rt: side proved (4 s)
words of the archive' "$(cat "$house/target/first-run/demo.log")"
stamped side uss_c_c
rt_says kit-1 0 'rt: ok, 3 crates proved'
say 'demo/run, nothing changed' 'the bus
status 0' "$(run "$house/demo/run")"
rt_says kit-1 1 'rt: low NOT PROVED (exit 1, 2 s)' 'rt: FAILED: low mid'
say 'demo/run, refused' "demo/run: low NOT PROVED (exit 1, 2 s)
demo/run: FAILED: low mid
demo/run: not proved, so nothing is run. What the prover said is in target/first-run/demo.log.
status 2" "$(run "$house/demo/run")"
exit "$failed"
