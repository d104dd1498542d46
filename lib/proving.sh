# Sourced by demo/run, telegram-list and lib/prove: has `rt` prove what they are made of before they run, and tells on standard error how
# far it is. At each start `rt` is asked; what has not changed since it was proved is not proved again, and nothing is told.
# The caller sets `root`, the repository's folder, and `me`, its own name as it is typed. What the prover itself said at the last
# start that proved or refused something is kept in a log under target/first-run.

# the 43 crates of demo/run take 11 min 3 s on two cores, the 9 of telegram-list 2 min 2 s (README.md)
seconds_a_crate=16

# tell TEXT
tell() {
    echo "$me: $1" >&2
}

# fail TEXT: tells it and ends; 2 is the status of both commands where they could not do their work
fail() {
    tell "$1"
    exit 2
}

# need TOOL WHAT: ends where the tool is missing
need() {
    command -v "$1" > /dev/null || fail "$1 is missing: $2. README.md, \"What it needs\", says more."
}

# crates_below NAME..: these crates and all that they stand on, lowest first, as crates.txt has them
crates_below() {
    tac "$root/crates.txt" | awk -v wanted="$*" '
        function want(list,    names, n) { n = split(list, names, " "); for (; n > 0; n--) wants[names[n]] = 1 }
        BEGIN { want(wanted) }
        { sub(/#.*/, ""); colon = index($0, ":"); name = substr($0, 1, colon - 1); sub(/ .*/, "", name) }
        colon && (name in wants) { print name; want(substr($0, colon + 1)) }' | tac
}

# sums NAME..: in sum[NAME], of each crate, given lowest first, one number for its files, what it names, and all that it stands on
declare -A sum=()
sums() {
    local name below line
    for name; do
        line="$(sed -nE "s/^$name( staticlib)?:/\\1/p" "$root/crates.txt")"
        sum[$name]="$({
            echo "$line"
            for below in $line; do echo "$below ${sum[$below]:-}"; done
            cd "$root/crates/$name" && find . \( -name out -o -name must-fail \) -prune -o -type f -print0 | LC_ALL=C sort -z | xargs -0 sha256sum
        } | sha256sum)"
    done
}

# changed NAME: whether the crate, with all that it stands on, is not what was proved; after sums
changed() {
    [ "$(cat "$root/target/stamp/$1" 2> /dev/null)" != "${sum[$1]}" ]
}

# to_prove NAME..: how many of the crates, given lowest first, have changed or stand on one that has
to_prove() {
    local name count=0
    sums "$@"
    for name; do ! changed "$name" || count=$((count + 1)); done
    echo "$count"
}

# announce COUNT: how long it takes, before it starts
announce() {
    local time='up to a minute' seconds=$(($1 * seconds_a_crate))
    [ "$seconds" -le 60 ] || time="some $(((seconds + 59) / 60)) minutes"
    tell "crates to be proved first: $1. On two cores that takes $time, this once."
}

# prove LOG TOTAL NAME..: has rt prove the crates and build those that are programs; TOTAL is how many crates there are to tell of
prove() {
    local log="$1" total="$2"
    shift 2
    mkdir -p "$(dirname "$log")"
    (cd "$root" && lib/prove crates "$@") < /dev/null 2>&1 | follow "$total" > "$log.part" || refuse "$log"
}

# follow TOTAL: reads what rt says, tells of each crate that was proved or refused, and prints what is to be kept
follow() {
    local line n=0
    while IFS= read -r line; do
        case "$line" in
        'rt: '*' (unchanged since it was last proved)')
            n=$((n + 1))
            continue
            ;;
        'rt: ok, '*) continue ;;
        'rt: '*' proved ('*)
            n=$((n + 1))
            tell "crate $n of $1: ${line#rt: }"
            ;;
        'rt: '*'NOT PROVED'* | 'rt: '*'FAILED'*) tell "${line#rt: }" ;;
        esac
        printf '%s\n' "$line"
    done
}

# settle LOG: keeps what was said at this start, where something was
settle() {
    if [ -s "$1.part" ]; then mv "$1.part" "$1"; else rm -f "$1.part"; fi
}

# refuse LOG: ends, and says where the reason stands
refuse() {
    settle "$1"
    grep -qF "$(rt version)" "$root/README.md" || tell "README.md names another toolchain than this: $(rt version)"
    fail "not proved, so nothing is run. What the prover said is in ${1#"$root"/}."
}
