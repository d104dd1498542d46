#!/usr/bin/env bash
# Compares the pages with the sources. docs/PROMISES.md: no public function has a `requires`; every one has a row, a method under its
# type and a conversion `From` under its types, with at least two must-fail edits of its own crate (a function of uss_c, which hands on
# to another, at least one) and its own instances of claims_results, one for the result and one for each slice lent for writing; the
# exports of uss_c_c are the functions of uss_c, with the same parameters and promises, and each calls the one of its name; every row
# names a function, and every edit of the repository is named on the page, says in its second line at which fact it fails, and changes no
# proof. docs/PROTOCOL.md,
# docs/PROMISES.md, docs/DECISIONS.md, docs/DAMAGE.md, docs/HOUSE.md, docs/TABLES.md and CONTRIBUTING.md: each name that is given with
# its crate and file stands there. Every page: a link leads to a file of the repository, and to a heading of it where it names one;
# "docs/PROTOCOL.md, Section" names a section of it. Exits 1 where one of these does not hold.
set -euo pipefail
cd "$(dirname "$0")/.."
page=docs/PROMISES.md
results=crates/claims_results/proofs/OneResult.antt
failed=0
wrong() {
    echo "promises: $1"
    failed=1
}

# a line for each public function, a method under its type: its name, how many edits it has at least, and its lent slices: for each that
# is lent for writing its parameter and the parameter's place among all, as in `values:2`
functions="$(for source in crates/*/src/*.rt; do
    [ "$source" != crates/uss_c_c/src/lib.rt ] || continue
    crate="${source#crates/}"
    awk -v crate="${crate%%/*}" '
        function tell(    name, list, n, i, parts, lent) {
            name = head
            sub(/^ *pub (extern "C" )?fn /, "", name)
            sub(/[^a-z_0-9].*/, "", name)
            list = head
            sub(/^[^(]*\(/, "", list)
            sub(/\)[^)]*$/, "", list)
            n = split(list, parts, ",")
            for (i = 1; i <= n; i++) {
                if (parts[i] ~ /: *&mut /) {
                    sub(/:.*/, "", parts[i])
                    gsub(/ /, "", parts[i])
                    lent = lent " " parts[i] ":" (i - 1)
                }
            }
            print crate "::" type name, least lent
        }
        /^impl From</ {
            from = $0; sub(/^impl From</, "", from); sub(/>.*/, "", from)
            to = $0; sub(/.*> for /, "", to); sub(/ .*/, "", to)
            print crate "::" toupper(substr(to, 1, 1)) substr(to, 2) "From" from "::from", 2
        }
        /^impl/ { type = $0; sub(/^impl(<[^>]*>)? /, "", type); sub(/[^A-Za-z0-9].*/, "::", type) }
        /^}/ { type = "" }
        /^ *pub (extern "C" )?fn / { head = ""; reading = 1; least = crate == "uss_c" ? 1 : 2 }
        reading && (/^ *{/ || /^ *(ghost|requires|ensures) /) { reading = 0; tell() }
        reading { head = head $0 }
        reading && /{$/ { reading = 0; tell() }' "$source"
done)"

# a `requires` between a public function's name and its body
for source in crates/*/src/*.rt; do
    awk -v source="$source" '
        /^ *pub (extern "C" )?fn / { public = 1; name = $0 }
        /^ *fn / { public = 0 }
        /^ *{/ { public = 0 }
        public && /^ *requires / { print "promises: " source ": " name " has a requires"; bad = 1 }
        END { exit bad }' "$source" || failed=1
done

# exports CRATE: what a crate offers, its functions' heads and promises
exports() {
    sed -nE '/^pub (extern "C" )?fn /,/^\{/{s/^pub extern "C" fn/pub fn/;p}' "crates/$1/src/lib.rt"
}
diff <(exports uss_c) <(exports uss_c_c) || wrong 'uss_c_c does not export the functions of uss_c with their promises'
[ "$(grep -c '^pub extern "C" fn' crates/uss_c_c/src/lib.rt)" = "$(grep -c '^pub fn' crates/uss_c/src/lib.rt)" ] || wrong 'uss_c_c: its exports'
while read -r name; do
    [ "$(sed -n "/^pub extern \"C\" fn $name(/,/^}/p" crates/uss_c_c/src/lib.rt | grep -c "^    uss_c::$name(")" = 1 ] || wrong "uss_c_c::$name does not call uss_c::$name"
done < <(sed -nE 's/^pub extern "C" fn ([a-z_0-9]+).*/\1/p' crates/uss_c_c/src/lib.rt)

# prefix_of NAME: what the names of a function's instances start with: slave-serve for slave::serve, uss-slave for uss_c::uss_slave; a
# method has its type between, where that is not the crate's name, as read-answers-content-id for read_answers::Content::id and view-new
# for view::View::new; a conversion has its two, as address-number-of-fault for address::U32FromFault::from and
# address-fault-from-frame-fault for address::FaultFromFrameFault::from
prefix_of() {
    local crate="${1%%::*}" prefix="${1#*::}"
    if [ "${prefix##*::}" = from ]; then
        prefix="${prefix%::from}"
        prefix="${prefix/#U32From/NumberOf}"
    fi
    prefix="$crate-$(sed 's/::/-/; s/\(.\)\([A-Z]\)/\1-\l\2/g; s/^[A-Z]/\l&/' <<<"$prefix")"
    prefix="${prefix/#$crate-$crate-/$crate-}"
    prefix="${prefix#uss_c-}"
    echo "${prefix//_/-}"
}

# instance NAME PREFIX LAW STATEMENT: the law is in the file of results, with that statement about the contract of that function
instance() {
    local path="${1#*::}"
    grep -qxF "pub $3 : $4" "$results" && grep -qE "^use Rattle\.${1%%::*}\.proofs\.«?${path//::/»?\\.«?}»?\.Reads as $2\$" "$results"
}

# holds_a_reference NAME: a method of a struct that holds a reference; the statement of its contract is written out in claims_CRATE,
# HeldTable, as NewPost for new, with the proof that the source says the same
holds_a_reference() {
    local type="${1#*::}"
    grep -qE "^impl<'a> ${type%%::*}<'a>" "crates/${1%%::*}/src/lib.rt"
}

# held_instance NAME LAW: the law is in the file of results, with the statement that claims_CRATE has
held_instance() {
    local post="${1##*::}"
    post="${post^}Post"
    grep -qxF "pub $2 : OneResult $post" "$results" \
        && grep -qE "^use Rattle\.claims_${1%%::*}\.specs\.HeldTable\.\{.*\b$post\b.*\}\$" "$results" \
        && grep -qE "^ *pub ${1##*::}_stated :" "crates/claims_${1%%::*}/proofs/HeldTable.antt"
}

# left PLACE: what is in the slice of that place among the parameters when the call ends
left() {
    local path=''
    for _ in $(seq "$1"); do path="$path.1"; done
    echo "(λ κs s. s$path.0.now)"
}

rows=0
while IFS='|' read -r _ function _ _ edits laws _; do
    name="$(tr -d '` ' <<<"$function")"
    rows=$((rows + 1))
    read -r least lent < <(sed -nE "s/^$name //p" <<<"$functions") || true
    if [ -z "$least" ]; then
        wrong "a row names $name, which is no public function"
        continue
    fi
    count=0
    for edit in $(tr -d '`,' <<<"$edits"); do
        count=$((count + 1))
        [ -f "crates/${name%%::*}/must-fail/$edit.edit" ] || wrong "$name: no edit $edit in its crate"
    done
    [ "$count" -ge "$least" ] || wrong "$name: fewer must-fail edits than $least"
    prefix="$(prefix_of "$name")"
    own="${prefix//-/_}_one"
    if holds_a_reference "$name"; then
        held_instance "$name" "$own" || wrong "$name: no instance $own of its contract"
    else
        instance "$name" "$prefix" "$own" "OneResult $prefix.Post" || wrong "$name: no instance $own of its contract"
    fi
    for slice in $lent; do
        law="${prefix//-/_}_${slice%%:*}"
        own="$own $law"
        instance "$name" "$prefix" "$law" "OneExit $prefix.Post $(left "${slice##*:}")" || wrong "$name: no instance $law of its contract"
    done
    given="$(tr -d '`,' <<<"$laws" | xargs)"
    [ "$(xargs -n 1 <<<"$given" | sort)" = "$(xargs -n 1 <<<"$own" | sort)" ] || wrong "$name: its instances are $own, its row names $given"
done < <(grep -E '^\| `[a-z_]+::([A-Z][A-Za-z0-9]*::)?[a-z_0-9]+` \|' "$page")

for name in $(cut -d' ' -f1 <<<"$functions"); do
    grep -qF "| \`$name\` |" "$page" || wrong "$name has no row"
done
edits=0
for file in crates/*/must-fail/*.edit; do
    edits=$((edits + 1))
    edit="$(basename "$file" .edit)"
    grep -qE "(^|[^a-z_0-9])$edit([^a-z_0-9]|\$)" "$page" || wrong "the edit $file is not named"
    sed -n 2p "$file" | grep -q '^# fails at: ' || wrong "the second line of $file does not say at which fact it fails"
    ! grep -q '^file: proofs/' "$file" || wrong "$file changes a proof"
done

# places PAGE: the names that are given with crate and file, as in `name`, `name` (crate, File) and (`name`; crate, File): a line
# for each place, with crate, file and names
places() {
    local names='`[A-Za-z0-9_-]+`((,| and) `[A-Za-z0-9_-]+`)*' place='[a-z_]+, [A-Z][A-Za-z0-9]*'
    tr -s '\n ' ' ' < "$1" | grep -oE "$names( \($place\)|; $place)" \
        | sed -E 's/^(.*`)(; | \()([a-z_]+), ([A-Za-z0-9]+)\)?$/\3 \4 \1/; s/ and / /g' | tr -d '`,'
}

# stands CRATE FILE NAME: the name is defined or stated in that file of the crate
stands() {
    local part
    for part in specs proofs; do
        if [ -f "crates/$1/$part/$2.antt" ] \
            && grep -qE "^ *(abbrev |unfoldable )?pub ((record|data) )?$3( |\$)" "crates/$1/$part/$2.antt"; then
            return 0
        fi
    done
    return 1
}

named=0
for text in docs/PROTOCOL.md docs/PROMISES.md docs/DECISIONS.md docs/DAMAGE.md docs/HOUSE.md docs/TABLES.md CONTRIBUTING.md; do
    while read -r crate file names; do
        for name in $names; do
            named=$((named + 1))
            stands "$crate" "$file" "$name" || wrong "$text: no $name in crates/$crate, file $file.antt"
        done
    done < <(places "$text")
done

# anchors PAGE: the headings of a page as links name them
anchors() {
    sed -nE 's/^#+ //p' "$1" | tr 'A-Z ' 'a-z-' | tr -cd 'a-z0-9_\n-'
}

links=0
for text in README.md CONTRIBUTING.md docs/*.md; do
    for link in $(grep -oE '\]\([^) ]+\)' "$text" | sed -E 's/^..//; s/.$//; /^https?:/d'); do
        links=$((links + 1))
        goal="$text"
        [ -z "${link%%#*}" ] || goal="$(dirname "$text")/${link%%#*}"
        if [ ! -e "$goal" ]; then
            wrong "$text: there is no $link"
        elif [[ "$link" == *#* ]]; then
            anchors "$goal" | grep -xF -- "${link#*#}" > /dev/null || wrong "$text: no heading for $link"
        fi
    done
done
sections="$(sed -n 's/^## //p' docs/PROTOCOL.md | paste -sd'|')"
for text in README.md CONTRIBUTING.md docs/*.md include/uss.h; do
    while read -r place; do
        links=$((links + 1))
        grep -qE "^docs/PROTOCOL.md, ($sections)( |\$)" <<<"$place" || wrong "$text: no section for $place"
    done < <(tr -s '\n *' ' ' < "$text" | grep -oE 'docs/PROTOCOL\.md, [A-Z][a-z]+( [a-z]+)*')
done
echo "promises: $(wc -l <<<"$functions") public functions, $rows rows, $edits must-fail edits, $named names with their places, $links links"
exit "$failed"
