#!/usr/bin/env bash
# Runs telegram-list and compares what it prints and its exit status: bytes over a pipe (document 01, Listing program), in parts, none,
# the longest telegram with and without more behind it, more than 300 bytes; each option; files; hexadecimal digits in every form and
# bad ones; input that cannot be read and output that cannot be written; every text of --explain and every area; README.md's example.
# The first two starts ask `rt`, the others a stand-in that says yes. Exits 1 on a difference.
set -euo pipefail
root="$(cd "$(dirname "$(readlink -f "${BASH_SOURCE[0]}")")/.." && pwd)"
room="$(mktemp -d)"
trap 'rm -rf "$room"' EXIT
list="$root/telegram-list"
example='02 07 00 04 00 21 00 1C 3C'
sound=('bytes 9 lge 7 node 0 normal' 'bcc 60')
. "$root/tests/saying.sh"
# seconds that a start may take
patience=600
# from any folder
cd "$room"

# ends STATUS ARGUMENT..: what telegram-list prints for them, to the byte, where it ends with that status and in time
ends() {
    local due="$1" status=0
    shift
    timeout "$patience" "$list" "$@" || status=$?
    [ "$status" = "$due" ] && echo end || echo "status $status, not $due"
}

# listing LINE..: the listing with these lines, as `ends` gives it
listing() {
    printf '%s\n' 'telegram listing 1' "$@" end
}

# compare NAME STATUS LINE..: standard input through telegram-list, against the lines
compare() {
    local name="$1" status="$2"
    shift 2
    say "$name" "$(listing "$@")" "$(ends "$status")"
}

# told NAME STATUS TEXT ARGUMENT..: nothing on standard output, and the text on standard error
told() {
    local name="$1" status="$2" text="$3"
    shift 3
    say "$name" "telegram-list: $text"$'\n'end "$(ends "$status" "$@" 2>&1)"
}

# zeros N: N bytes 00
zeros() {
    head -c "$1" /dev/zero
}

# raw BYTE..: the bytes that the hexadecimal digits write
raw() {
    local escaped
    printf -v escaped '\\x%s' "$@"
    # shellcheck disable=SC2059
    printf "$escaped"
}

# telegram ADR BYTE..: a whole telegram, in hexadecimal digits, with its LGE and BCC
telegram() {
    local byte sum=0 all
    printf -v all '02 %02X %s' $(($# + 1)) "$*"
    for byte in $all; do sum=$((sum ^ 16#$byte)); done
    printf '%s %02X\n' "$all" "$sum"
}

# the longest telegram: LGE 254, and zeros for ADR and net bytes
longest() {
    raw 02 FE
    zeros 253
    raw FC
}

# the example of document 01, in parts
parts() {
    raw 02
    sleep 0.2
    raw 07 00 04 00
    sleep 0.2
    raw 21 00 1C 3C
}

# the longest telegram in three parts
longest_parts() {
    raw 02 FE
    sleep 0.2
    zeros 253
    sleep 0.2
    raw FC
}

# ---- the first start: the program alone is proved again, and that is told; the second says nothing

first_starts() {
    local log="$root/target/first-run/telegram-list.log" crates
    rm -rf "$root/target/stamp/telegram_list" "$root/crates/telegram_list/out" "$log"
    say 'the first start lists' "$(listing "${sound[@]}")" "$(raw $example | ends 0 2> "$room/told")"
    crates="$(sed -nE 's/^telegram-list: crate ([0-9]+) of \1: telegram_list proved \([0-9]+ s\)$/last of all/p' "$room/told")"
    say 'it tells how many crates there are' 'last of all' "$crates"
    say 'it says beforehand how long it takes' 'telegram-list: crates to be proved first: ' "$(head -n 1 "$room/told" | grep -o '^.*first: ')"
    say 'the log has what the prover said' 'logic=proved' "$(grep -o '^logic=proved' "$log")"
    say 'the second start tells nothing' "$(listing "${sound[@]}")" "$(raw $example | ends 0 2>&1)"
}

# ---- bytes over a pipe

over_a_pipe() {
    local file
    compare 'the example of document 01' 0 "${sound[@]}" < <(raw $example)
    compare 'the example in parts' 0 "${sound[@]}" < <(parts)
    compare 'empty input' 1 'bytes 0 refused 10' < /dev/null
    compare '256 good bytes' 0 'bytes 256 lge 254 node 0 normal' 'bcc 252' < <(longest)
    compare '256 good bytes in parts' 0 'bytes 256 lge 254 node 0 normal' 'bcc 252' < <(longest_parts)
    compare '256 good bytes and one more' 1 'bytes 257 refused 13' < <(longest; zeros 1)
    compare '256 good bytes, then more in a second part' 1 'bytes 260 refused 13' < <(longest; sleep 0.2; zeros 4)
    compare '300 bytes' 1 'bytes 300 refused 13' < <(longest; zeros 44)
    compare '301 bytes' 1 'bytes 300 refused 13' < <(longest; zeros 45)
    compare '100000 bytes' 1 'bytes 300 refused 13' < <(longest; zeros 99744)
    compare 'four bytes' 1 'bytes 4 refused 10' < <(zeros 4)
    for file in "$root"/README.md "$root"/crates/telegram_list/stdin; do
        say "what the program prints of $(basename "$file"), to the byte" "$("$root/target/bin/telegram_list" < "$file" | od -c)" \
            "$("$list" < "$file" | od -c)"
    done
    # README.md's example, in sh
    say 'the example of README.md, in sh' "$(sed -n '/^    telegram listing 1$/,/^$/s/^    //p' "$root/README.md")" \
        "$(cd "$root" && sh -c "$(sed -n 's/^    \(printf .*telegram-list\)$/\1/p' README.md)")"
}

# ---- hexadecimal digits

hexadecimal() {
    local c_form="0x${example// /, 0x}" good
    good="$(listing "${sound[@]}")"
    # shellcheck disable=SC2086
    say 'bytes as arguments' "$good" "$(ends 0 --hex $example)"
    say 'bytes in one argument' "$good" "$(ends 0 --hex "$example")"
    say 'without blanks, in small letters' "$good" "$(tr -d ' ' <<<"${example,,}" | ends 0 --hex)"
    say 'as C writes them, on two lines with CR LF' "$good" "$(sed 's/0x21/\r\n&/' <<<"$c_form," | ends 0 --hex)"
    say 'with 0X, some together' "$good" "$(ends 0 --hex 0X0207 00,04 0x00 21001C '3C ')"
    say 'the same as raw bytes, 300 and more' "$(listing 'bytes 300 refused 13')" \
        "$( (longest; zeros 99) | od -An -v -tx1 | ends 1 --hex)"
    say 'no digits' "$(listing 'bytes 0 refused 10')" "$(ends 1 --hex < /dev/null)"
    told 'a bad digit in an argument' 2 'byte argument 3, column 1: 0g is not two hexadecimal digits' --hex 02 07 0g 04
    told 'a bad digit inside an argument' 2 'byte argument 1, column 8: 0x0 is not two hexadecimal digits' --hex '02 07, 0x0 3'
    told 'a digit too many' 2 'line 2, column 5: 0 is not two hexadecimal digits' --hex < <(printf '02\n07000\n')
    told 'raw bytes in place of digits' 2 "line 1, column 1: \$'\\002\\aab' is not two hexadecimal digits" --hex < <(printf '\002\007ab')
}

# ---- files, and what cannot be read or written

files() {
    # shellcheck disable=SC2086
    raw $example > good
    # shellcheck disable=SC2086
    raw $example 00 > long
    cp good ./-odd
    say 'a file' "$(listing "${sound[@]}")" "$(ends 0 good)"
    say 'a file whose name starts with -' "$(listing "${sound[@]}")" "$(ends 0 -- -odd)"
    say 'several files' "$(printf '%s\n' 'file good' 'telegram listing 1' "${sound[@]}" 'file long' 'telegram listing 1' 'bytes 10 refused 13' \
        'file -odd' 'telegram listing 1' "${sound[@]}" end)" "$(ends 1 good long -- -odd)"
    say 'several files, one missing' "$(printf '%s\n' 'telegram-list: none: no such file' 'file long' 'telegram listing 1' \
        'bytes 10 refused 13' end)" "$(ends 2 none long 2>&1)"
    told 'a missing file' 2 'none: no such file' none
    told 'a folder' 2 '.: a folder' .
    told 'a folder as standard input' 2 'standard input cannot be read' < .
    told 'a folder as standard input, for digits' 2 'standard input cannot be read' --hex < .
    say 'no standard input' 'telegram-list: standard input cannot be read'$'\n'end "$(ends 2 2>&1 <&-)"
    told 'an option that is none' 2 'there is no option --list; telegram-list --help says how it is called' --list
    say 'a full disk' 'telegram-list: the output cannot be written'$'\n'2 "$(full good)"
    say 'a full disk, and a refused telegram' 'telegram-list: the output cannot be written'$'\n'2 "$(full long)"
    say 'a full disk, for --help' 'telegram-list: the output cannot be written'$'\n'2 "$(full --help)"
    say 'no standard output' 'telegram-list: the output cannot be written'$'\n'2 "$(timeout "$patience" "$list" good 2>&1 >&- || echo $?)"
    say 'nobody who reads' 'telegram-list: the output cannot be written'$'\n'2 "$( ({ sleep 0.2; timeout "$patience" "$list" good 2>&3 || echo $? >&3; } | true) 3>&1)"
    say '--help names every option' "$(grep -oE '^    --[a-z]+' "$list" | tr -d ' ' | sort -u)" "$(ends 0 --help | grep -oE -- '--[a-z]+' | sort -u)"
}

# full ARGUMENT..: what is told and the status, where standard output is a full disk
full() {
    timeout "$patience" "$list" "$@" 2>&1 > /dev/full || echo $?
}

# ---- what --explain says

# texts: a line "number N TEXT" or "error N TEXT" of include/uss_text.h for each N that a listing or a reply may have
texts() {
    local errors
    errors="$(gcc -fpreprocessed -E -P "$root/include/uss.h" | tr -d '\n' | grep -oE 'enum uss_error \{[^}]*\}' | grep -oE 'USS_[A-Z_]+' | paste -sd,)"
    cat > texts.c <<PROGRAM
#include "uss_text.h"
#include <stdio.h>
int main(void)
{
    const uint32_t errors[] = {$errors, 107};
    size_t i;
    for (i = 10; i <= 15; i++)
        printf("number %u %s\n", (unsigned)i, uss_number_text((uint32_t)i));
    for (i = 0; i < sizeof errors / sizeof errors[0]; i++)
        printf("error %u %s\n", (unsigned)errors[i], uss_error_text(errors[i]));
    return 0;
}
PROGRAM
    gcc -std=c99 -Wall -Wextra -Werror -pedantic -I"$root/include" -o texts texts.c && ./texts
}

# refused BYTES TEXT: what is said after the listing of bytes that are refused starts with the number's text, then this one
refused() {
    local said number expected line
    said="$(ends 1 --explain --hex "$1" | tail -n +2)"
    number="$(sed -nE '1s/.* refused ([0-9]+).*/\1/p' <<<"$said")"
    expected="refused $number, $(sed -n "s/^number $number //p" said): $2"
    line="$(sed -n 2p <<<"$said")"
    say "explained, $number: $2" "$expected" "${line:0:${#expected}}"
}

refusals() {
    refused '02 03' '2 came.'
    refused '05 02 03 04 05' 'it is 05, and the first 02 is byte 2.'
    refused '05 03 03 04 05' 'it is 05, and no 02 follows.'
    refused '02 02 03 04 05' 'it is 2.'
    refused '02 04 03 04 05' '6 are due and 5 came.'
    refused '02 03 03 04 05 06' '5 are due and 6 came.'
    refused '02 03 03 04 05' 'the bytes before it give 06, and 05 came. Noise'
    refused '02 03 03 04 04' 'the bytes before it give 06, and 04 came. That is the XOR without the 02'
    refused "$(telegram A0 04)" 'it is A0, with bit 7 set.'
    refused "$(telegram 60 04)" 'it is 60, with broadcast and mirror, bits 5 and 6, both set.'
}

# explained BYTES..: the lines after each listing, of sound telegrams given in hexadecimal digits, all at one start
explained() {
    local n=0 bytes names=()
    for bytes; do
        n=$((n + 1))
        # shellcheck disable=SC2086
        raw $bytes > "sound.$n"
        names+=("sound.$n")
    done
    # one more, so that there are several
    ends 0 --explain good "${names[@]}" | sed '1,/^file sound.1$/d; /^file /d; /^telegram listing 1$/d; /^bytes /d; /^bcc /d'
}

# every set-up with so many net words is read, and no other
set_ups() {
    local words pkw pzd telegrams=() due=''
    for words in 1 2 3 4 5 6 7 8 9; do
        telegrams+=("$(telegram 03 $(for _ in $(seq "$words"); do echo 00 00; done))")
        for pkw in 0 3 4; do
            for pzd in 0 1 2 3 4; do
                [ $((pkw + pzd)) != "$words" ] || due+="PKW $pkw, PZD $pzd:"$'\n'
            done
        done
        [ "$words" != 9 ] || due+='none'
    done
    say 'every set-up that fits the bytes' "$due" "$(explained "${telegrams[@]}" | grep -oE '^PKW .*|^No set-up' | sed 's/^No set-up/none/')"
    say 'odd net bytes fit no set-up' 'No set-up' "$(explained "$(telegram 03 00 00 00)" | grep -o '^No set-up')"
}

# the parameter of each page nibble, by the weights of its bits
every_page() {
    local nibble page telegrams=() due=''
    for nibble in 0 1 2 3 4 5 6 7 8 9 A B C D E F; do
        page=$(((16#$nibble >> 3) * 1 + (16#$nibble >> 2 & 1) * 8 + (16#$nibble >> 1 & 1) * 4 + (16#$nibble & 1) * 2))
        telegrams+=("$(telegram 03 17 CF "${nibble}0" 05 00 00)")
        due+="IND ${nibble}005: page nibble $((16#$nibble)) is page $page, index 5: parameter $((2000 * page + 1999))"$'\n'
    done
    say 'page and parameter of every nibble' "${due%$'\n'}" "$(explained "${telegrams[@]}" | sed -n 's/^  \(IND\)/\1/p')"
}

# the errors of a reply with ID 7, in three words and in four, without process words
every_error() {
    local error text telegrams=() due='' high low
    while read -r error text; do
        printf -v high %02X $((error / 256))
        printf -v low %02X $((error % 256))
        telegrams+=("$(telegram 03 74 38 00 00 "$high" "$low")" "$(telegram 03 74 38 00 00 00 00 "$high" "$low")")
        due+="PWE $high$low: word $error; as a reply error $error, $text"$'\n'
        due+="PWE 0000 $high$low: word $error, double $error; as a reply error $error, $text"$'\n'
    done < <(sed -n 's/^error //p' said)
    # in four words, a reading as three words and one process word comes too; its error is PWE1
    say 'the text of every error' "${due%$'\n'}" \
        "$(explained "${telegrams[@]}" | awk '/^PKW/ { whole = /PZD 0:/ } whole && /^  PWE/' | sed 's/^  //')"
}

areas() {
    say 'the areas of K2, read in four words and in three' "$(printf '%s\n' 'PKW 3, PZD 3:' \
        '  PKE 143A: ID 1, as a task "read", as a reply "word"; base 1082' \
        '  IND 0000: page nibble 0 is page 0, index 0: parameter 1082' \
        '  PWE 0000: word 0' '  PZD 0000 047F 2000' 'PKW 4, PZD 2:' \
        '  PKE 143A: ID 1, as a task "read", as a reply "word"; base 1082' \
        '  IND 0000: page nibble 0 is page 0, index 0: parameter 1082' \
        '  PWE 0000 0000: word 0, double 0' '  PZD 047F 2000')" \
        "$(explained '02 0E 03 14 3A 00 00 00 00 00 00 04 7F 20 00 7A' | grep -vE '^(sound|The|end)')"
    say 'a value with a sign' '  PWE FFFF FF9C: word 65436 (with a sign -100), double 4294967196 (with a sign -100)' \
        "$(explained "$(telegram 03 12 BC 00 00 FF FF FF 9C)" | grep '^  PWE FFFF FF9C')"
    say 'a base that names no parameter, and bits that no reply has' "$(printf '%s\n' \
        '  PKE 1FD0: ID 1, as a task "read", as a reply "word"; base 2000; bit 11 is set, which no reply has' \
        '  IND 8100: page nibble 8 is page 1, index 0: no parameter, since the base is over 1999; bits 11 to 8 are not all 0, which no reply has')" \
        "$(explained "$(telegram 03 1F D0 81 00 00 00)" | grep -E '^  (PKE|IND)')"
    say 'a broadcast' "$(printf '%s\n' 'PKW 3, PZD 1:' '  selector 0002, mask of the first process word FFFF, of the second 0000' \
        '  PZD 0000' 'PKW 4, PZD 0:' \
        '  selector 0002, mask of the first process word FFFF, of the second 0000, fourth word 0000' '  no process words')" \
        "$(explained "$(telegram 20 00 02 FF FF 00 00 00 00)" | sed -n '/^PKW 3/,$p' | grep -v '^end')"
    say 'a mirror' 'sound: node 3 sends the same bytes back; net bytes 4, which are not looked at' \
        "$(explained "$(telegram 43 65 63 68 6F)" | grep -v '^end')"
}

first_starts
mkdir stand-in
printf '#!/bin/sh\necho "rt: ok, nothing looked at"\n' > stand-in/rt
chmod +x stand-in/rt
PATH="$room/stand-in:$PATH"
patience=60
over_a_pipe
hexadecimal
files
texts > said
refusals
set_ups
every_page
every_error
areas
exit "$failed"
