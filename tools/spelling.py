#!/usr/bin/env python3
"""Brings the definitions and lemmas of this repository to one spelling.

usage: python3 tools/spelling.py           rewrites the sources, the must-fail edits and the pages
       python3 tools/spelling.py --list    prints each old name and its new one, and what falls together

Types, records and facts are in upper camel case and stay. Every other name that a file of specs/ or proofs/ declares at its top is in
snake case: `setupOk` is `setup_ok`, `value-is` is `value_is`. A lemma that would have a definition's name ends in `_lem`. The proof of
a function f is f_spec. Functions of src/, C names and strings keep their names. The tables of names atop the files are laid out again.
Run after port.py on the commit that is named first in docs/PORT.md; PORTED lists what port.py itself respelled of these names.
"""
import glob
import os
import re
import sys

os.chdir(os.path.join(os.path.dirname(os.path.abspath(__file__)), ".."))

WORD = r"[\w\-'′]"
SIGNATURE = re.compile(r"^ *(?:(?:pattern|unfoldable|abbrev|pub|axiom) +)*([^\s:(){}.,;=]+) +(?:\{[^}]*\} *|\([^)]*\) *)*: ")
TYPE = re.compile(r"^ *(?:(?:pub|abbrev|unfoldable) +)*(?:record|data) +(?:pub +)?([^\s(:{]+)")

# what port.py made of a name of this repository
PORTED = {
    "addressOf": "address_of", "after-first": "after_first", "afterHead": "after_head", "all-append": "all_append", "all-cons": "all_cons",
    "all-fit": "all_fit", "all-none": "all_none", "all-take": "all_take", "allBytes": "all_bytes", "and-both": "and_both",
    "and-left": "and_left", "and-right": "and_right", "as-long": "as_long", "as-step": "as_step", "at-low": "at_low",
    "atMost": "at_most", "base-back": "base_back", "base-same": "base_same", "baseOf": "base_of", "bitAt": "bit_at",
    "bits-are": "bits_are", "bits-none": "bits_none", "bitsOf": "bits_of", "body-is": "body_is", "bodyOf": "body_of",
    "by-index": "by_index", "by-tests": "by_tests", "byAddress": "by_address", "byKind": "by_kind", "byteAt": "byte_at",
    "bytes-of": "bytes_of", "bytes-rest": "bytes_rest", "bytes-take": "bytes_take", "bytesOf": "bytes_of", "call-ends": "call_ends",
    "call-settled": "call_settled", "callAt": "call_at", "callOf": "call_of", "carried-of": "carried_of", "cond-same": "cond_same",
    "copy-more": "copy_more", "count-none": "count_none", "countOf": "count_of", "digits-decimal": "digits_decimal", "digits-more": "digits_more",
    "div-is": "div_is", "each-append": "each_append", "each-at": "each_at", "each-last": "each_last", "each-map": "each_map",
    "endOf": "end_of", "entriesAt": "entries_at", "entryAt": "entry_at", "fieldsOf": "fields_of", "fill-more": "fill_more",
    "fill-none": "fill_none", "filled-more": "filled_more", "find-none": "find_none", "first-read": "first_read", "first-taken": "first_taken",
    "firstOf": "first_of", "firstWord": "first_word", "fits-more": "fits_more", "fits-word": "fits_word", "flip-is": "flip_is",
    "found-below": "found_below", "found-number": "found_number", "frame-refused": "frame_refused", "frameOf": "frame_of", "from-at": "from_at",
    "getD-zip": "get_d_zip", "goes-on": "goes_on", "halved-word": "halved_word", "has-room": "has_room", "high-fits": "high_fits",
    "idOf": "id_of", "in-four": "in_four", "in-three": "in_three", "inRow": "in_row", "index-is": "index_is",
    "is-front": "is_front", "is-word": "is_word", "isRefused": "is_refused", "kindOf": "kind_of", "lastOf": "last_of",
    "le-on": "le_on", "length-digits": "length_digits", "length-more": "length_more", "length-most": "length_most", "lentBy": "lent_by",
    "lentOf": "lent_of", "list-right": "list_right", "listedOf": "listed_of", "low-bits": "low_bits", "low-fits": "low_fits",
    "memory-kept": "memory_kept", "more-of": "more_of", "named-back": "named_back", "named-here": "named_here", "named-past": "named_past",
    "no-room": "no_room", "nodeOf": "node_of", "none-left": "none_left", "none-yet": "none_yet", "nothing-left": "nothing_left",
    "number-is": "number_is", "number-same": "number_same", "numberIn": "number_in", "numberOf": "number_of", "odd-refused": "odd_refused",
    "ok-of": "ok_of", "on-fits": "on_fits", "one-each": "one_each", "one-holds": "one_holds", "one-more": "one_more",
    "one-set": "one_set", "open-kept": "open_kept", "or-left": "or_left", "or-right": "or_right", "orElse": "or_else",
    "pageOf": "page_of", "part-filled": "part_filled", "pass-all": "pass_all", "pass-step": "pass_step", "pause-alone": "pause_alone",
    "piecesOf": "pieces_of", "placeIn": "place_in", "placesOf": "places_of", "planAt": "plan_at", "product-is": "product_is",
    "product-small": "product_small", "put-front": "put_front", "putAll": "put_all", "read-is": "read_is", "read-none": "read_none",
    "read-table": "read_table", "readOf": "read_of", "round-trip": "round_trip", "rule-end": "rule_end", "run-at": "run_at",
    "run-end": "run_end", "run-on": "run_on", "run-past": "run_past", "run-settled": "run_settled", "run-short": "run_short",
    "runFrom": "run_from", "runOf": "run_of", "runs-after": "runs_after", "runs-number": "runs_number", "runs-on": "runs_on",
    "same-digits": "same_digits", "same-id": "same_id", "scaled-exact": "scaled_exact", "sent-is": "sent_is", "settledOf": "settled_of",
    "signedOf": "signed_of", "skip-all": "skip_all", "small-of": "small_of", "some-left": "some_left", "startIn": "start_in",
    "stays-open": "stays_open", "stepOf": "step_of", "stepsOf": "steps_of", "sums-on": "sums_on", "taken-of": "taken_of",
    "taken-runs": "taken_runs", "taskOf": "task_of", "to-one": "to_one", "topBit": "top_bit", "twoWords": "two_words",
    "upTo": "up_to", "value-grows": "value_grows", "value-none": "value_none", "value-on": "value_on", "valueAt": "value_at",
    "valueOf": "value_of", "walk-from": "walk_from", "walk-more": "walk_more", "walk-none": "walk_none", "walkOf": "walk_of",
    "whole-is": "whole_is", "word-back": "word_back", "word-fits": "word_fits", "word-small": "word_small", "wordAt": "word_at",
    "wordOf": "word_of", "words-back": "words_back", "wordsOf": "words_of", "xor-assoc": "xor_assoc", "xor-bytes": "xor_bytes",
    "xor-low": "xor_low", "zero-settled": "zero_settled",
}


def read(path):
    with open(path, encoding="utf-8") as f:
        return f.read()


def sources():
    return sorted(glob.glob("crates/*/src/*.rt") + glob.glob("crates/*/specs/**/*.antt", recursive=True) + glob.glob("crates/*/proofs/**/*.antt", recursive=True))


def declared():
    """The names that the files of specs/ and the lemma files of proofs/ declare, and those of types among them."""
    names, types = {}, set()
    for path in sorted(glob.glob("crates/*/specs/*.antt") + glob.glob("crates/*/proofs/*.antt")):
        for line in read(path).splitlines():
            if line.lstrip().startswith("--"):
                continue
            m = TYPE.match(line)
            if m:
                types.add(m.group(1))
                continue
            m = SIGNATURE.match(line)
            if m:
                names.setdefault(m.group(1), path)
    return names, types


# lemmas that would have a definition's name, by the files that hold them
LEMMAS = {"crates/claims_receiver/proofs": {"is_front": "is_front_lem"}, "crates/frame/proofs/check": {"xor_all": "xor_all_lem"}}
# port.py split a name of the library
OTHERS = {"get_d_zip": "get_or_zip"}


def snake(name):
    return re.sub(r"([a-z0-9])([A-Z])", lambda m: m.group(1) + "_" + m.group(2).lower(), name).replace("-", "_")


def table():
    names, types = declared()
    own = [n for n in names if n[0].islower() and n not in types and re.fullmatch(r"[\w\-']+", n)]
    definitions = {snake(n) for n in own if "-" not in n}
    made = dict(OTHERS)
    for n in own:
        s = snake(n)
        if "-" in n and s in definitions:
            s += "_lem"
        if s != n and n not in made:
            made[n] = s
    return made


def spec_names():
    """X-spec, as a Proof.antt exports it, is X_spec."""
    made = {}
    for path in glob.glob("crates/*/proofs/**/Proof.antt", recursive=True):
        for m in re.finditer(r"^pub ([\w\-]+)-spec :", read(path), re.M):
            made[m.group(1) + "-spec"] = m.group(1).replace("-", "_") + "_spec"
    return made


def turn(text, made):
    """The text with its names turned. A name with a dash stays in a comment, where it may be a word of plain English."""
    if not made:
        return text
    pattern = re.compile(r"(?<!tie\.)(?<!goal\.)(?<!" + WORD + r")(?:" + "|".join(sorted(map(re.escape, made), key=len, reverse=True)) + r")(?!" + WORD + r")")

    def one(line):
        note = re.search(r"(?:^|\s)(?:--|//)(?=\s|$)", line)
        at = note.start() if note else len(line)
        code = pattern.sub(lambda m: made[m.group(0)], line[:at])
        return code + pattern.sub(lambda m: m.group(0) if "-" in m.group(0) else made[m.group(0)], line[at:])

    return "\n".join(one(line) for line in text.split("\n"))


def laid_out(text):
    """Tables of names in comments, `--     NAME  WORDS`, with their words in one column."""
    lines = text.split("\n")
    i = 0
    while i < len(lines):
        j = i
        while j < len(lines) and re.match(r"^--     \S", lines[j]) and re.search(r"\S  +\S", lines[j][7:]):
            j += 1
        if j - i >= 2:
            cut = [re.match(r"^(--     .*?\S)  +(\S.*)$", line) for line in lines[i:j]]
            width = max(len(m.group(1)) for m in cut) + 4
            lines[i:j] = [m.group(1).ljust(width) + m.group(2) for m in cut]
        i = max(j, i + 1)
    return "\n".join(lines)


def put(path, old, new):
    if new != old:
        with open(path, "w", encoding="utf-8") as f:
            f.write(new)


def main():
    for place, names in LEMMAS.items():
        for path in sorted(glob.glob(place + "/**/*.antt", recursive=True)):
            put(path, read(path), turn(read(path), names))
    made = table()
    if "--list" in sys.argv:
        words = set()
        for path in sources():
            words |= set(re.findall(WORD + "+", read(path)))
        for n in sorted(made):
            print(n, made[n], "FALLS" if made[n] in words else "")
        back = {}
        for n, s in made.items():
            back.setdefault(s, []).append(n)
        print([b for b in back.values() if len(b) > 1])
        return
    made |= spec_names()
    for path in sources():
        old = read(path)
        put(path, old, laid_out(turn(old, made)) if path.endswith(".antt") else turn(old, made))
    # the edits and the pages have the names of before port.py
    late = {n: made.get(p, p) for n, p in PORTED.items()} | {n: s for n, s in made.items() if n not in PORTED}
    for path in sorted(glob.glob("crates/*/must-fail/*.edit")):
        put(path, read(path), turn(read(path), late))
    for path in ["README.md", "CONTRIBUTING.md"] + sorted(glob.glob("docs/*.md")):
        old = read(path)
        put(path, old, re.sub(r"`[^`\n]+`", lambda m: turn(m.group(0), late), old))


main()
