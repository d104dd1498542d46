"""Writes the manual pages from the comments of include/uss.h: uss.7 for the whole, and a page of section 3 for each call.
    python3 -B packaging/manual.py FOLDER
Exits 1 and writes nothing where a call has no comment, or CHANGELOG.md no entry of the header's version."""
import os
import re
import sys
import textwrap

import comments
from comments import ROOT, Refused

EVERY = ("What holds of every call", "What the caller owes")


def escape(text, dash=r"(?<![A-Za-z0-9])-(?=[\w-])"):
    """Text with nothing that roff reads as its own; a dash that is a sign, and in code every dash, stays plain."""
    return re.sub(dash, r"\\-", text.replace("\\", "\\e"))


def guarded(line):
    """A line that roff does not take for a request."""
    return "\\&" + line if line[:1] in (".", "'") else line


def marked(text):
    """Running text: names of calls in bold, what stands in backticks in italics."""
    text = re.sub(r"`([^`]+)`", r"\\fI\1\\fP", escape(text))
    return re.sub(r"\b(uss_[a-z_]+|USS_[A-Z_]+)\b", r"\\fB\1\\fP", text)


def lines_of(text):
    """A new line for each sentence, as roff wants it, and none longer than a terminal's."""
    sentences = [marked(sentence) for sentence in re.split(r"(?<=[.:])\s+(?=[A-Z0-9])", text)]
    return [guarded(line) for sentence in sentences for line in textwrap.wrap(sentence, 78, break_on_hyphens=False)]


def paragraph(text):
    return [".PP", *lines_of(text)]


def item(head, text):
    return [".TP", head, *(lines_of(text) if text else ["\\&"])]


def code(text):
    return [".PP", ".in +4n", ".EX", *(guarded(escape(line, "-")) for line in text.split("\n")), ".EE", ".in"]


def wrapped(prototype):
    """A prototype in lines of at most 72 characters, broken between parameters."""
    head, rest = prototype.split("(", 1)
    lines, line = [], head + "("
    for part in rest.split(", "):
        if not line.endswith("(") and len(line) + 2 + len(part) > 72:
            lines.append(line + ",")
            line = "    " + part
        else:
            line += part if line.endswith("(") else ", " + part
    return "\n".join([*lines, line + ";"])


def said(blocks):
    """Blocks of the file's first comment: paragraphs, and lists whose entries start with a dash."""
    out = []
    for block in blocks:
        text = "\n".join(block)
        start, *entries = re.split(r"\n\s*- ", text)
        out += paragraph(" ".join(start.split()))
        for entry in entries:
            out += [".IP \\(bu 2", *lines_of(" ".join(entry.split()))]
    return out


def numbers_in(sentence):
    """The answer numbers of "Numbers in test order: 20 21, then 0 or 1. ...", in that order."""
    return [int(number) for number in re.findall(r"\b\d+\b", re.split(r"\.\s|\.$", sentence)[0])]


def head(name, section, pages, date, first):
    first = first if first[1:2].isupper() else first[0].lower() + first[1:]
    return [f".TH {name.upper()} {section} {date} \"uss {pages.version}\" \"USS slave and master\"", ".SH NAME", f"{name} \\- {escape(first)}"]


def see_also(names):
    return [".SH SEE ALSO", *(f".BR {name} ({section}){',' if i + 1 < len(names) else ''}" for i, (name, section) in enumerate(names))]


def answers(call, pages):
    """What a call returns: the struct it comes in, and the numbers in the order in which they are tested."""
    out = [".SH RETURN VALUE"]
    for struct in pages.structs:
        if struct.name == call.returns:
            out += lines_of(struct.text) + code(struct.definition)
    if call.returns.startswith("uint"):
        out += [f"A number of type {call.returns}; see above."]
    if call.numbers:
        known = {number: (constant, text) for constant, number, text in pages.numbers["uss_number"][1]}
        out += paragraph(call.numbers)
        for number in numbers_in(call.numbers):
            if number not in known:
                raise Refused(f"{call.name}: {number} is no number of enum uss_number")
            out += item(f"{number} \\fB{known[number][0]}\\fP", known[number][1])
    return out


def page_of(call, pages, date):
    out = head(call.name, 3, pages, date, call.first)
    out += [".SH SYNOPSIS", ".nf", ".B #include <uss.h>", ".PP", *(f'.B "{line}"' for line in wrapped(call.text).split("\n")), ".fi"]
    out += [".SH DESCRIPTION", *lines_of(call.paragraphs[0])]
    for text in call.paragraphs[1:]:
        out += paragraph(text)
    if call.parameters:
        out += [".SS Parameters"]
        for name, text in call.parameters:
            out += item(f".I {name}", text)
    out += answers(call, pages)
    every = [block for block in comments.blocks(pages.every) if " ".join(block).startswith(EVERY)]
    out += [".SH NOTES", *said(every)[1:]]
    return out + see_also([("uss", 7)] + [(other.name, 3) for other in pages.calls if other.name != call.name])


def overview(pages, date):
    first, *rest = comments.blocks(pages.every)
    out = head("uss", 7, pages, date, re.split(r"[.](?:\s|$)", " ".join(first))[0])
    out += [".SH SYNOPSIS", ".nf", ".B #include <uss.h>", ".PP", ".B cc file.c $(pkg\\-config \\-\\-cflags \\-\\-libs uss)", ".fi"]
    out += [".SH DESCRIPTION", *said(rest)[1:], ".SH CALLS"]
    for call in pages.calls:
        out += item(f".BR {call.name} (3)", call.first + ".")
    out += [".SH STRUCTS"]
    for i, struct in enumerate(pages.structs):
        out += (paragraph(struct.text) if i else lines_of(struct.text)) + code(struct.definition)
    out += [".SH CONSTANTS"]
    for macro in pages.macros:
        out += item(f"\\fB{macro.name}\\fP {macro.value}", macro.text)
    for name, (title, rows) in pages.numbers.items():
        short = re.match(r"[^:;]*", title)[0]
        out += [f".SH {escape(short).upper()}", f"These are \\fBenum {name}\\fP" + (":" if title != short else "."), *lines_of((title[len(short) + 1 :] + ".").strip(" ") if title != short else "")]
        for constant, number, text in rows:
            out += item(f"{number} \\fB{constant}\\fP", text)
    return out + see_also([(call.name, 3) for call in pages.calls])


def date_of(version):
    """The day of the version's entry in CHANGELOG.md."""
    with open(os.path.join(ROOT, "CHANGELOG.md")) as file:
        entry = re.search(rf"^## {re.escape(version)} \((\d{{4}}-\d\d-\d\d)\)$", file.read(), re.M)
    if entry is None:
        raise Refused(f"CHANGELOG.md has no entry of version {version}")
    return entry[1]


def main():
    if len(sys.argv) != 2:
        sys.exit("manual.py: a folder is expected")
    pages = comments.read(os.path.join(ROOT, "include", "uss.h"))
    date = date_of(pages.version)
    made = {os.path.join("man7", "uss.7"): overview(pages, date)}
    for call in pages.calls:
        made[os.path.join("man3", f"{call.name}.3")] = page_of(call, pages, date)
    for name, lines in made.items():
        path = os.path.join(sys.argv[1], name)
        os.makedirs(os.path.dirname(path), exist_ok=True)
        with open(path, "w") as file:
            file.write("\n".join(lines) + "\n")


if __name__ == "__main__":
    try:
        main()
    except Refused as why:
        sys.exit(f"manual.py: {why}")
