"""Reads include/uss.h for the manual pages: what ports/port/header.py reads of it (calls, structs, numbers), and the comments.

The form of the comments. The first comment of the file is for all calls. A comment that starts with "---- TITLE" opens a section;
what it says is for each call of the section. A call's own comment stands directly before its prototype, and its first sentence is
the page's first line. In both, a line "NAME  text" under an empty line explains a parameter, and lines set further in go on with it;
a paragraph that starts with "Numbers in test order:" has the answer numbers, and a call's own stands for the section's. The comment
of a struct or a macro stands before it, that of a number behind it on its line."""
import os
import re
import sys
from collections import namedtuple

ROOT = os.path.dirname(os.path.dirname(os.path.abspath(__file__)))
sys.path.insert(0, os.path.join(ROOT, "ports", "port"))

import header  # noqa: E402
from refuse import Refused  # noqa: E402

NUMBERS = "Numbers in test order:"

Note = namedtuple("Note", "first paragraphs parameters numbers")  # of a comment; parameters: name -> text
# parameters: (name, text); numbers: the paragraph, or None
Call = namedtuple("Call", "name returns text first paragraphs parameters numbers")
Struct = namedtuple("Struct", "name text definition")
Macro = namedtuple("Macro", "name value text")
# numbers: enum's name -> (title, [(names, number, text)])
Pages = namedtuple("Pages", "version every calls structs macros numbers")


def plain(comment):
    """The lines of a comment without its frame."""
    lines = comment[2:-2].split("\n")
    return [lines[0].strip()] + [re.sub(r"^ \* ?", "", line).rstrip() for line in lines[1:]]


def blocks(lines):
    """The paragraphs: lists of lines between empty lines."""
    block = []
    for line in [*lines, ""]:
        if line:
            block.append(line)
        elif block:
            yield block
            block = []


def parameters_of(block):
    """The parameters that a block explains, or None where it is text."""
    found, name = {}, None
    for line in block:
        start = re.fullmatch(r"([a-z_0-9]+)  +(\S.*)", line)
        if start:
            name = start[1]
            found[name] = start[2]
        elif name and line.startswith("   "):
            found[name] += " " + line.strip()
        else:
            return None
    return found


def note(lines):
    paragraphs, parameters, numbers = [], {}, None
    for block in blocks(lines):
        explained, text = parameters_of(block), " ".join(line.strip() for line in block)
        if explained:
            parameters.update(explained)
        elif text.startswith(NUMBERS):
            numbers = text
        else:
            paragraphs.append(text)
    first = re.split(r"[.:;](?:\s|$)", paragraphs[0])[0] if paragraphs else None
    return Note(first, paragraphs, parameters, numbers)


def before(text, place):
    """The comment that ends directly before a place, or None."""
    end = len(text[:place].rstrip())
    if not text[:end].endswith("*/"):
        return None
    return text[text.rindex("/*", 0, end):end]


def section_before(text, place):
    """What the section of a place says, and its title."""
    start = text.rfind("/* ----", 0, place)
    if start < 0:
        return "", note([])
    lines = plain(text[start:text.index("*/", start) + 2])
    return lines[0].removeprefix("----").strip(), note(lines[1:])


def call_of(path, text, call):
    at = re.search(rf"^\w+ {call.name}\(", text, re.M).start()
    comment = before(text, at)
    if comment is None or comment.startswith("/* ----"):
        raise Refused(f"{path}: {call.name} has no comment")
    own, section = note(plain(comment)), section_before(text, at)[1]
    if own.first is None:
        raise Refused(f"{path}: the comment of {call.name} does not say what it does")
    texts = {**section.parameters, **own.parameters}
    unknown = set(own.parameters) - {p.name for p in call.parameters}
    if unknown:
        raise Refused(f"{path}: the comment of {call.name} explains {' '.join(sorted(unknown))}, which it does not take")
    explained = [(p.name, texts[p.name]) for p in call.parameters if p.name in texts]
    return Call(call.name, call.returns, call.text, own.first, section.paragraphs + own.paragraphs, explained,
                own.numbers or section.numbers)


def struct_of(path, text, name):
    end = re.search(rf"^}} {name};", text, re.M)
    start = text.rindex("typedef struct", 0, end.start())
    comment = before(text, start)
    if comment is None or comment.startswith("/* ----"):
        raise Refused(f"{path}: {name} has no comment")
    return Struct(name, " ".join(plain(comment)).strip(), text[start:end.end()])


def numbers_of(text, name, constants):
    """The title over an enum, and its numbers with what is said behind each."""
    start = re.search(rf"^enum {name} ", text, re.M).start()
    said = dict(re.findall(r"^ +(\w+) = \d+,? +/\* (.*?) \*/$", text[start:text.index("};", start)], re.M))
    rows = []
    for constant, number in constants.items():
        others = re.findall(rf"^#define (USS_\w+) {constant}$", text, re.M)
        rows.append((", ".join([constant, *others]), number, said.get(constant, "")))
    return section_before(text, start)[0], rows


def version_of(path, text):
    """The version by its three numbers; the text beside them says the same."""
    parts = [re.search(rf"^#define USS_VERSION_{part} (\d+)$", text, re.M) for part in ("MAJOR", "MINOR", "PATCH")]
    said = re.search(r'^#define USS_VERSION "(.*)"$', text, re.M)
    if said is None or None in parts or said[1] != ".".join(part[1] for part in parts):
        raise Refused(f"{path}: USS_VERSION does not say what its three numbers say")
    return said[1]


def read(path):
    found = header.read(path)
    with open(path) as file:
        text = file.read()
    macros = []
    for macro in re.finditer(r"^#define (USS_\w+) (\d+)$", text, re.M):
        comment = before(text, macro.start())
        if comment:
            macros.append(Macro(macro[1], macro[2], " ".join(plain(comment)).strip()))
    top = text.index("/*")
    return Pages(version_of(path, text), plain(text[top:text.index("*/", top) + 2]),
                 [call_of(path, text, call) for call in found.calls.values()],
                 [struct_of(path, text, name) for name in found.structs],
                 [macro for macro in macros if not macro.name.startswith("USS_VERSION")],
                 {name: numbers_of(text, name, constants) for name, constants in found.constants.items()})
