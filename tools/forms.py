#!/usr/bin/env python3
"""Counts the places of crates/*/src that docs/DESIGN-PASS.md speaks of, point by point.

usage: python3 tools/forms.py [--list] [--of COMMIT]    of the sources as they lie here, or of a commit

A place is a line that the pattern of its point finds:
 1  an enum with a case for a refusal or for nothing beside its other cases; a flag that says whether the value beside it counts; a struct's
    field, a function's result or a return that is a number, 0 or another, where something is refused or missing
 2  functions of 4 lines or more whose bodies are the same but for names, types and numbers, and functions of one name in two crates
 3  a loop that counts an index by hand: while and loop, and a for over 0..n whose body takes one element of a slice by it
 4  a conversion, a comparison, a default or a printing that is written by hand; a struct or enum that derives Copy and not PartialEq
 5  a fact that stands in the clauses of three or more functions of a crate; a function with seven or more parameters
 6  a slice and beside it a number that says how much of it counts
 7  a match on a number that chooses the function to call
 8  answers of goals in proofs/, lemmas there
"""
import collections
import glob
import os
import re
import subprocess
import sys

os.chdir(os.path.join(os.path.dirname(os.path.abspath(__file__)), ".."))


def texts(of):
    """Path to text, of a commit or of the files that lie here."""
    wanted = re.compile(r"crates/\w+/(src/[\w/]*\.rt|proofs/[\w/]*\.antt)$")
    if of is None:
        names = [p for p in sorted(glob.glob("crates/**", recursive=True)) if wanted.fullmatch(p)]
        return {name: open(name, encoding="utf-8").read() for name in names}
    names = subprocess.run(["git", "ls-tree", "-r", "--name-only", of], capture_output=True, text=True, check=True).stdout.split()
    return {name: subprocess.run(["git", "show", f"{of}:{name}"], capture_output=True, text=True, check=True).stdout
            for name in names if wanted.fullmatch(name)}


Function = collections.namedtuple("Function", "path line name public parameters result clauses body")


def functions(path, text):
    """The functions of a source; those of an impl too."""
    found = []
    lines = text.split("\n")
    for at, line in enumerate(lines):
        head = re.match(r"^( *)(pub )?(?:extern \"C\" )?fn (\w+)", line)
        if not head:
            continue
        indent, end, opens = head[1], at, False
        while end + 1 < len(lines) and lines[end] != indent + "}" and not (end == at and line.endswith("}")):
            opens = opens or lines[end] == indent + "{" or bool(re.search(r"(\)|\) -> .*|^" + indent + r"\).*) \{$", lines[end]))
            if not opens and lines[end].endswith(";"):
                break  # a trait's function without a body
            end += 1
        whole = "\n".join(lines[at:end + 1])
        opened = re.search(r"^ *(?:.*\) )?(?:-> .*)?\{$", whole, re.M)
        start = opened.end() if opened else len(whole)
        signature = whole[:start]
        inside = re.match(r".*?\((.*?)\)(?: -> ([^\n{]*))?", re.sub(r"\n *(?=[\w)])", " ", signature).replace("&mut ", "&mut_"), re.S)
        parameters = [p for p in re.split(r", ?(?![^<\[(]*[>\])])", inside[1].strip().rstrip(",")) if p] if inside else []
        clauses = re.findall(r"(?:requires|ensures)[^{]*\{ (.*) \}$", signature, re.M)
        found.append(Function(path, at + 1, head[3], bool(head[2]), parameters, (inside[2] or "").strip() if inside else "", clauses, whole[start:]))
    return found


def shape(body):
    """A body without names, types and numbers."""
    body = re.sub(r"//.*", "", body)
    body = re.sub(r"\b(?!if|else|while|for|in|loop|match|return|let|mut|break|as\b)[A-Za-z_]\w*(?:::\w+)*", "n", body)
    return re.sub(r"\s+", " ", re.sub(r"\b\d\w*", "0", body)).strip()


def main():
    arguments = sys.argv[1:]
    listed = "--list" in arguments
    of = arguments[arguments.index("--of") + 1] if "--of" in arguments else None
    files = texts(of)
    sources = {p: t for p, t in files.items() if "/src/" in p}
    every = [f for p, t in sources.items() for f in functions(p, t)]
    points = collections.OrderedDict()

    def place(point, path, line, what):
        points.setdefault(point, []).append((path, line, " ".join(what.split())[:110]))

    def each_line(point, pattern, but=None):
        for path, text in sources.items():
            for number, line in enumerate(text.split("\n"), 1):
                if not line.lstrip().startswith(("//", "ghost use", "requires", "ensures")) and re.search(pattern, line) and not (but and re.search(but, line)):
                    place(point, path, number, line)

    for path, text in sources.items():
        for match in re.finditer(r"^(?:pub )?enum (\w+) \{\n(.*?)\n\}", text, re.S | re.M):
            cases = re.findall(r"^    (\w+)(\([\w:]+\))?", match[2], re.M)
            holds = any(re.search(r"(Fault|Refusal|Error)\)$", inner) for _, inner in cases)
            lacks = any(name in ("Nothing", "Void", "Kept", "ToNone", "Missing", "Absent", "None", "BadReference") for name, _ in cases)
            if len(cases) > 1 and (holds or lacks) and not re.search(r"(Fault|Refusal|Error)$", match[1]):
                place("1 enums", path, text[:match.start()].count("\n") + 1, f"enum {match[1]}")
    each_line("1 flags", r"\b(listed|fine|found|there|valid): (bool|u32)\b")
    each_line("1 numbers", r"return 0;|return at;|^    at$|number: u32,|fn number_\w+|-> u32\b.*fill")
    shapes = collections.defaultdict(list)
    names = collections.defaultdict(list)
    for f in every:
        if f.body.count("\n") >= 5:
            shapes[shape(f.body)].append(f)
        if f.name not in ("main", "from", "fmt"):
            names[f.name].append(f)
    twins = {}
    for group in list(shapes.values()):
        if len(group) > 1:
            for f in group:
                twins[(f.path, f.line)] = f"{f.name}, as {', '.join(sorted({g.path.split('/')[1] + '::' + g.name for g in group if g is not f}))}"
    for group in names.values():
        same = collections.defaultdict(list)
        for f in group:
            same[shape(f.body)].append(f)
        for alike in same.values():
            if len(alike) > 1 and alike[0].body.count("\n") >= 2:
                for f in alike:
                    twins.setdefault((f.path, f.line), f"{f.name}, as {', '.join(sorted({g.path.split('/')[1] + '::' + g.name for g in alike if g is not f}))}")
    for f in every:  # a pair that its names tell
        for end in ("_bytes", "_listed"):
            if f.name.endswith(end):
                for g in every:
                    if g.path == f.path and g.name == f.name[:-len(end)] != "put":
                        twins.setdefault((f.path, f.line), f"{f.name}, as {g.name}")
                        twins.setdefault((g.path, g.line), f"{g.name}, as {f.name}")
    for (path, line), what in sorted(twins.items()):
        if "/uss_c" not in path:
            place("2 twins", path, line, what)
    each_line("3 loops", r"^ *while \w+(?: \+ \w+)? (<|<=) |^ *while \w+ (<|<=) |^ *(?:let \w+ = )?loop \{")
    for path, text in sources.items():
        lines = text.split("\n")
        for number, line in enumerate(lines, 1):
            match = re.match(r"^( *)for (\w+) in 0\.\.(.*) \{$", line)
            if match:
                end = next(i for i in range(number, len(lines)) if lines[i] == match[1] + "}")
                if re.search(rf"\w\[{match[2]}\]", "\n".join(lines[number:end])):
                    place("3 indexes", path, number, line)
    each_line("4 by hand", r"^ *(pub )?fn (number_\w+|flag|least|zero_words|empty_area|show_nothing|content_id|content_value|put\w*|digit|byte_of|hold_both|is_one_of)\(")
    each_line("4 no equality", r"#\[derive\(Clone, Copy\)\]")
    facts = collections.defaultdict(set)
    for f in every:
        for clause in f.clauses:
            for part in clause.split(" × "):
                part = part.strip("() ")
                if "result" not in part and not part.startswith("let "):
                    facts[(f.path, part)].add((f.line, f.name))
    for (path, part), where in sorted(facts.items()):
        if len(where) >= 3:
            place("5 facts", path, min(where)[0], f"{part} in {', '.join(name for _, name in sorted(where))}")
    for f in every:
        if len(f.parameters) >= 7 and "/uss_c" not in f.path:
            place("5 parameters", f.path, f.line, f"{f.name}: {len(f.parameters)}")
    for f in every:
        slices = [p for p in f.parameters if re.search(r"&(mut_|mut )?\[", p)]
        counts = [p for p in f.parameters if re.search(r"^(n|count|length|len|bytes|room|entry_count|value_count): (usize|u32)", p)]
        if slices and counts and "/uss_c" not in f.path:
            place("6 lengths", f.path, f.line, f"{f.name}({', '.join(f.parameters)})")
    for path, text in sources.items():
        for match in re.finditer(r"^ *match (kind|id|\w+) \{\n((?:.*\n){2,12}?) *\}", text, re.M):
            if len(re.findall(r"^ *\d+(?:\.\.=\d+)? => (?:return )?\w+(?:::\w+)?\(", match[2], re.M)) >= 3:
                place("7 switches", path, text[:match.start()].count("\n") + 1, match[0].split("\n")[0])
    points["8 answers"] = [(p, n, l) for p, t in files.items() if "/proofs/" in p for n, l in enumerate(t.split("\n"), 1) if re.match(r"^pub [\w\-+]+ : goal\.", l)]
    for point, places in points.items():
        print(f"{point:14} {len(places):4}")
        if listed and not point.startswith("8"):
            for path, line, what in places:
                print(f"    {path}:{line}: {what}")


main()
