#!/usr/bin/env bash
# Compares the numbers that the calls give, wherever they are told. The place is include/uss.h: its enums uss_number and uss_error have
# name, number and meaning of each. README.md and docs/PROTOCOL.md: every one has a row with the same number, names and meaning, and there
# is no other; the rules of a table (uss_rule) have their rows in docs/TABLES.md. The definitions in crates/*/specs: the numbers of all
# definitions NAME_number over an enum, a Result or an Option are those of the enums, and no other; the rule 0 is that of the check that
# finds nothing. The order in which they are tested, by the rows of the definitions, is that of docs/PROTOCOL.md's tables and of each line
# "Numbers, in test order" of docs/PROTOCOL.md, docs/CALLS.md and include/uss.h. docs/PROTOCOL.md's pages, tasks and worked telegrams are
# those of the definitions. Exits 1 where one of these does not hold.
set -euo pipefail
cd "$(dirname "$(readlink -f "${BASH_SOURCE[0]}")")/.."
if ! command -v python3 > /dev/null; then
    apt-get update -qq && apt-get install -qq -y --no-install-recommends python3 > /dev/null
fi
exec python3 -B - <<'PYTHON'
import glob
import re
import sys

failed = False


def wrong(what):
    """Says what does not hold."""
    global failed
    print(f"numbers: {what}")
    failed = True


def text_of(path):
    with open(path, encoding="utf-8") as file:
        return file.read()


def same(what, found, wanted):
    """Compares two values and shows both where they differ."""
    if found != wanted:
        wrong(f"{what}: {found}, and not {wanted}")


# ---- the place: the enums of the header

HEADER = text_of("include/uss.h")


def plain(words):
    """A meaning without its markup."""
    return " ".join(words.replace("`", "").replace("×", "*").split())


def constants(enum):
    """The constants of an enum, name to number and meaning."""
    body = re.search(rf"enum {enum} \{{(.*?)\n\}};", HEADER, re.S)[1]
    found = re.findall(r"^ *(USS_\w+) = (\d+),? *(?:/\* (.*) \*/)?$", body, re.M)
    for name, _, meaning in found:
        if not meaning:
            wrong(f"include/uss.h: {name} has no meaning beside it")
    same(f"include/uss.h: lines of enum {enum} that are understood", len(found), len(re.findall(r"^ *USS_", body, re.M)))
    return {name: (int(number), plain(meaning)) for name, number, meaning in found}


ANSWERS, ERRORS, RULES = constants("uss_number"), constants("uss_error"), constants("uss_rule")
ALIASES = dict(re.findall(r"^#define (USS_\w+) (USS_\w+)$", HEADER, re.M))

# ---- the definitions: a case to its number

SPECS = {path: text_of(path) for path in sorted(glob.glob("crates/*/specs/*.antt"))}
DEFINED = {}  # crate and name: (the type that it is over, its clauses, the names that its file brings in with their crates)
for path, text in SPECS.items():
    crate = path.split("/")[1]
    brought = {}
    for of, names in re.findall(r"^use Rattle\.(\w+)\.specs\.[\w.]+\.\{(.*)\}$", text, re.M):
        brought.update({name: of for name in re.findall(r"\w+", names)})
    for name, over in re.findall(r"^(?:abbrev |unfoldable )?pub (\w+_number) : ((?:Result|Option) .+|[A-Z]\w*) → ℕ$", text, re.M):
        DEFINED[crate, name] = (over, re.findall(rf"^{name} (.+?) = (.+)$", text, re.M), brought)


def numbers_of(crate, name, wanted=""):
    """The numbers of a definition, of all cases or of one constructor's, those of the definitions that it hands on to among them."""
    _, clauses, brought = DEFINED[crate, name]
    found = []
    for case, value in clauses:
        if case.strip("()").split()[0].startswith(wanted):
            handed = value.split()[0]
            found += [int(value)] if value.isdigit() else numbers_of(brought.get(handed, crate), handed)
    return found


def number_of(crate, name, case):
    """The number of one case of a definition."""
    return next(int(value) for pattern, value in DEFINED[crate, name][1] if pattern.strip("()").split()[0] == case)


told = {"uss_number": set(), "uss_error": set(), "uss_rule": set()}
for (crate, name), (over, _, _) in DEFINED.items():
    told[{"ParameterError": "uss_error", "Rule": "uss_rule"}.get(over.split()[-1], "uss_number")] |= set(numbers_of(crate, name))
none_broken = re.search(r"^none_broken = record \{ number = 0; rule = (\d+);", SPECS["crates/table_check/specs/Checks.antt"], re.M)
told["uss_rule"].add(int(none_broken[1]))
for enum, found in [("uss_number", ANSWERS), ("uss_error", ERRORS), ("uss_rule", RULES)]:
    same(f"the numbers of the definitions and of enum {enum}", sorted(told[enum]), sorted(number for number, _ in found.values()))
TABLES = re.search(r"^## The rules$(.*?)^## ", text_of("docs/TABLES.md"), re.S | re.M)[1]
same("the rules of docs/TABLES.md and of enum uss_rule", [0] + [int(n) for n in re.findall(r"^\| (\d+) \|", TABLES, re.M)],
     [number for number, _ in RULES.values()])

# ---- the definitions: the order of the tests


def body_of(crate, file, name):
    """The text of a definition, from its equation to the next empty line, without comments."""
    text = SPECS[f"crates/{crate}/specs/{file}.antt"]
    body = re.search(rf"^{name} [^:\n]*=(.*?)(?:\n\n|\Z)", text, re.S | re.M)[1]
    return re.sub(r"--.*", "", body)


def cases(text, constructor, crate, name):
    """The numbers of the cases that a constructor holds in a text, in order."""
    return [number_of(crate, name, case) for case in re.findall(rf"\b{constructor} \(?(\w+)", text)]


def rows(crate, file, name):
    """The numbers of a table of rows that are written out in it or come by the tables of opening and frame check, in order."""
    parts = {"opening_rows": OPENING, "frame_numbers": FRAME}
    found = []
    for part, number in re.findall(r"\b(opening_rows|frame_numbers)\b|, (\d+)\)", body_of(crate, file, name)):
        found += parts[part] if part else [int(number)]
    return found


content = body_of("opening", "Answers", "content_rows")
OPENING = cases(body_of("opening", "Answers", "opening_rows").replace("content_rows", content), "Err", "slave_answers", "opening_number")
LIST = number_of("slave_answers", "opening_number", "BadPlaces")  # where no list is lent its row never holds
TABLE = [number for number in cases(content, "Err", "slave_answers", "opening_number") if number != LIST] + [0]
FILL = cases(body_of("places", "Fill", "filling_rows"), "Err", "slave_answers", "opening_number") + [0]
VIEW = [number_of("slave_answers", "opening_number", "BadTable"), 0]
FRAME = cases(body_of("frame", "Frame", "frame_rows"), "Err", "frame", "frame_number")
LISTED = rows("claims_slave", "AnswerTable", "answer_rows")
BUILD = cases(body_of("master", "Build", "admit_rows"), "Err", "build_answers", "build_number")
READ = rows("claims_reply", "AnswerTable", "reading_rows")
same("the rows of the slave call and refusal_number", sorted(LISTED), sorted(numbers_of("slave_answers", "refusal_number")))
same("the rows of a build and build_number", sorted(BUILD), sorted(numbers_of("build_answers", "build_number")))
same("the rows of a reading and read_fault_number", sorted(READ), sorted(numbers_of("read_answers", "read_fault_number")))


def accepted(crate, name):
    """What is left of an answer's numbers without its refusals."""
    return numbers_of(crate, name, "Ok")


SHOW = numbers_of("figure", "figure_number", "Err") + accepted("figure", "figure_number")  # its one refusal, then 0
LISTED, BUILD, READ = (found + accepted(crate, name) for found, crate, name in (
    (LISTED, "slave_answers", "answer_number"), (BUILD, "build_answers", "built_number"), (READ, "read_answers", "read_number")))
SLAVE = [number for number in LISTED if number != LIST]
VERDICT = cases(body_of("slave", "Perform", "plan_on"), "error_area a", "errors", "error_number") \
    + cases(body_of("verdict", "Verdict", "verdict_rows"), "Err", "errors", "error_number")
same("the errors' rows and error_number", sorted(VERDICT), sorted(numbers_of("errors", "error_number")))

# ---- the pages: a row for each


def table_of(page):
    """The rows of a page's tables that name a constant: number, names and meaning."""
    found = re.findall(r"^\| (\d+) \| (`USS_[^|]*`) \| ([^|]*) \|", text_of(page), re.M)
    return [(int(number), re.findall(r"USS_\w+", names), plain(meaning)) for number, names, meaning in found]


for page, answers, errors in (
    ("README.md", sorted(told["uss_number"]), sorted(told["uss_error"])),
    ("docs/PROTOCOL.md", LISTED + sorted(told["uss_number"] - set(LISTED)), VERDICT),
):
    found = table_of(page)
    for number, names, meaning in found:
        name = names[0]
        wanted = {**ANSWERS, **ERRORS}.get(name)
        if wanted is None:
            wrong(f"{page}: {name} is no constant of include/uss.h")
            continue
        same(f"{page}: number and meaning of {name}", (number, meaning), wanted)
        same(f"{page}: names of {number}", names, [name] + [other for other, of in ALIASES.items() if of == name])
    same(f"{page}: answer numbers", [number for number, names, _ in found if names[0] in ANSWERS], answers)
    same(f"{page}: parameter errors", [number for number, names, _ in found if names[0] in ERRORS], errors)

# ---- the pages: the order of the tests


def orders_of(page):
    """The numbers of each line "Numbers, in test order", ranges written out."""
    text = re.sub(r"\n \* ?", "\n", text_of(page))
    found = []
    for line in re.findall(r"Numbers,? in test order: ([^.]*?)(?=\.|\bwith\b)", text):
        line = re.sub(r"(\d+) to (\d+)", lambda m: " ".join(map(str, range(int(m[1]), int(m[2]) + 1))), line)
        found.append([int(number) for number in re.findall(r"\d+", line)])
    return found


same("docs/PROTOCOL.md: orders of slave, slave with a list, filling, view, build, reading, hertz", orders_of("docs/PROTOCOL.md"),
     [SLAVE, LISTED, FILL, VIEW, BUILD, READ, SHOW])
same("docs/CALLS.md: orders of slave, slave with a list, filling, view, three builds, reading, hertz", orders_of("docs/CALLS.md"),
     [SLAVE, LISTED, FILL, VIEW, BUILD, BUILD, BUILD, READ, SHOW])
same("include/uss.h: orders of slave, slave with a list, table check, filling, view, build, reading, hertz", orders_of("include/uss.h"),
     [SLAVE, LISTED, TABLE, FILL, VIEW, BUILD, READ, SHOW])

# ---- docs/PROTOCOL.md: pages and tasks

protocol = text_of("docs/PROTOCOL.md")
pages = [int(page) for page in re.findall(r"\d+", body_of("page", "Page", "pages"))]
same("docs/PROTOCOL.md: pages", [int(page) for page in re.findall(r"\d+", re.search(r"^\| page \|(.*)$", protocol, re.M)[1])], pages)

refused = body_of("task", "Task", "refused_row")
TASKS = re.findall(r"task_row (\w+) (\w+) (\w+) (\d+)", body_of("task", "Task", "tasks").replace("refused_row", refused))
ACTS = {"Nothing": "none", "Read": "read", "Change": "change", "Count": "count the elements", "Refuse": "error 106 (for 4 ours)"}
WIDTHS = {"Either": "", "Word": "word", "Double": "double"}


def task_row(act, width, array, reply):
    """Act, width, index and reply ID as docs/PROTOCOL.md writes them."""
    index = "" if act in ("Refuse", "Nothing") else "yes" if array == "true" else "no"
    double = f" of a word, {int(reply) + 1} of a double" if act == "Read" else ", and the whole area is 0" if act == "Nothing" else ""
    return [ACTS[act], WIDTHS[width], index, reply + double]


written = {}
section = protocol[protocol.index("\n## Tasks\n"):protocol.index("\n## Parameter errors\n")]
for ids, cells in re.findall(r"^\| (\d+(?:, \d+)*) \| (.*) \|$", section, re.M):
    for task in ids.split(", "):
        written[int(task)] = [cell.strip() for cell in cells.split("|")]
for task, row in enumerate(TASKS):
    same(f"docs/PROTOCOL.md: task {task}", written.get(task), task_row(*row))
same("docs/PROTOCOL.md: tasks", sorted(written), list(range(len(TASKS))))

# ---- docs/PROTOCOL.md: the telegram byte by byte


def telegram_of(name):
    """The bytes of a known telegram; K2 has its own LGE and last byte."""
    text = body_of("claims_known", "Telegrams", name).replace("lge", "0x0E").replace("last", "0x7A")
    return [int(byte, 16) for byte in re.findall(r"0x(\w\w)\b", text)]


section = protocol[protocol.index("\n## A telegram byte by byte\n"):protocol.index("\n## Known telegrams\n")]
cells = re.findall(r"^\| [\d, ]+ \| [\w ]+ \| `([^`]*)` \| [^|]*\| `([^`]*)` \|", section, re.M)
for name, column in (("task1082", [task for task, _ in cells]), ("value1082", [reply for _, reply in cells]),
                     ("error1082", re.findall(r"`(02 0E [0-9A-F ]*)`", section))):
    same(f"docs/PROTOCOL.md: the bytes of {name}", [int(byte, 16) for byte in " ".join(column).split()], telegram_of(name))

print(f"numbers: {len(ANSWERS)} answer numbers, {len(ERRORS)} parameter errors, {len(TASKS)} tasks, {len(pages)} pages; "
      f"{len(RULES)} rules of a table, {len(DEFINED)} definitions, 8 orders, 3 telegrams")
sys.exit(failed)
PYTHON
