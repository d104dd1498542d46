"""docs/SERIAL.md: its times are computed again from 11 bits a character, its numbers for faults from every such damage to the telegrams of
the examples, and what it names is there.
    python3 -B tests/serial/page.py"""
import os
import re
import sys

from checks import Wrong, all_hold, same, text_of
from damage import EXCHANGES, HARMLESS, KINDS, frame_number, handed_out, number_of, taken

PAGE = text_of("docs/SERIAL.md")
LINE = text_of("examples/serial_line.h")
OF_002 = {9600: "2.30", 19200: "1.15", 38400: "0.58", 76800: "0.29", 93750: "0.23", 187500: "0.12"}
OF_LINUX = ["TIOCSRS485", "stty -a -F DEVICE", "parenb", "-parenb"]
CABLES_OF_002 = [["9600", "32", "1200 m"], ["19200", "32", "1200 m"], ["93750", "32", "1200 m"], ["187500", "30", "1000 m"]]


def rows_of(heading):
    """The rows of the tables of a section, cell by cell, without heads."""
    section = re.search(rf"^## {heading}$(.*?)(?=^## |\Z)", PAGE, re.S | re.M)[1]
    rows = [[cell.strip() for cell in line[1:-1].split("|")] for line in section.splitlines() if line.startswith("|")]
    return [row for row, after in zip(rows, rows[1:] + [[""]]) if set(row[0]) != {"-"} and set(after[0]) != {"-"}]


def answers_of(kind, column=2):
    """What the page has for a fault, the usual first: numbers, and None for nothing; by the last byte (1), or with the pause (2)."""
    cell = next(row[column] for row in rows_of("A fault on the line, and its number") if row[0] == kind)
    return [None if answer == "nothing" else int(answer) for answer in re.findall(r"\bnothing\b|\b\d+\b", cell)]


def hundredths(bits, baud, delay=0):
    """A time in ms with two places, rounded up."""
    parts = -(-bits * 100000 // baud) + 100 * delay
    return f"{parts // 100}.{parts % 100:02}"


def figures():
    """Every time of the page, from the constants of examples/serial_line.h; the pauses and cables of 002."""
    line = {name: int(value) for name, value in re.findall(r"^#define LINE_(\w+) (\d+)L", LINE, re.M)}
    same("the constants of the line", line, {"CHARACTER": 11, "TAKEN": 2, "KEPT": 3, "LONGEST": 256, "REPLY_DELAY": 20})
    bits, delay = line["CHARACTER"], line["REPLY_DELAY"]
    exchange = bits * (line["KEPT"] + 16 + 16)
    same("the bits of a character", sum(int(row[0]) for row in rows_of("A character")), bits)
    rows = [row for row in rows_of("Rates, pauses, telegrams") if len(row) == 8]
    rates = [int(row[0]) for row in rows]
    same("the rates, rising", rates, sorted(set(rates)))
    same("rates of 002 that are missing", set(OF_002) - set(rates), set())
    for baud, row in zip(rates, rows):
        counts = [line["TAKEN"], line["KEPT"], 16, 20, line["LONGEST"]]
        times = [hundredths(bits * count, baud) for count in counts] + [hundredths(exchange, baud, delay)]
        same(f"the row of {baud}", row[1:], [OF_002.get(baud, ""), *times])
        if baud in OF_002 and abs(float(OF_002[baud]) - 2000 * bits / baud) > 0.01:
            raise Wrong(f"{baud}: the pause of 002 is not that of two characters within 0.01 ms")
    one, fast = re.search(r"of 31 drives takes up to ([\d.]+) s at 9600 and ([\d.]+) s at 57600", PAGE).groups()
    for seconds, baud in ((one, 9600), (fast, 57600)):
        same(f"a round of 31 drives at {baud}", round(100 * float(seconds)), -(-31 * exchange * 100 // baud) + 31 * delay // 10)
    left = [(baud, str(delay + -bits * 2000 // int(baud))) for baud in ("9600", "1200")]
    same("what is left to SLACK", re.findall(r"[Aa]t (\d+)\s+(?:that|it)\s+leaves (\d+) ms", PAGE), left)
    taken = next(row[1] for row in rows_of("Rates, pauses, telegrams") if row[0] == "the examples")
    same("the rates of the examples", re.findall(r"\b\d+\b", taken), re.findall(r"case (\d+): return B\1;", LINE))
    same("rates of the examples that are not in the table", set(map(int, re.findall(r"\b\d+\b", taken))) - set(rates), set())
    same("the cables of 002", rows_of("Cable"), CABLES_OF_002)
    return f"{len(rows)} rates"


def faults():
    """A fault has the answers of every such damage to every telegram of the examples, the most frequent first: of what is handed out, and
    of what the examples take of that. They take nothing where the frame check, of all the bytes, says 10 to 13; and what they take is
    sound only where nothing was damaged."""
    telegrams = {telegram for exchange in EXCHANGES for telegram in exchange if telegram}
    same("the faults", sorted(row[0] for row in rows_of("A fault on the line, and its number")), sorted(KINDS))
    for kind, damages in KINDS.items():
        pages = [(telegram, page) for telegram in telegrams for after in damages(telegram) for page in after or [b""]]
        for column, receive in ((1, handed_out), (2, taken)):
            found = [number_of(receive(page)) for telegram, page in pages if (kind, page) != (HARMLESS, telegram)]
            same(f"the answers: {kind}", set(answers_of(kind, column)), set(found))
            same(f"the usual answer: {kind}", answers_of(kind, column)[0], max(set(found), key=found.count))
        for telegram, page in pages:
            same(f"whether {page.hex(' ')} is taken", taken(page) is None, 10 <= frame_number(page) <= 13)
            same(f"whether {page.hex(' ')} is sound and taken", number_of(taken(page)) == 0, page == telegram)
    for telegram in telegrams:
        for place in range(2, len(telegram)):
            pages = [telegram[:place] + bytes([byte]) + telegram[place:] for byte in range(256)]
            same(f"bytes that pass at {place} of {telegram.hex(' ')}", [number_of(handed_out(page)) for page in pages].count(0), 1)
    return f"{len(KINDS)} faults"


def names():
    """What stands in backticks is a file, or a name of the header or the examples; and each default is the program's."""
    hosts = {who: text_of(f"examples/serial_{host}.c") for who, host in (("drive", "slave"), ("master", "master"))}
    sources = "".join([text_of("include/uss.h"), LINE, *hosts.values()])
    found = re.findall(r"`([^`\n]+)`", PAGE)
    for name in found:
        file = next((path for path in (name, f"examples/{name}") if os.path.exists(path)), None)
        if not file and name not in OF_LINUX and not re.search(rf"\b{re.escape(name)}\b", sources):
            raise Wrong(f"{name} is no file, and no name of the header or the examples")
    for slack, who in re.findall(r"(\d+), the (drive|master)'s default", PAGE):
        same(f"the {who}'s default", re.findall(r"line_of\(count, arguments, (\d+)\)", hosts[who]), [slack])
    return f"{len(found)} names"


if __name__ == "__main__":
    sys.exit(not all_hold([("docs/SERIAL.md, figures", figures), ("docs/SERIAL.md, faults and their numbers", faults),
                           ("docs/SERIAL.md, names", names)]))
