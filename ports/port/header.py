"""Reads include/uss.h: constants, structs with their layout, prototypes. Refuses every text that it does not know."""
import re
from collections import namedtuple

from refuse import Refused

# bytes of a number, which are its alignment too on every target; a double is only a field of a struct that is returned
NUMBERS = {"uint8_t": 1, "uint16_t": 2, "uint32_t": 4, "uint64_t": 8}
FIELDS = {**NUMBERS, "double": 8}

Struct = namedtuple("Struct", "name size align fields")  # fields: (type, name, offset)
# kind: "number", "struct" or "slice"; of a slice, type is the element's, count its length's name, const as the header says
Parameter = namedtuple("Parameter", "kind type name count const")
Call = namedtuple("Call", "name returns parameters text")  # text: the prototype without its semicolon
Header = namedtuple("Header", "constants structs calls")  # constants: enum's name -> {name: number}

TOKEN = re.compile(r'\w+|"C"|[{}();,*=]')


class Reader:
    """The header's words, one after the other, each with its line."""

    def __init__(self, path):
        self.path, self.words, self.at = path, [], 0
        with open(path) as file:
            text = file.read()
        text = re.sub(r"/\*.*?\*/", lambda m: re.sub(r"[^\n]", " ", m[0]), text, flags=re.S)
        goes_on = False  # the line before ended in a backslash: this one belongs to its directive
        for number, line in enumerate(text.split("\n"), 1):
            if goes_on or line.startswith("#"):
                if not goes_on:
                    self.directive(number, line)
                goes_on = line.endswith("\\")
                continue
            end = 0
            for token in TOKEN.finditer(line):
                self.gap(number, line[end:token.start()])
                self.words.append((token[0], number))
                end = token.end()
            self.gap(number, line[end:])

    def gap(self, number, text):
        if text.strip():
            raise Refused(f"{self.path}:{number}: not understood: {text.strip()}")

    def directive(self, number, line):
        # a macro with parameters is passed over: no declaration may name it, since its name is no type and no number
        macro = r"define USS_[A-Z0-9_]+\([a-z, ]+\) .*"
        known = rf'#(ifndef USS_H|define USS_\w+( \w+| "[0-9.]+")?|{macro}|include <std(def|int)\.h>|ifdef __cplusplus|endif)\s*'
        if not re.fullmatch(known, line):
            raise Refused(f"{self.path}:{number}: not understood: {line}")

    def more(self):
        return self.at < len(self.words)

    def peek(self):
        return self.words[self.at][0] if self.more() else "the end"

    def take(self, *wanted):
        """The next word; one of the wanted ones, where any are named."""
        word = self.peek()
        if wanted and word not in wanted:
            self.fail(f"{' or '.join(wanted)} expected, found {word}")
        self.at += 1
        return word

    def name(self):
        word = self.take()
        if not re.fullmatch(r"[A-Za-z_]\w*", word):
            self.fail(f"a name expected, found {word}")
        return word

    def fail(self, why):
        line = self.words[min(self.at, len(self.words) - 1)][1]
        raise Refused(f"{self.path}:{line}: not understood: {why}")


def read_enum(r):
    name, numbers = r.name(), {}
    r.take("{")
    while r.peek() != "}":
        constant = r.name()
        r.take("=")
        number = r.take()
        if not number.isdigit():
            r.fail(f"{constant} has no plain number")
        numbers[constant] = int(number)
        if r.peek() != "}":
            r.take(",")
    r.take("}")
    r.take(";")
    return name, numbers


def read_struct(r, structs):
    r.take("struct")
    r.take("{")
    at, align, fields = 0, 1, []
    while r.peek() != "}":
        type_ = r.name()
        if type_ in FIELDS:
            size = own = FIELDS[type_]
        elif type_ in structs:
            size, own = structs[type_].size, structs[type_].align
        else:
            r.fail(f"a field of type {type_}")
        while True:
            at = -(-at // own) * own
            fields.append((type_, r.name(), at))
            at, align = at + size, max(align, own)
            if r.take(",", ";") == ";":
                break
    r.take("}")
    name = r.name()
    r.take(";")
    if not fields:
        r.fail(f"{name} has no field")
    return Struct(name, -(-at // align) * align, align, fields)


def has_double(structs, type_):
    return any(t == "double" or t in structs and has_double(structs, t) for t, _, _ in structs[type_].fields)


def read_parameter(r, structs):
    const = r.peek() == "const"
    if const:
        r.take()
    type_ = r.name()
    if r.peek() == "*":
        r.take()
        name = r.name()
        if type_ not in NUMBERS:
            r.fail(f"a pointer to {type_}")
        r.take(",")
        r.take("size_t")
        return Parameter("slice", type_, name, r.name(), const)
    if const or (type_ not in NUMBERS and (type_ not in structs or has_double(structs, type_))):
        r.fail(f"a parameter of type {'const ' if const else ''}{type_}")
    return Parameter("number" if type_ in NUMBERS else "struct", type_, r.name(), None, False)


def read_call(r, structs):
    start = r.at
    returns, name = r.name(), r.name()
    if returns not in NUMBERS and returns not in structs:
        r.fail(f"{name} returns {returns}")
    r.take("(")
    parameters = []
    while True:
        parameters.append(read_parameter(r, structs))
        if r.take(",", ")") == ")":
            break
    text = " ".join(word for word, _ in r.words[start:r.at])
    text = re.sub(r" ([(),])", r"\1", text).replace("( ", "(").replace("* ", "*")
    r.take(";")
    return Call(name, returns, parameters, text)


def read(path):
    r, constants, structs, calls = Reader(path), {}, {}, {}
    open_block = False
    while r.more():
        word = r.peek()
        if word == "extern" and not open_block:
            r.take()
            r.take('"C"')
            r.take("{")
            open_block = True
        elif word == "}" and open_block:
            r.take()
            open_block = False
        elif word == "enum":
            r.take()
            name, numbers = read_enum(r)
            constants[name] = numbers
        elif word == "typedef":
            r.take()
            struct = read_struct(r, structs)
            structs[struct.name] = struct
        else:
            call = read_call(r, structs)
            if call.name in calls:
                r.fail(f"{call.name} is declared twice")
            calls[call.name] = call
    if not calls:
        raise Refused(f"{path}: no prototype")
    return Header(constants, structs, calls)
