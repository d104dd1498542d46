"""Writes calls.h, the driver's part that follows from uss.h: for each call a wrapper `do_NAME` that lends copies of its slices,
calls, and writes answer and slices to the stream, and a `random_NAME` that draws its arguments. A parameter with the name and type
of a field of the driver's `drawn` takes that, any other is drawn by its type: a new call in uss.h is compared with no hand work."""
import os
import sys

sys.path.insert(0, os.path.join(os.path.dirname(os.path.abspath(__file__)), "..", "..", "ports", "port"))
import header

# what the driver draws with care: name -> type; of slices the element's type
DRAWN = {"setup": "uss_setup", "control": "uss_words", "status": "uss_words", "process": "uss_words", "task": "uint8_t",
         "parameter": "uint16_t", "index": "uint8_t", "value": "uint32_t", "selector": "uint16_t", "mask1": "uint16_t",
         "mask2": "uint16_t", "receiver": "uss_receiver", "reference": "uint32_t", "view": "uss_view"}
SLICES = {"table": "uint8_t", "values": "uint32_t", "received": "uint8_t", "net": "uint8_t", "bytes": "uint8_t", "reply": "uint8_t",
          "out": "uint8_t", "items": "uint16_t", "page": "uint8_t", "places": "uint16_t"}


def leaves(head, type_, place):
    """(C expression, bytes) of each number in a value of the type; of a double its bits."""
    if type_ in header.FIELDS:
        return [(f"bits_of({place})" if type_ == "double" else place, header.FIELDS[type_])]
    return [leaf for t, name, _ in head.structs[type_].fields for leaf in leaves(head, t, f"{place}.{name}")]


def wrapper(head, call, number):
    slices = [p for p in call.parameters if p.kind == "slice"]
    if len(slices) > 8:
        sys.exit(f"{call.name} is lent more slices than the machines have arenas")
    given, lines, after = [], [], []
    for p in call.parameters:
        given += [f"at_{p.name}", p.count] if p.kind == "slice" else [p.name]
    for k, p in enumerate(slices):
        lines.append(f"    {'const ' if p.const else ''}{p.type} *at_{p.name} = lend({k}, {p.name}, sizeof *{p.name} * {p.count});")
        after.append(f"    {'same' if p.const else 'left'}({k}, {p.name}, at_{p.name}, sizeof *{p.name} * {p.count});")
    numbers = leaves(head, call.returns, "r")
    wide = {1: "put8", 2: "put16", 4: "put32", 8: "put64"}
    # a returned number is written with all bits of the register that holds it
    puts = [f"    put64((uint64_t)r);"] if call.returns in header.NUMBERS else [f"    {wide[n]}({e});" for e, n in numbers]
    size = 8 if call.returns in header.NUMBERS else sum(n for _, n in numbers)
    length = " + ".join([str(size)] + [f"slice_bytes({'1' if p.const else '0'}, sizeof *{p.name} * {p.count})" for p in slices])
    text = call.text.replace(f" {call.name}(", f" do_{call.name}(", 1)
    return "\n".join([f"static {text}", "{", *lines, f"    {call.returns} r;",
                      "    PAINT", f"    r = {call.name}({', '.join(given)});", f"    LOOK({number})",
                      f"    begin({number}, (uint32_t)({length}));", *puts, *after, "    return r;", "}", ""])


def drawer(head, call):
    names = {p.name for p in call.parameters}
    lines, given, k = [], [], 0
    for p in call.parameters:
        plain = p.name.rstrip("0123456789")
        if p.kind == "slice":
            for name in (p.name, plain):
                if SLICES.get(name) == p.type:
                    given += [f"drawn.{name}.at", f"drawn.{name}.count"]
                    break
            else:
                lines.append(f"    size_t count_{p.name} = draw_any({k}, sizeof({p.type}));")
                given += [f"(void *)drawn.any[{k}]", f"count_{p.name}"]
                k += 1
        elif DRAWN.get(p.name) == p.type:
            given.append(f"drawn.{p.name}")
        elif p.kind == "number":
            given.append(f"({p.type})draw_bits()")
        else:
            lines.append(f"    {p.type} any_{p.name};")
            lines += [f"    {e} = ({ {1: 'uint8_t', 2: 'uint16_t', 4: 'uint32_t', 8: 'uint64_t'}[n]})draw_bits();"
                      for e, n in leaves(head, p.type, f"any_{p.name}")]
            given.append(f"any_{p.name}")
    plain = {n.rstrip("0123456789") for n in names}
    wanted = ", ".join(str(int(name in of)) for name, of in (("table", plain), ("task", names), ("receiver", names)))
    return "\n".join([f"static void random_{call.name}(void)", "{", f"    draw_call({wanted});", *lines,
                      f"    do_{call.name}({', '.join(given)});", "}", ""])


def main(path):
    head = header.read(path)
    print("/* Written by tests/ports/calls.py from uss.h. */")
    calls = list(head.calls.values())
    for number, call in enumerate(calls, 1):
        print(wrapper(head, call, number))
    for call in calls:
        print(drawer(head, call))
    # a call is drawn as often as it has parameters
    turns = [f"random_{call.name}" for call in calls for _ in call.text.split(",")]
    print("static void (*const turns[])(void) = {" + ", ".join(turns) + "};")


if __name__ == "__main__":
    main(sys.argv[1])
