"""The module for another target: its x86-64 functions for C left out, the inner ones that the shims call made visible, and layout,
triple, cpu, features and the extension of returned numbers taken from what clang writes for the shims on that target. Where
pointers have 32 bits, a division of 64 bits asks first whether one of 32 does it: counts have 32 bits there, which clang sees."""
import re

from module import CRATE
from refuse import Refused
from shim import by_pair, inner, leaves


DIVISION = """define internal i64 @port_{op}(i64 %n, i64 %d) alwaysinline #0 {{
  %both = or i64 %n, %d
  %high = lshr i64 %both, 32
  %small = icmp eq i64 %high, 0
  br i1 %small, label %narrow, label %wide
narrow:
  %n.narrow = trunc i64 %n to i32
  %d.narrow = trunc i64 %d to i32
  %r.narrow = {op} i32 %n.narrow, %d.narrow
  %r = zext i32 %r.narrow to i64
  ret i64 %r
wide:
  %r.wide = {op} i64 %n, %d
  ret i64 %r.wide
}}"""


def narrow_divisions(lines):
    """Each unsigned division of 64 bits, but by a power of two, through the functions above."""
    def narrow(match):
        by = int(match[3])
        return match[0] if by & (by - 1) == 0 else f"= call i64 @port_{match[1]}(i64 {match[2]}, i64 {by})"
    lines = [re.sub(r"= (udiv|urem) i64 (%[\w.]+), (\d+)$", narrow, line) for line in lines]
    return [line for op in ("udiv", "urem") for line in DIVISION.format(op=op).split("\n")] + lines


def plain_fences(lines):
    """A fence around a double is the double: no instruction here may be reckoned in another order."""
    return [re.sub(r"= call double @llvm\.arithmetic\.fence\.f64\(double (%[\w.]+)\)$", r"= select i1 true, double \1, double \1", line) for line in lines]


def stored_pair(header, call, function, parameters):
    """The function that the shim calls where the module returns two numbers: it stores them in the struct."""
    (_, first, _), (_, second, at) = leaves(header, call.returns)
    given = ", ".join(f"{type_} {name}" for type_, name in function.parameters)
    pair = f"{{ {first}, {second} }}"
    return [f"define void @{inner(call)}({', '.join(['ptr %to', *parameters])}) #0 {{",
            f'  %pair = call {pair} @"{function.name}"({given})',
            f"  %first = extractvalue {pair} %pair, 0", f"  store {first} %first, ptr %to, align {int(first[1:]) // 8}",
            f"  %second = extractvalue {pair} %pair, 1", f"  %at = getelementptr i8, ptr %to, i64 {at}",
            f"  store {second} %second, ptr %at, align {int(second[1:]) // 8}", "  ret void", "}"]


def declared(shims, name):
    """(return words, parameter types) of an inner function as clang declares it for the shims."""
    match = re.search(rf"^declare (.*?)@{name}\((.*)\)(?: local_unnamed_addr)? #\d+$", shims, re.M)
    if match is None:
        raise Refused(f"clang does not declare {name}")
    returns = [w for w in match[1].split() if w not in ("dso_local", "local_unnamed_addr", "noundef")]
    parameters = [part.split() for part in match[2].split(", ")]
    for words in parameters:
        if not set(words[1:]) <= {"noundef", "zeroext", "signext"}:
            raise Refused(f"clang passes a parameter of {name} in a way that is not understood: {' '.join(words)}")
    if not set(returns[:-1]) <= {"zeroext", "signext"}:
        raise Refused(f"clang returns from {name} in a way that is not understood: {' '.join(returns)}")
    return returns, [words[0] for words in parameters], [[w for w in words[1:] if w != "noundef"] for words in parameters]


def retarget(header, module, shims):
    """The text of the module for the target that `shims` (the shims as clang's IR) is for."""
    head = re.findall(r"^target (?:datalayout|triple) = .*$", shims, re.M)
    if len(head) != 2 or not head[0].startswith('target datalayout = "e-'):
        raise Refused("the target is not little-endian")
    if "-i64:64-" not in head[0]:
        raise Refused("a number of 64 bits has another place in a pair on the target")
    group = re.search(r"^define [^\n]*(#\d+)", shims, re.M)[1]
    attributes = re.search(rf"^attributes {group} = \{{(.*)\}}", shims, re.M)[1]
    kept = ["nounwind", '"no-builtins"'] + [w for w in ("minsize", "optsize") if re.search(rf"\b{w}\b", attributes)]
    kept += re.findall(r'"(?:target-cpu|target-features|target-abi|frame-pointer)"="[^"]*"', attributes)

    renamed, heads, stored = {}, {}, []
    for call in header.calls.values():
        function = module.functions[f"{CRATE}::{call.name}"]
        returns, types, extended = declared(shims, inner(call))
        pair = by_pair(header, call)
        if pair and (returns, types[:1]) == (["void"], ["ptr"]):
            returns, types, extended = [function.returns], types[1:], extended[1:]
        if returns[-1] != function.returns or types != [type_ for type_, _ in function.parameters]:
            raise Refused(f"{call.name}: clang calls {returns} {types}, the module has {function.returns} {function.parameters}")
        parameters = [" ".join([type_, *words, name]) for (type_, name), words in zip(function.parameters, extended)]
        if pair:
            stored += stored_pair(header, call, function, parameters)
            continue
        renamed[f'@"{function.name}"'] = f"@{inner(call)}"
        heads[function.name] = f"define {' '.join(returns)} @{inner(call)}({', '.join(parameters)}) #0 {{"

    lines = stored
    for function in module.functions.values():
        if function.inner:
            lines += [heads.get(function.name, function.head), *function.body, "}"]
    if "-p:32:32-" in head[0]:
        lines = narrow_divisions(lines)
    lines = ['source_filename = "rattle"', *head, *plain_fences(lines)]
    for line in module.tail:
        if line.startswith("attributes #0 "):
            line = f"attributes #0 = {{ {' '.join(kept)} }}"
        if not re.match(r"; |target |source_filename ", line):
            lines.append(line)
    text = "\n".join(lines) + "\n"
    for old, new in renamed.items():
        text = text.replace(old, new)
    return text
