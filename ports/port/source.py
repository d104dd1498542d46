"""Compares uss.h with the library's Rattle source: the same calls, each with the same parameters by name, order and type, and
structs with the same fields by name, order and type."""
import os
import re

from header import FIELDS
from module import CRATE, needed
from refuse import Refused

RATTLE = {"uint8_t": "u8", "uint16_t": "u16", "uint32_t": "u32", "uint64_t": "u64", "double": "f64"}


def texts(folder):
    """The source files of a crate, without comments."""
    found = ""
    for path, _, names in sorted(os.walk(folder)):
        for name in sorted(names):
            if name.endswith(".rt"):
                with open(os.path.join(path, name)) as file:
                    found += re.sub(r"//.*", "", file.read())
    return found


def pairs(text):
    """[(name, type)] of "name: type, name: type"; a type without its path."""
    found = [tuple(part.strip() for part in p.split(":", 1)) for p in text.split(",") if p.strip()]
    return [(p[0].replace("pub ", ""), re.sub(r"\w+::", "", p[1])) if len(p) == 2 else (p[0], "") for p in found]


def compare(header, root):
    structs, calls = {}, {}
    for name in needed(root):
        text = texts(os.path.join(root, "crates", name, "src"))
        for struct, fields in re.findall(r"#\[repr\(C\)\]\s*(?:#\[derive\([^)]*\)\]\s*)?pub struct (\w+)\s*\{([^}]*)\}", text):
            structs.setdefault(struct, []).append(pairs(fields))
    own = texts(os.path.join(root, "crates", CRATE, "src"))
    for name, parameters, returns in re.findall(r'#\[unsafe\(no_mangle\)\]\s*pub extern "C" fn (\w+)\s*\(([^)]*)\)\s*->\s*([\w:]+)', own):
        calls[name] = (pairs(parameters), returns.split("::")[-1])
    if set(calls) != set(header.calls):
        raise Refused(f"uss.h and crates/{CRATE} do not have the same calls: {' '.join(sorted(set(calls) ^ set(header.calls)))}")

    same = {}  # struct of the header -> struct of the source

    def agree(where, type_, found):
        """The header's type and the source's are one."""
        if type_ in FIELDS:
            good = found == RATTLE[type_]
        elif type_ in same:
            good = same[type_] == found
        else:
            good = found not in same.values() and len(structs.get(found, [])) == 1
            if good:
                same[type_] = found
                names(f"struct {type_}", [(t, n) for t, n, _ in header.structs[type_].fields], structs[found][0])
        if not good:
            raise Refused(f"{where}: uss.h has {type_}, the source {found}")

    def names(where, wanted, found):
        if [n for _, n in wanted] != [n for n, _ in found]:
            raise Refused(f"{where}: uss.h has {' '.join(n for _, n in wanted)}, the source {' '.join(n for n, _ in found)}")
        for (type_, name), (_, other) in zip(wanted, found):
            agree(f"{where}, {name}", type_, other)

    for call in header.calls.values():
        parameters, returns = calls[call.name]
        plain = []
        for p, (name, type_) in zip(call.parameters, parameters):
            if p.kind == "slice":
                wanted = f"&{'' if p.const else 'mut '}[{RATTLE[p.type]}]"
                if type_ != wanted:
                    raise Refused(f"{call.name}, {p.name}: uss.h has {wanted}, the source {type_}")
                type_ = RATTLE[p.type]
            plain.append((name, type_))
        plain += parameters[len(plain):]
        names(call.name, [(p.type, p.name) for p in call.parameters], plain)
        agree(call.name, call.returns, returns)
