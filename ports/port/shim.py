"""The C shim: for each prototype of uss.h a function that hands on to the module's inner function of the same name.

Inside the module a number goes as itself, a slice as pointer and length (64 bits), a struct of one or two numbers as these numbers, any
other struct by pointer; a returned struct of one number as this, of two as both at once, any other by a first pointer. So a shim is made
from its prototype alone; before it is used, the prototypes are compared with the module and with the library's source."""
import re

from header import FIELDS
from refuse import Refused

IR = {"uint8_t": "i8", "uint16_t": "i16", "uint32_t": "i32", "uint64_t": "i64"}


def inner(call):
    """The name by which a shim calls the module's function."""
    return f"port_{call.name}"


def leaves(header, type_, path="", at=0):
    """(path, IR type, offset) of each number in a struct, those of structs in it among them."""
    found = []
    for field, name, offset in header.structs[type_].fields:
        if field in header.structs:
            found += leaves(header, field, f"{path}.{name}", at + offset)
        else:
            found.append((f"{path}.{name}", IR.get(field, field), at + offset))
    return found


def few(header, type_):
    """The numbers of a struct that goes as its numbers; none of another."""
    found = leaves(header, type_) if type_ in header.structs else []
    return found if len(found) <= 2 and all(ir in IR.values() for _, ir, _ in found) else []


def by_pair(header, call):
    """Whether the module returns the struct of a call as two numbers at once."""
    return len(few(header, call.returns)) == 2


# ---- comparing


def compare_module(header, module, library):
    """The same calls, the same IR types, each struct copied with exactly its size, and what goes in parts put together in its order."""
    outer = {name for name, f in module.functions.items() if not f.inner}
    if outer != set(header.calls):
        raise Refused(f"the header and the module do not have the same calls: {' '.join(sorted(outer ^ set(header.calls)))}")
    for call in header.calls.values():
        function = module.functions.get(f"{library}::{call.name}")
        if function is None:
            raise Refused(f"the module has no {library}::{call.name}")
        wanted, checks = [], []  # IR types; (the check, the place of its first parameter, its bytes, its parts)
        returned = [ir for _, ir, _ in few(header, call.returns)]
        returns = IR.get(call.returns) or (returned[0] if len(returned) == 1 else f"{{ {', '.join(returned)} }}" if returned else "void")
        if call.returns in header.structs and not returned:
            checks.append((compare_copies, 0, header.structs[call.returns].size, None))
            wanted.append("ptr")
        for p in call.parameters:
            parts = [("ptr", 0), ("i64", 8)] if p.kind == "slice" else [(ir, at) for _, ir, at in few(header, p.type)]
            if p.kind == "number":
                wanted.append(IR[p.type])
            elif parts:
                checks.append((compare_parts, len(wanted), 16 if p.kind == "slice" else header.structs[p.type].size, parts))
                wanted += [ir for ir, _ in parts]
            else:
                checks.append((compare_copies, len(wanted), header.structs[p.type].size, None))
                wanted.append("ptr")
        found = [type_ for type_, _ in function.parameters]
        if (function.returns, found) != (returns, wanted):
            raise Refused(f"{call.name}: the module has {function.returns} ({', '.join(found)}), "
                          f"the header {returns} ({', '.join(wanted)})")
        for check, at, size, parts in checks:
            check(call, [name for _, name in function.parameters[at:at + len(parts or [0])]], size, parts, function.body)
        if returned:
            compare_returned(call, returns, header.structs[call.returns].size, function.body)


def compare_copies(call, names, size, parts, body):
    """Wherever a pointer parameter is used, exactly the bytes that the header says are copied."""
    name = names[0]
    uses = [line for line in body if re.search(re.escape(name) + r"\b", line)]
    places = rf"ptr (?:{name}, ptr %r\d+|%r\d+, ptr {name})"
    copy = re.compile(rf"  call void @llvm\.memmove\.p0\.p0\.i64\({places}, i64 {size}, i1 false\)")
    if not uses or not all(copy.fullmatch(line) for line in uses):
        raise Refused(f"{call.name}: the module does not copy {name} as {size} bytes: {uses[:1] or 'not used'}")


def compare_parts(call, names, size, parts, body):
    """Each part is stored once, at its place in one local of that size, and not used otherwise."""
    locals_ = set()
    for name, (type_, at) in zip(names, parts):
        uses = [line for line in body if re.search(re.escape(name) + r"\b", line)]
        stored = re.fullmatch(rf"  store {type_} {name}, ptr (%r\d+), align \d+", uses[0]) if len(uses) == 1 else None
        place = stored and (stored[1] if at == 0 else next((m[1] for line in body if (m := re.fullmatch(
            rf"  {stored[1]} = getelementptr i8, ptr (%r\d+), i64 {at}", line))), None))
        if not place:
            raise Refused(f"{call.name}: the module does not take {name} as a part at byte {at}: {uses[:1] or 'not used'}")
        locals_.add(place)
    if len(locals_) != 1 or not any(re.fullmatch(rf"  {place} = alloca \[{size} x i8\], align \d+", line) for line in body):
        raise Refused(f"{call.name}: the module does not put {' '.join(names)} together as {size} bytes")


def compare_returned(call, returns, size, body):
    """What is returned is loaded from a local of the struct's size."""
    ended = [line for line in body if line.startswith("  ret ")]
    value = re.fullmatch(rf"  ret {re.escape(returns)} (%r\d+)", ended[0]) if len(ended) == 1 else None
    place = value and next((m[1] for line in body if (m := re.fullmatch(
        rf"  {value[1]} = load {re.escape(returns)}, ptr (%r\d+), align \d+(?:, !noundef !1)?", line))), None)
    if not place or not any(re.fullmatch(rf"  {place} = alloca \[{size} x i8\], align \d+", line) for line in body):
        raise Refused(f"{call.name}: the module does not return {size} bytes as {returns}: {ended[:1]}")


# ---- writing


def asserts(header):
    """The layout that the module has, to be found by the target's own compiler."""
    lines = []
    for struct in header.structs.values():
        lines.append(f'_Static_assert(sizeof({struct.name}) == {struct.size}, "size of {struct.name}");')
        for _, field, offset in struct.fields:
            lines.append(f'_Static_assert(offsetof({struct.name}, {field}) == {offset}, "place of {struct.name}.{field}");')
    for type_, size in FIELDS.items():
        lines.append(f'_Static_assert(sizeof({type_}) == {size} && _Alignof({type_}) == {size}, "{type_}");')
    return lines


def opening(header):
    return "\n".join([
        "/* Written by ports/build from uss.h. */",
        '#include "uss.h"',
        '_Static_assert(sizeof(size_t) == sizeof(void *), "counts");',
        *asserts(header), ""])


def shim_of(header, call):
    """The C text of one call; its inner function is declared above it."""
    c_type = {ir: c for c, ir in IR.items()}
    declared, given = [], []
    struct = call.returns in header.structs
    single = few(header, call.returns) if struct and not by_pair(header, call) else []
    if struct and not single:
        declared.append(f"{call.returns} *")
        given.append("&result")
    for p in call.parameters:
        parts = few(header, p.type)
        if p.kind == "slice":
            declared += ["const void *", "uint64_t"]
            given += [p.name, p.count]
        elif parts:
            declared += [c_type[ir] for _, ir, _ in parts]
            given += [p.name + path for path, _, _ in parts]
        else:
            declared.append(p.type + (" *" if p.kind == "struct" else ""))
            given.append(("&" if p.kind == "struct" else "") + p.name)
    called = f"{inner(call)}({', '.join(given)});"
    if single:
        (path, ir, _), = single
        body, returns = [f"    {call.returns} result;", f"    result{path} = {called}", "    return result;"], c_type[ir]
    elif struct:
        body, returns = [f"    {call.returns} result;", f"    {called}", "    return result;"], "void"
    else:
        body, returns = [f"    return {called}"], call.returns
    return "\n".join([f"{returns} {inner(call)}({', '.join(declared)});", call.text, "{", *body, "}", ""])
