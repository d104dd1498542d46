"""The same answers on every target: runs the driver on x86-64 and then on each target, and compares their streams byte for byte.
Then four kinds of wrong port, each of which the comparison must see."""
import itertools
import os
import re
import resource
import struct
import subprocess
import sys
import time
from concurrent.futures import ThreadPoolExecutor

from machines import BOARDS, ROOT, TARGETS, TEST, X86, Builder, command, machine_of

import archive
import elf
import header
import module
import shim
from refuse import Refused

CHUNK = 1 << 20
REFERENCE = os.path.join(TEST, "x86-64.out")
MOST_SECONDS = 300


class Different(Exception):
    pass


# ---- streams


def records(stream):
    """(what, contents, place) of each record."""
    at = 0
    while at < len(stream):
        what, size = struct.unpack_from("<BI", stream, at)
        yield what, stream[at + 5:at + 5 + size], at
        at += 5 + size


def names(head):
    return ["check", *head.calls]


def tell(head, wanted, got, place):
    """What the first difference is about; `got` has the bytes from `place` on."""
    for number, (what, contents, at) in enumerate(records(wanted)):
        if at + 5 + len(contents) > place:
            name = names(head)[what]
            if what == 0:
                name = f"the check {contents[1:].decode()}"
            here = got[:8].hex() or "the end"
            return f"differs at byte {place}, record {number}, {name}: x86-64 has {wanted[place:place + 8].hex()}, here is {here}"
    return f"writes more than x86-64: {got[:8].hex()}"


def run(name, program, wanted, head):
    """Runs a driver and compares its stream with the wanted one as it comes; gives the seconds."""
    start, at = time.time(), 0
    process = subprocess.Popen(command(name, program), stdout=subprocess.PIPE, stderr=subprocess.PIPE, stdin=subprocess.DEVNULL)
    try:
        while True:
            got = process.stdout.read(CHUNK)
            if got != wanted[at:at + len(got)]:
                first = next((i for i, (a, b) in enumerate(zip(got, wanted[at:])) if a != b), len(wanted) - at)
                raise Different(tell(head, wanted, got[first:], at + first))
            at += len(got)
            if not got:
                break
            if time.time() - start > MOST_SECONDS:
                raise Different(f"takes more than {MOST_SECONDS} s")
        status = process.wait(timeout=MOST_SECONDS)
        if at != len(wanted) or status != 0:
            said = process.stderr.read().decode(errors="replace").strip().split("\n")[-1]
            if at < len(wanted):
                raise Different(f"stops with status {status} {said}: {tell(head, wanted, b'', at)}")
            raise Different(f"ends with status {status} {said}")
    finally:
        if process.poll() is None:
            process.kill()
            process.wait()
        process.stdout.close()
        process.stderr.close()
    return time.time() - start


def reference(builder, head):
    """The stream of the archive that lib/prove wrote for x86-64. Every check in it holds; every answer number, every parameter
    error, every rule of a table and every known telegram is one of them; every call of the header was made."""
    own = os.path.join(ROOT, "target", "ports", "module", "libuss_c.a")
    program = builder.link("x86-64", builder.objects(X86), [own], "x86-64")
    with open(REFERENCE, "wb") as file:
        done = subprocess.run([program], stdout=file)
    with open(REFERENCE, "rb") as file:
        stream = file.read()
    checks, made = {}, dict.fromkeys(names(head), 0)
    for what, contents, _ in records(stream):
        made[names(head)[what]] += 1
        if what == 0:
            checks[contents[1:].decode()] = contents[0]
    broken = [name for name, holds in checks.items() if not holds]
    wanted = [f"K{k}" for k in range(1, 13)] + [name for enum in ("uss_number", "uss_error", "uss_rule") for name in head.constants[enum]]
    missing = [name for name in wanted if name not in checks]
    missing += [name for name, count in made.items() if count < 1000 and name != "check"]
    if done.returncode != 0 or broken or missing:
        raise Different(f"x86-64: status {done.returncode}, broken: {' '.join(broken) or 'none'}, "
                        f"without a case: {' '.join(missing) or 'none'}")
    calls = sum(made.values()) - made["check"]
    if calls < 100000:
        raise Different(f"x86-64: {calls} calls are too few")
    told = ", ".join(f"{name} {count}" for name, count in made.items() if name != "check")
    return stream, f"x86-64: {len(checks)} checks hold, {calls} calls, {len(stream)} bytes ({told})"


# ---- targets


def library(name):
    return [os.path.join(ROOT, "target", "ports", name, "libuss_c.a")]


# what an object may ask of the compiler's own library: docs/CHIPS.md says which does
ASKED = {"memcpy", "__aeabi_memcpy", "__aeabi_uidiv", "__aeabi_uidivmod", "__aeabi_lmul"}
# what the calls with doubles, and no other, ask for where the chip computes none: the whole number as a double, and the product
DOUBLES = {**dict.fromkeys(BOARDS, ["__aeabi_dmul", "__aeabi_i2d"]), "riscv32": ["__floatsidf", "__muldf3"]}
WITH_DOUBLES = {"uss_show_hertz.o", "uss_show_percent.o"}


def outside(name, head):
    """What is wrong with an archive: other calls than the header's, data in RAM, a function from outside not named above, doubles in
    software that docs/CHIPS.md does not name."""
    found = []
    with open(os.path.join(ROOT, "docs", "CHIPS.md")) as file:
        page = file.read()
    for member, file in elf.members(library(name)[0]).items():
        if file.names("global") != [member[:-2]] or member[:-2] not in head.calls:
            found.append(f"{name} {member} offers {' '.join(file.names('global'))}")
        if file.written():
            found.append(f"{name} {member} has data")
        asked, doubles = file.names("undefined"), DOUBLES.get(name, []) if member in WITH_DOUBLES else []
        found += [f"{name} {member} asks for {other}" for other in asked if other not in ASKED and other not in doubles]
        found += [f"{name} {member} does not ask for {other}" for other in doubles if other not in asked]
        found += [f"docs/CHIPS.md does not name {other}" for other in doubles if f"`{other}`" not in page]
    return found


def compare(builder, name, wanted, head):
    program = builder.link(name, builder.objects(TARGETS[name]), library(name), name)
    return run(name, program, wanted, head)


def compare_aligned(builder, name, wanted, head):
    """The archive of --aligned, on a machine that traps each access that is not aligned."""
    target, folder = TARGETS[name], os.path.join(TEST, f"aligned-{name}")
    proved = module.read(os.path.join(ROOT, "target", "ports", "module", "module.ll"))
    archive.build(ROOT, builder.kit, target, True, head, proved, folder)
    objects = builder.objects(target, "-aligned", ["-DTRAP_UNALIGNED"])
    return run(name, builder.link(name, objects, [os.path.join(folder, "libuss_c.a")], f"{name}-aligned"), wanted, head)


# ---- wrong ports: tests of the test


def wrong_program(builder, name, label, files, head):
    """A driver over a library that is put together wrongly: (file, text, words) to be compiled, in the place of right members."""
    target, folder = TARGETS[name], os.path.join(TEST, f"wrong-{name}-{label}")
    os.makedirs(folder, exist_ok=True)
    words = builder.kit.words(target, False, [os.path.join(ROOT, "include")])
    made = []
    for file, text, more in files:
        archive.write(os.path.join(folder, file), text)
        made.append(os.path.join(folder, file + ".o"))
        builder.kit.must("clang", [*words, "-Oz", *more, "-c", file, "-o", made[-1]], folder)
    driver = [f"{name}-{source[:-2]}.o" for source in ("driver.c", "runtime.c", machine_of(name))]
    return builder.link(name, driver, [*made, *library(name)], os.path.join(folder, "driver"))


def not_extended(builder, name, head):
    """Shims and module as two objects, the module's functions without the extension of what they return."""
    with open(os.path.join(ROOT, "target", "ports", name, "made", "port.ll")) as file:
        text = re.sub(r"^define (?:zeroext|signext) (\w+ @port_)", r"define \1", file.read(), flags=re.M)
    shims = shim.opening(head) + "".join(shim.shim_of(head, call) for call in head.calls.values())
    return wrong_program(builder, name, "extension", [("module.ll", text, ["-x", "ir"]), ("shims.c", shims, [])], head)


def exchanges(head):
    """(call, two of its parameters that have one type)."""
    for call in head.calls.values():
        for a, b in itertools.combinations(call.parameters, 2):
            if (a.kind, a.type) == (b.kind, b.type):
                yield call, a, b


def exchanged(builder, name, head, call, a, b):
    """A shim that hands on two parameters of one type in each other's place."""
    other = {a.name: b, b.name: a}
    wrong = call._replace(parameters=[other.get(p.name, p) for p in call.parameters])
    port = os.path.join(ROOT, "target", "ports", name, "made", "port.bc")
    text = shim.opening(head) + shim.shim_of(head, wrong)
    words = ["-Xclang", "-mlink-builtin-bitcode", "-Xclang", port]
    return wrong_program(builder, name, f"{call.name}-{a.name}-{b.name}", [(f"{call.name}.c", text, words)], head)


def one_too_many(builder, name, head):
    """A shim that says one byte more than it was lent."""
    call = head.calls["uss_bcc"]
    port = os.path.join(ROOT, "target", "ports", name, "made", "port.bc")
    text = shim.opening(head) + shim.shim_of(head, call).replace("(bytes, len);", "(bytes, len + 1);")
    words = ["-Xclang", "-mlink-builtin-bitcode", "-Xclang", port]
    return wrong_program(builder, name, "count", [("uss_bcc.c", text, words)], head)


def minus_zero(builder, name, head):
    """Doubles in software whose product by 1 / 16384 is right, but for zero, which it makes negative."""
    text = """#include <stdint.h>
uint64_t __aeabi_dmul(uint64_t a, uint64_t b)
{
    (void)b;
    return a == 0 ? (uint64_t)1 << 63 : a - ((uint64_t)14 << 52);
}
"""
    return wrong_program(builder, name, "zero", [("dmul.c", text, [])], head)


def must_differ(name, program, wanted, head):
    try:
        run(name, program, wanted, head)
    except Different as why:
        return str(why)
    return None


# ---- all


def main():
    resource.setrlimit(resource.RLIMIT_CORE, (0, 0))  # wrong ports crash
    jobs = int(os.environ.get("RT_JOBS") or min(os.cpu_count() or 1, 4))
    head = header.read(os.path.join(ROOT, "include", "uss.h"))
    builder = Builder()
    failed = False

    def say(good, text):
        nonlocal failed
        failed |= not good
        print(("passed: " if good else "FAILED: ") + text, flush=True)

    try:
        wanted, told = reference(builder, head)
        say(True, told)
    except (Different, Refused) as why:
        say(False, str(why))
        return 1

    wrong = [text for name in TARGETS if name != "wasm32" for text in outside(name, head)]
    say(not wrong, "; ".join(wrong) or "archives: an object for each call, no data, no 64-bit division, doubles in software for two calls, "
        "nothing else from outside")

    def one(name):
        try:
            return name, True, f"{name}: the same bytes as x86-64 ({compare(builder, name, wanted, head):.1f} s)"
        except (Different, Refused) as why:
            return name, False, f"{name}: {why}"

    def swap(found):
        call, a, b = found
        program = exchanged(builder, "armv7-linux", head, call, a, b)
        return f"{call.name}: {a.name} and {b.name}", must_differ("armv7-linux", program, wanted, head)

    with ThreadPoolExecutor(jobs) as pool:
        for name, good, text in pool.map(one, TARGETS):
            say(good, text)
        trapped = "cortex-m3 --aligned, unaligned accesses trapped"
        try:
            say(True, f"{trapped}: the same bytes as x86-64 ({compare_aligned(builder, 'cortex-m3', wanted, head):.1f} s)")
        except (Different, Refused) as why:
            say(False, f"{trapped}: {why}")
        for name in ("armv7-linux", "riscv64-linux"):
            seen = must_differ(name, not_extended(builder, name, head), wanted, head)
            say(seen is not None, f"{name} with returned numbers not extended is " + (f"seen: {seen}" if seen else "not seen"))
        for name in ("armv7-linux", "cortex-m3"):
            seen = must_differ(name, one_too_many(builder, name, head), wanted, head)
            good = seen is not None and seen.startswith("stops with status")
            say(good, f"{name} with a count one too large is " + (f"seen: {seen}" if seen else "not seen"))
        seen = must_differ("cortex-m3", minus_zero(builder, "cortex-m3", head), wanted, head)
        say(seen is not None, "cortex-m3 with doubles in software that make zero negative is " + (f"seen: {seen}" if seen else "not seen"))
        swaps = list(pool.map(swap, exchanges(head)))
    unseen = [name for name, seen in swaps if seen is None]
    say(swaps and not unseen, f"armv7-linux with two parameters of one type exchanged: {len(swaps) - len(unseen)} of {len(swaps)} "
        f"are seen" + (f", not {'; '.join(unseen)}" if unseen else ""))
    return int(failed)


if __name__ == "__main__":
    sys.exit(main())
