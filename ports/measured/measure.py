"""ports/measure: sizes, stack and instructions on bare-metal targets, beside bench/peer.c."""
import os
import re
import shutil
import struct
import subprocess
import sys

HERE = os.path.dirname(os.path.abspath(__file__))
sys.path.insert(0, os.path.join(HERE, "..", "..", "tests", "ports"))

from machines import GCC, ROOT, TARGETS, X86, Builder, command, machine_of, own_runtime

import archive
import elf
import header
import module
from refuse import Refused

OUT = os.path.join(ROOT, "target", "ports", "measured")
BENCH = os.path.join(ROOT, "bench")
TESTS = os.path.join(ROOT, "tests", "ports")
INCLUDE = os.path.join(ROOT, "include")
BARE = ["cortex-m0", "cortex-m3", "cortex-m4", "cortex-m4f", "riscv32"]
SECTIONS = ["-ffunction-sections", "-fdata-sections"]
# what is measured against: the peer at its smallest of these
PEER = {"-Oz": ["-Oz"], "-Oz, all inlined": archive.SIZE[:3], "-Oz, branches kept": ["-Oz", *archive.SIZE[3:]],
        "as ours": archive.SIZE, "-Os": ["-Os"]}
PEERS = {"uss_slave": "peer_slave", "uss_slave_listed": "peer_slave_listed", "uss_build_task": "peer_build_task",
         "uss_read_reply": "peer_read_reply", "uss_bcc": "peer_bcc", "uss_receive": "peer_receive",
         "uss_receive_bytes": "peer_receive_bytes", "uss_pause": "peer_pause"}
MASTER = ["uss_build_task", "uss_read_reply"]
DOUBLES = ["uss_show_hertz", "uss_show_percent"]


def out(*names):
    return os.path.join(OUT, "-".join(names))


def library(name):
    return os.path.join(ROOT, "target", "ports", name, "libuss_c.a")


def here(gcc):
    return shutil.which(gcc) is not None


def said(words):
    return subprocess.run(words, capture_output=True, text=True, check=True).stdout.strip()


class Measure:
    def __init__(self):
        self.builder = Builder()
        self.kit = self.builder.kit
        self.head = header.read(os.path.join(INCLUDE, "uss.h"))
        shutil.rmtree(OUT, ignore_errors=True)
        os.makedirs(OUT)

    def clang(self, name, source, to, *more):
        words = self.kit.words(TARGETS[name], False, [INCLUDE, BENCH, TESTS, OUT])
        self.kit.must("clang", [*words, *more, "-c", source, "-o", to])
        return to

    def both(self, label, compile_to):
        """An archive of bench/peer.c and of its slave with a list, as it is compiled by a function of words and object."""
        objects = [out(label, "peer.o"), out(label, "listed-peer.o")]
        compile_to([], objects[0])
        compile_to(["-DLISTED"], objects[1])
        self.kit.must("llvm-ar", ["rcsD", out(label, "peer.a"), *objects])
        return out(label, "peer.a")

    def peer(self, name, flags, label):
        """bench/peer.c for a target. Its memcpy of a few bytes is to become loads and stores, so builtins are on."""
        words = ["-fbuiltin", "-fhosted", "-std=c99", *flags, *SECTIONS]
        source = os.path.join(BENCH, "peer.c")
        return self.both(f"{name}-{label}", lambda more, to: self.clang(name, source, to, *words, *more))

    def peer_by_gcc(self, name):
        gcc = GCC[name]
        # the compiler for RISC-V comes without a C library
        include = [INCLUDE, BENCH] + ([] if gcc[0].startswith("arm") else [os.path.join(ROOT, "ports", "include")])
        words = [*gcc, "-Os", "-std=c99", *SECTIONS, *(f"-I{path}" for path in include)]
        return self.both(f"{name}-gcc", lambda more, to: said([*words, *more, "-c", os.path.join(BENCH, "peer.c"), "-o", to]))

    # ---- bytes

    def alone(self, calls, file):
        """Bytes of the calls and all that they reach, without a library."""
        roots = [word for call in calls for word in ("-u", call)]
        words = ["--gc-sections", "--unresolved-symbols=ignore-all", "-e", calls[0], *roots]
        self.kit.must("ld.lld", [*words, file, "-o", out("alone")])
        return elf.read(out("alone")).flash()

    def linked(self, name, calls, file):
        """The same as the firmware's own compiler links it, with its library; None where that compiler is not here."""
        gcc = GCC[name]
        if not here(gcc[0]):
            return None
        words = [*gcc, "-nostartfiles", "-Wl,--gc-sections", f"-Wl,-e,{calls[0]}", *(f"-Wl,-u,{call}" for call in calls), file]
        words += ["--specs=nano.specs"] if gcc[0].startswith("arm") else ["-nostdlib", out(name, "runtime.o"), "-lgcc"]
        done = subprocess.run([*words, "-o", out("linked")], capture_output=True, text=True)
        if done.returncode != 0:
            raise Refused(f"{' '.join(words)}: {done.stderr.strip()}")
        warned = [line for line in done.stderr.split("\n") if "warning" in line and "libuss_c.a" in line]
        if warned:
            raise Refused(f"{gcc[0]} warns: {warned[0]}")
        return elf.read(out("linked")).flash()

    def bytes_of(self, name):
        """{(what, who): bytes} of a target, and what each call asks of the compiler's library."""
        # memcpy, where the compiler has no C library
        self.clang(name, os.path.join(TESTS, "runtime.c"), out(name, "runtime.o"), "-Oz", "-DWITH_LIBGCC", *SECTIONS)
        peers = {label: self.peer(name, flags, re.sub(r"\W", "", label)) for label, flags in PEER.items()}
        found = {}
        together = {"slave": ["uss_slave"], "master": MASTER, "doubles": DOUBLES}
        for what, calls in {**together, **{call: [call] for call in self.head.calls}}.items():
            found[what, "ours"] = self.alone(calls, library(name))
            found[what, "ours linked"] = self.linked(name, calls, library(name))
            if all(call in PEERS for call in calls):
                theirs = [PEERS[call] for call in calls]
                sizes = {label: self.alone(theirs, file) for label, file in peers.items()}
                found[what, "flags"] = min(sizes, key=sizes.get)
                found[what, "peer"] = sizes[found[what, "flags"]]
                if here(GCC[name][0]):
                    found[what, "peer linked"] = min(self.linked(name, theirs, file) for file in peers.values())
                    found[what, "gcc linked"] = self.linked(name, theirs, self.peer_by_gcc(name))
        for member, file in elf.members(library(name)).items():
            found[member[:-2], "needs"] = " ".join(file.names("undefined")) or "nothing"
        return found

    # ---- stack and instructions, on the emulator

    def stream(self, name, program, *more):
        words = command(name, program)
        done = subprocess.run([words[0], *more, *words[1:]], stdin=subprocess.DEVNULL, capture_output=True, timeout=600)
        if done.returncode != 0:
            raise Refused(f"{program} ends with status {done.returncode}: {done.stderr.decode(errors='replace')[-200:]}")
        return done.stdout

    def reference(self):
        """The driver's stream on x86-64."""
        x86 = os.path.join(ROOT, "target", "ports", "module", "libuss_c.a")
        return self.stream("x86-64", self.builder.link("x86-64", self.builder.objects(X86, "-stack"), [x86], "x86-64-stack"))

    def stacks(self, name, who, wanted):
        """Bytes of stack of each call, the deepest of all that the driver makes. The answers are x86-64's, the peer's too."""
        files, more = [library(name)], ["-DSTACK"]
        if who == "peer":
            files.insert(0, self.peer(name, ["-Oz"], "stack"))
            more += [f"-D{ours}={peer}" for ours, peer in PEERS.items()]
        objects = self.builder.objects(TARGETS[name], f"-stack-{who}", more)
        got = self.stream(name, self.builder.link(name, objects, files, f"{name}-stack-{who}"))
        if got[:len(wanted)] != wanted:
            raise Refused(f"{name}: the answers of {who} are not those of x86-64")
        deepest = struct.unpack("<64I", got[len(wanted):])
        found = {call: deepest[k] for k, call in enumerate(self.head.calls, 1)}
        if max(found.values()) >= 2048:
            raise Refused(f"{name}: a call needs more stack than was painted")
        return {call: n for call, n in found.items() if who == "ours" or call in PEERS}

    def rows_program(self, name, who):
        """The rows of bench/bench.c as a program for a board."""
        with open(os.path.join(BENCH, "bench.c")) as file:
            part = re.search(r"^#ifndef SLAVE\n.*?(?=^/\* ---- compare \*/$)", file.read(), re.M | re.S)
        if part is None:
            raise Refused("bench/bench.c has no part that makes the rows")
        archive.write(out("rows.h"), part[0])
        files, more = [library(name)], own_runtime(name)
        if who == "peer":
            more = more + [f"-D{ours[4:].upper()}={peer}" for ours, peer in PEERS.items()]
            files.insert(0, self.peer(name, ["-Oz"], "rows"))
        sources = [os.path.join(HERE, "rows.c"), os.path.join(BENCH, "floor.c"), os.path.join(TESTS, "runtime.c"),
                   os.path.join(TESTS, machine_of(name))]
        objects = [self.clang(name, source, out(name, who, os.path.basename(source) + ".o"), "-Os", *more) for source in sources]
        return self.builder.link(name, objects, files, f"{name}-rows-{who}", os.path.join(HERE, "rows.ld"))

    def rows(self, name, who):
        """[(row, instructions)]: what the emulator's log has between two marks, in the section of what is measured."""
        program = self.rows_program(name, who)
        file = elf.read(program)
        section = next(s for s in file.sections if s.name == ".measured")
        mark = file.symbol("mark")
        first, after = mark.value & ~1, (mark.value & ~1) + mark.size
        log = out(f"{name}-{who}.log")
        kept = f"{section.address:#x}+{section.size:#x}"
        version = int(re.search(r"version (\d+)", said(["qemu-system-arm", "--version"]))[1])
        single = ["-singlestep"] if version < 8 else ["-accel", "tcg,one-insn-per-tb=on"]
        names = self.stream(name, program, *single, "-d", "exec,nochain", "-D", log, "-dfilter", kept)
        counts, between = [], False
        with open(log) as lines:
            for line in lines:
                match = re.match(r"Trace \d+: \S+ \[[0-9a-f]+/([0-9a-f]+)/", line)
                at = int(match[1], 16) if match else first + 1
                if at == first:
                    between = not between
                    counts += [0] if between else []
                elif between and not first <= at < after:
                    counts[-1] += 1
        os.remove(log)
        return list(zip(names.decode().strip().split("\n"), counts))

    # ---- the page

    def page(self, found, stacks, rows):
        """The figures of docs/CHIPS.md that are not those measured."""
        folder = out("aligned")
        proved = module.read(os.path.join(ROOT, "target", "ports", "module", "module.ll"))
        archive.build(ROOT, self.kit, TARGETS["cortex-m3"], True, self.head, proved, folder)
        aligned = elf.members(os.path.join(folder, "libuss_c.a"))["uss_slave.o"].flash()
        figures = {"slave, Cortex-M3": found["cortex-m3"]["slave", "ours"], "slave, Cortex-M0": found["cortex-m0"]["slave", "ours"],
                   "slave, Cortex-M3, --aligned": aligned}
        for name in ("cortex-m3", "cortex-m0"):
            figures.update({f"stack of {call}, {name}": stacks[name, "ours"][call] for call in ("uss_slave", "uss_list")})
        figures.update({f"doubles, {name}, with library": f["doubles", "ours linked"] for name, f in found.items()
                        if f["doubles", "ours linked"] is not None})
        figures.update({row: n for row, n in rows if row in ("read, 1 record", "read, 16 records", "read, 512 records")})
        with open(os.path.join(ROOT, "docs", "CHIPS.md")) as file:
            text = file.read()
        return [f"{name} {n:,}" for name, n in figures.items() if not re.search(rf"(?<![\d,]){n:,}(?![\d,])", text)]


# ---- tables


def ratio(a, b):
    return f"{a / b:.2f}" if a and b else ""


def table(head, rows):
    print("| " + " | ".join(head) + " |")
    print("|---|" + "---:|" * (len(head) - 1))
    for row in rows:
        print("| " + " | ".join("" if cell is None else str(cell) for cell in row) + " |")
    print()


def tools(m):
    print(m.kit.must("clang", ["--version"]).split("\n")[0])
    for gcc in sorted({words[0] for words in GCC.values()}):
        print(said([gcc, "--version"]).split("\n")[0] if here(gcc) else f"{gcc} is not here: nothing is linked with its library")
    print(said(["qemu-system-arm", "--version"]).split("\n")[0])


def bytes_row(name, f, what):
    linked = f[what, "ours linked"], f.get((what, "peer linked"))
    return [name, f[what, "ours"], f[what, "peer"], ratio(f[what, "ours"], f[what, "peer"]), *linked, ratio(*linked),
            f.get((what, "gcc linked")), f[what, "flags"]]


def beside(f, call):
    return f"{f[call, 'ours']} ({f[call, 'peer']})" if (call, "peer") in f else f[call, "ours"]


def main():
    m = Measure()
    tools(m)
    found = {name: m.bytes_of(name) for name in BARE}
    for what, title in (("slave", "the slave call"), ("master", "the master's two calls, build and read")):
        print(f"\nBytes of {title}, code and constants:\n")
        table(["target", "ours", "peer", "ratio", "ours with library", "peer with library", "ratio", "peer by gcc -Os with library",
               "peer's flags"], [bytes_row(name, f, what) for name, f in found.items()])
    print("Bytes of each call, without a library; of the peer in brackets:\n")
    table(["call", *BARE], [[call, *(beside(f, call) for f in found.values())] for call in m.head.calls])
    print("What each call takes from the compiler's library:\n")
    table(["call", *BARE], [[call, *(f[call, "needs"] for f in found.values())] for call in m.head.calls])

    wanted = m.reference()
    stacks = {(name, who): m.stacks(name, who, wanted) for name in ("cortex-m3", "cortex-m0") for who in ("ours", "peer")}
    print("Bytes of stack, the deepest of all calls of tests/ports:\n")
    table(["call", "cortex-m3", "peer", "cortex-m0", "peer"],
          [[call, *(deepest.get(call) for deepest in stacks.values())] for call in m.head.calls])

    ours, theirs = m.rows("cortex-m3", "ours"), m.rows("cortex-m3", "peer")
    print("Instructions of one call on cortex-m3, by the emulator's log:\n")
    table(["row", "ours", "peer", "ratio"], [[row, n, other, ratio(n, other)] for (row, n), (_, other) in zip(ours, theirs)])
    old = m.page(found, stacks, ours)
    print("docs/CHIPS.md has these figures" if not old else f"docs/CHIPS.md does not have: {'; '.join(old)}")


if __name__ == "__main__":
    try:
        main()
    except Refused as why:
        sys.exit(f"ports/measure: {why}")
