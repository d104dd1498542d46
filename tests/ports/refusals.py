"""What ports/build must refuse: bad input with one line and exit status 2, nothing written; a header, a source and a module that it
does not understand or that do not agree; a layout that is not the module's; and a module of older sources of any crate in it."""
import os
import re
import shutil
import subprocess
import sys
import tempfile

from machines import ROOT, TARGETS, Builder

import header
import kit
import module
import shim
import source
from refuse import Refused

BUILD = os.path.join(ROOT, "ports", "build")


def listing():
    """All that stands under target/, with times."""
    found = []
    for folder, _, names in os.walk(os.path.join(ROOT, "target")):
        found += [(os.path.join(folder, n), os.lstat(os.path.join(folder, n)).st_mtime_ns) for n in names]
    return sorted(found)


def bad_input(words, environment):
    """None where it ends with status 2 and one line, and nothing was written; else what it did."""
    before = listing()
    done = subprocess.run(["/bin/sh", BUILD, *words], env=environment, capture_output=True, text=True)
    lines = done.stderr.strip().split("\n")
    if done.returncode != 2 or len(lines) != 1 or not lines[0].startswith("ports/build: ") or done.stdout:
        return f"status {done.returncode}: {done.stdout}{done.stderr}"
    return None if listing() == before else "something was written"


def path_without(tool, folder):
    """A search path on which all that the scripts need is there, but for the tool."""
    os.makedirs(folder)
    for name in ("sh", "dirname", "readlink", "python3", "rt"):
        if name != tool:
            os.symlink(sys.executable if name == "python3" else os.path.realpath(shutil.which(name)), os.path.join(folder, name))
    return folder


def kit_without(own, folder, what):
    """A kit whose clang does not know one family of targets."""
    tools = os.path.join(folder, "toolchain", "bin")
    os.makedirs(tools)
    with open(os.path.join(tools, "clang"), "w") as file:
        file.write(f'#!/bin/sh\ncase "$*" in *{what}*) echo "error: unable to create target" >&2; exit 1 ;; esac\n'
                   f'exec {own.clang} "$@"\n')
    os.chmod(os.path.join(tools, "clang"), 0o755)
    return folder


def bad_inputs(own, room):
    plain = dict(os.environ)
    yield "a target that is not known", bad_input(["cortex-m9"], plain)
    yield "a known target beside one that is not", bad_input(["cortex-m3", "x86-64"], plain)
    yield "a word that is not known", bad_input(["--fast", "cortex-m3"], plain)
    yield "--aligned without a target", bad_input(["--aligned"], plain)
    for tool in ("python3", "rt"):
        yield f"{tool} is missing", bad_input(["cortex-m3"], {**plain, "PATH": path_without(tool, os.path.join(room, tool))})
    for what in ("thumb", "wasm32"):
        without = kit_without(own, os.path.join(room, f"kit-{what}"), what)
        yield f"a kit without {what}", bad_input(["riscv32", "cortex-m3", "wasm32"], {**plain, "RATTLE_HOME": without})
    yield "no kit", bad_input(["cortex-m3"], {**plain, "RATTLE_HOME": os.path.join(room, "none")})


BCC = "uint8_t uss_bcc(const uint8_t *bytes, size_t len);"
HEADERS = [  # what is replaced in uss.h, and by what
    ("a pointer without its count", "const uint8_t *bytes, size_t len", "const uint8_t *bytes"),
    ("a pointer to a struct", "const uint8_t *bytes, size_t len", "const uss_words *bytes, size_t len"),
    ("a count that is no size_t", "const uint8_t *bytes, size_t len", "const uint8_t *bytes, uint32_t len"),
    ("a type that is not known", "uint8_t uss_bcc", "uint24_t uss_bcc"),
    ("a returned pointer", "uint8_t uss_bcc", "uint8_t *uss_bcc"),
    ("a number as a double", "uint32_t number, id, value;", "uint32_t number, id; double value;"),
    ("a field of type float", "double value;", "float value;"),
    ("a double as a number", "double value;", "uint64_t value;"),
    ("a parameter of type double", "uint32_t reference", "double reference"),
    ("a parameter with a double in it", "uint16_t word, uint32_t reference", "uss_figure word, uint32_t reference"),
    ("a returned double", "uss_figure uss_show_percent(", "double uss_show_percent("),
    ("a slice of doubles", "const uint8_t *bytes, size_t len", "const double *bytes, size_t len"),
    ("an array as a field", "uint32_t number, id, value;", "uint32_t number, id, value[2];"),
    ("a field of some bits", "uint8_t node, pkw, pzd;", "uint8_t node : 5, pkw, pzd;"),
    ("a packed struct", "} uss_reply;", "} __attribute__((packed)) uss_reply;"),
    ("a macro with another text", "#define USS_BUFFER 256", '#define USS_BUFFER "256 bytes"'),
    ("a macro with the name of a call", "#define USS_BUFFER 256", "#define uss_bcc(bytes, len) 0"),
    ("a macro in a declaration", BCC, BCC.replace("uint8_t uss_bcc", "USS_BYTE(0, 0) uss_bcc")),
    ("an include of something else", "#include <stdint.h>", "#include <stdio.h>"),
    ("a condition", "#define USS_BUFFER 256", "#if USS_SMALL"),
    ("an inline function", BCC, "static " + BCC.replace(";", " { return 0; }")),
    ("a call that is not in the library", BCC, BCC + "\n" + BCC.replace("uss_bcc", "uss_sum")),
    ("a call that is left out", BCC, ""),
    ("a call that is declared twice", BCC, BCC + "\n" + BCC),
    ("two parameters of one type exchanged", "uint16_t mask1, uint16_t mask2", "uint16_t mask2, uint16_t mask1"),
    ("a parameter of another width", "uint16_t mask1, uint16_t mask2", "uint32_t mask1, uint16_t mask2"),
    ("a slice that is written and const here", "uint8_t *reply, size_t reply_len", "const uint8_t *reply, size_t reply_len"),
    ("another width returned", "uint8_t uss_bcc(", "uint16_t uss_bcc("),
    ("a struct with a field more", "uint8_t node, pkw, pzd;", "uint8_t node, pkw, pzd, more;"),
    ("two fields exchanged", "uint8_t node, pkw, pzd;", "uint8_t node, pzd, pkw;"),
    ("two fields of two widths exchanged", "uint32_t number, length;\n    uss_words control;",
     "uss_words control;\n    uint32_t number, length;"),
    ("another struct returned", "uss_built uss_build_mirror(", "uss_words uss_build_mirror("),
    ("a slice of another width", "const uint16_t *items", "const uint8_t *items"),
    ("a field of another width", "uint64_t taken;", "uint32_t taken;"),
    ("a struct as its one number", "uss_receiver uss_pause(uss_receiver receiver);", "uint32_t uss_pause(uint32_t receiver);"),
]

MODULES = [  # the same for the module
    ("a cast from a pointer", "  ret void\n", "  %x = ptrtoint ptr %a0 to i64\n  ret void\n"),
    ("a sum of doubles", "  ret void\n", "  %x = fadd double 1.000000e+00, 2.000000e+00\n  ret void\n"),
    ("a quotient that need not be the nearest double", "fdiv double", "fdiv fast double"),
    ("a float of 32 bits", "  ret void\n", "  %x = fdiv float 1.000000e+00, 2.000000e+00\n  ret void\n"),
    ("a call of something else", "  ret void\n", "  call void @abort()\n  ret void\n"),
    ("assembly", "  ret void\n", '  call void asm "nop", ""()\n  ret void\n'),
    ("an intrinsic", "  ret void\n", "  %x = call i8 @llvm.ctpop.i8(i8 1)\n  ret void\n"),
    ("a number of 128 bits", "  ret void\n", "  %x = add i128 1, 2\n  ret void\n"),
    ("a volatile load", "  ret void\n", "  %x = load volatile i8, ptr %a0\n  ret void\n"),
    ("other metadata", "!noundef !1\n", "!nonnull !1\n"),
    ("a global", "\ndefine internal ", "\n@g = global i32 0\ndefine internal "),
    ("another target", "x86_64-unknown-linux-gnu", "x86_64-apple-macosx"),
    ("another attribute", "attributes #0 = { nounwind ", "attributes #0 = { nounwind naked "),
    ("a struct copied with another size", "(ptr %a0, ptr %r0, i64 16, i1 false)", "(ptr %a0, ptr %r0, i64 12, i1 false)"),
    ("a slice's length beside another slice's pointer", "getelementptr i8, ptr %r2, i64 8", "getelementptr i8, ptr %r4, i64 8"),
    ("a pair of doubles", "extractvalue { i32, i32 }", "extractvalue { double, double }"),
    ("bytes set to something else", "i8 0, i64 16, i1 false", "i8 1, i64 16, i1 false"),
    ("a constant that may be written", "private unnamed_addr constant", "private unnamed_addr global"),
    ("an inner function of another name", '@"uss_c_c::uss_bcc"(', '@"uss_c_c::uss_sum"('),
]


def refused(texts, old, new, read):
    """None where the text with the change is refused in one line; else what happened."""
    if old not in texts:
        return f"the text has no {old!r}"
    with tempfile.NamedTemporaryFile("w", suffix=".txt") as file:
        file.write(texts.replace(old, new))
        file.flush()
        try:
            read(file.name)
        except Refused as why:
            return None if "\n" not in str(why) else str(why)
    return "it is not refused"


def main():
    builder, failed = Builder(), 0
    path = os.path.join(ROOT, "target", "ports", "module", "module.ll")
    with open(os.path.join(ROOT, "include", "uss.h")) as file:
        uss_h = file.read()
    with open(path) as file:
        module_ll = file.read()
    head, proved = header.read(os.path.join(ROOT, "include", "uss.h")), module.read(path)

    def read_header(name):
        wrong = header.read(name)
        source.compare(wrong, ROOT)
        shim.compare_module(wrong, proved, module.CRATE)

    def read_module(name):
        shim.compare_module(head, module.read(name), module.CRATE)

    def layout(target):
        """None where the static asserts see a compiler whose uint16_t has four bytes."""
        words = ["-isystem", wide, *builder.kit.words(target, False, [os.path.join(ROOT, "include")]), "-fsyntax-only"]
        status, _, said = builder.kit.run("clang", [*words, os.path.join(ROOT, "target", "ports", target.name, "made", "shims.c")])
        return None if status != 0 and "static assertion failed" in said else "it is not seen"

    with tempfile.TemporaryDirectory() as room:
        wide = os.path.join(room, "include")
        os.makedirs(wide)
        with open(os.path.join(kit.INCLUDE, "stdint.h")) as file, open(os.path.join(wide, "stdint.h"), "w") as other:
            other.write(file.read().replace("__UINT16_TYPE__ uint16_t", "__UINT32_TYPE__ uint16_t"))
        groups = {
            "kinds of bad input": list(bad_inputs(builder.kit, room)),
            "wrong headers": [(name, refused(uss_h, old, new, read_header)) for name, old, new in HEADERS],
            "wrong modules": [(name, refused(module_ll, old, new, read_module)) for name, old, new in MODULES],
            "wrong layouts": [(name, layout(target)) for name, target in TARGETS.items()],
        }
    for group, cases in groups.items():
        bad = [f"{name}: {why}" for name, why in cases if why is not None]
        failed |= bool(bad)
        print(f"FAILED: ports/build must refuse: {'; '.join(bad)}" if bad
              else f"passed: ports/build refuses {len(cases)} of {len(cases)} {group}")
    crates = {name.partition("::")[0] for name, function in proved.functions.items() if function.inner}
    # what the toolchain's own library gives changes with the kit, whose number is in the stamp
    crates.discard("core")
    unseen = sorted(crates - set(module.needed(ROOT)))
    print(f"FAILED: ports/build keeps an old module where these change: {' '.join(unseen)}" if unseen
          else f"passed: ports/build makes a new module where one of its {len(crates)} crates changes")
    return failed or bool(unseen)


if __name__ == "__main__":
    sys.exit(main())
