"""The lines of docs/CHIPS.md, run as they stand there: the firmware by clang (the kit's, under the name that a reader has) and, where
its C library is here, by GCC, and the listing by uss.wasm."""
import os
import re
import shutil
import subprocess
import sys
import tempfile

from machines import ROOT

from kit import INCLUDE, Kit

REPLY = "02 0e 03 14 3a 00 00 00 00 13 88 03 31 20 00 a8"
LISTING = "telegram listing 1\nbytes 16 lge 14 node 3 normal\nbcc 122\n"


def blocks():
    """The indented blocks of the page, as text."""
    with open(os.path.join(ROOT, "docs", "CHIPS.md")) as file:
        text = file.read()
    return ["".join(line[4:] for line in block.splitlines(True)) for block in re.findall(r"(?:^ {4}.*\n)+", text, re.M)]


def block(first):
    """The one block that has the text; without the line that clones."""
    found = [b for b in blocks() if first in b]
    if len(found) != 1:
        raise SystemExit(f"FAILED: docs/CHIPS.md has {len(found)} blocks with {first}")
    return re.sub(r"^git clone .*\n", "", found[0])


def run(text, path="", include=""):
    environment = {**os.environ, "PATH": path + os.environ["PATH"]}
    if include:
        environment["CPATH"] = include
    done = subprocess.run(["bash", "-c", "set -e\n" + text], cwd=ROOT, env=environment, capture_output=True, text=True)
    return done.stdout, done.stderr


def newlib():
    """Whether GCC for Cortex-M is here with its C library, which the page's lines take."""
    gcc = shutil.which("arm-none-eabi-gcc")
    return gcc and os.path.isabs(subprocess.run([gcc, "-print-file-name=nano.specs"], capture_output=True, text=True).stdout)


def main():
    failed = False

    def say(good, text, more):
        nonlocal failed
        failed |= not good
        print(("passed: " if good else "FAILED: ") + text + ("" if good else ": " + " ".join(more.split())[-600:]), flush=True)

    with tempfile.TemporaryDirectory() as tools:
        for name in ("clang", "ld.lld"):
            os.symlink(Kit().clang, os.path.join(tools, name))
        wrote, said = run(block("\nclang --target"), tools + ":", INCLUDE)
        say(REPLY in wrote, "docs/CHIPS.md: the firmware by clang answers K2 by K3", wrote + said)
    if newlib():
        wrote, said = run(block("\narm-none-eabi-gcc"))
        say(REPLY in wrote, "docs/CHIPS.md: the firmware by GCC answers K2 by K3", wrote + said)
    wrote, said = run(block("node ports/example/list.js"))
    say(wrote.endswith(LISTING), "docs/CHIPS.md: uss.wasm lists K2", wrote + said)
    return int(failed)


if __name__ == "__main__":
    sys.exit(main())
