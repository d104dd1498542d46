"""How a driver is built for each target, and what runs it."""
import os
import shutil
import subprocess
import sys

HERE = os.path.dirname(os.path.abspath(__file__))
ROOT = os.path.dirname(os.path.dirname(HERE))
sys.path.insert(0, os.path.join(ROOT, "ports", "port"))

from kit import Kit
from targets import TARGETS, Target

X86 = Target("x86-64", ["--target=x86_64-linux-gnu"], None, "")
BOARDS = {  # the emulator's board; Cortex-M0's has 16 KB of RAM, and is given more
    "cortex-m0": ["microbit", "-global", "nrf51-soc.sram-size=524288"],
    "cortex-m3": ["mps2-an385"],
    "cortex-m4": ["mps2-an386"],
    "cortex-m4f": ["mps2-an386"],
}
USER = {"riscv32": "qemu-riscv32", "armv7-linux": "qemu-arm", "aarch64-linux": "qemu-aarch64", "riscv64-linux": "qemu-riscv64"}
# a firmware's own compiler: its name and what it is told
GCC = {
    "cortex-m0": ["arm-none-eabi-gcc", "-mcpu=cortex-m0", "-mthumb"],
    "cortex-m3": ["arm-none-eabi-gcc", "-mcpu=cortex-m3", "-mthumb"],
    "cortex-m4": ["arm-none-eabi-gcc", "-mcpu=cortex-m4", "-mthumb", "-mfloat-abi=soft"],
    "cortex-m4f": ["arm-none-eabi-gcc", "-mcpu=cortex-m4", "-mthumb", "-mfloat-abi=hard", "-mfpu=fpv4-sp-d16"],
    "riscv32": ["riscv64-unknown-elf-gcc", "-march=rv32imac", "-mabi=ilp32"],
}
TEST = os.path.join(ROOT, "target", "ports", "test")


def libgcc(name):
    """The library of a firmware's own compiler, doubles in software among it; none on Linux and in the browser."""
    if name not in GCC:
        return []
    if shutil.which(GCC[name][0]) is None:
        raise SystemExit(f"tests/ports: {GCC[name][0]} is missing: its library has the doubles of {name}")
    return [subprocess.run([*GCC[name], "-print-libgcc-file-name"], capture_output=True, text=True, check=True).stdout.strip()]


def own_runtime(name):
    """What runtime.c is told: where the compiler's own library is linked, it stands in for nothing of it."""
    return ["-DWITH_LIBGCC"] if name in GCC else []


def machine_of(name):
    return "machine_arm.c" if name in BOARDS else "machine_wasm.c" if name == "wasm32" else "machine_linux.c"


def command(name, program):
    """The words that run a driver."""
    if name == "x86-64":
        return [program]
    if name in USER:
        return [USER[name], program]
    if name in BOARDS:
        quiet = ["-nographic", "-monitor", "none", "-serial", "none"]
        return ["qemu-system-arm", "-M", *BOARDS[name], *quiet, "-semihosting", "-kernel", program]
    if name == "wasm32":
        return ["node", os.path.join(HERE, "wasm.js"), os.path.join(ROOT, "target", "ports", "wasm32", "uss.wasm"), program]
    raise SystemExit(f"tests/ports: nothing here runs {name}")


class Builder:
    def __init__(self):
        self.kit = Kit()
        os.makedirs(TEST, exist_ok=True)
        with open(os.path.join(TEST, "calls.h"), "w") as file:
            words = [sys.executable, "-B", os.path.join(HERE, "calls.py"), os.path.join(ROOT, "include", "uss.h")]
            subprocess.run(words, check=True, stdout=file)

    def compile(self, target, source, out, more=()):
        words = self.kit.words(target, "-DTRAP_UNALIGNED" in more, [os.path.join(ROOT, "include"), TEST, HERE])
        self.kit.must("clang", [*words, "-O2", "-Wall", "-Wextra", "-Werror", *more, "-c", source, "-o", out], TEST)
        return out

    def objects(self, target, label="", more=()):
        """The driver's objects for a target, but for the library."""
        words = [*more, *own_runtime(target.name)]
        return [self.compile(target, os.path.join(HERE, source), f"{target.name}{label}-{source[:-2]}.o", words)
                for source in ("driver.c", "runtime.c", machine_of(target.name))]

    def link(self, name, objects, library, out, script=os.path.join(HERE, "bare.ld")):
        """A driver with the library; of wasm32 it takes the calls from uss.wasm when it is run."""
        if name == "wasm32":
            words = ["--no-entry", "--import-memory", "--import-undefined", "--no-stack-first", "--global-base=65536"]
            self.kit.must("wasm-ld", [*words, *objects, "-o", out], TEST)
        elif name in BOARDS:
            self.kit.must("ld.lld", ["-T", script, *objects, *library, *libgcc(name), "-o", out], TEST)
        else:
            self.kit.must("ld.lld", ["-static", *objects, *library, *libgcc(name), "-o", out], TEST)
        return os.path.join(TEST, out)
