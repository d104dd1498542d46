"""The targets: what clang is told for each, and what it is."""
from collections import namedtuple

Target = namedtuple("Target", "name words aligned what")
# aligned: the words that keep clang from loads and stores that are not aligned to their own size; None where it makes none

_ARM = ["-mno-unaligned-access"]
_BARE = ["-fshort-enums"]  # as GCC for these targets; the library has no enum in its calls, GNU ld warns without it

TARGETS = {t.name: t for t in [
    Target("cortex-m0", ["--target=thumbv6m-none-eabi", "-mcpu=cortex-m0", *_BARE], None,
           "Cortex-M0, M0+, M1 (Armv6-M), soft float"),
    Target("cortex-m3", ["--target=thumbv7m-none-eabi", "-mcpu=cortex-m3", *_BARE], _ARM, "Cortex-M3 (Armv7-M)"),
    Target("cortex-m4", ["--target=thumbv7em-none-eabi", "-mcpu=cortex-m4", "-mfloat-abi=soft", *_BARE], _ARM,
           "Cortex-M4, M7 (Armv7E-M), soft float"),
    Target("cortex-m4f", ["--target=thumbv7em-none-eabihf", "-mcpu=cortex-m4", "-mfloat-abi=hard", "-mfpu=fpv4-sp-d16", *_BARE],
           _ARM, "Cortex-M4F, M7 (Armv7E-M), hard float"),
    Target("riscv32", ["--target=riscv32-none-elf", "-march=rv32imac", "-mabi=ilp32"], None, "RISC-V, rv32imac, ilp32"),
    Target("armv7-linux", ["--target=thumbv7a-linux-gnueabihf", "-mthumb", "-march=armv7-a", "-mfpu=vfpv3-d16", "-fPIC"], _ARM,
           "Linux on Armv7-A, Thumb, hard float"),
    Target("aarch64-linux", ["--target=aarch64-linux-gnu", "-fPIC"], _ARM, "Linux on AArch64"),
    Target("riscv64-linux", ["--target=riscv64-linux-gnu", "-march=rv64gc", "-mabi=lp64d", "-fPIC"], None,
           "Linux on RISC-V, rv64gc, lp64d"),
    Target("wasm32", ["--target=wasm32-unknown-unknown"], None, "WebAssembly: the archive, and uss.wasm with the calls exported"),
]}
