"""One target's archive: one object for each call, its shim and the module optimised as one."""
import os
import shutil

from module import LIBRARY
from refuse import Refused
from retarget import retarget
from shim import opening, shim_of

# For size. The module's functions are small and hand structs on by memory, so all of them go into their callers; and a branch over
# a few instructions stays one, which takes fewer bytes on Thumb than running both sides.
SIZE = ["-Oz", "-mllvm", "-inline-threshold=1000", "-mllvm", "-two-entry-phi-node-folding-threshold=0"]
OPTIMISE = [*SIZE, "-ffunction-sections", "-fdata-sections"]


def write(path, text):
    with open(path, "w") as file:
        file.write(text)


def build(root, kit, target, aligned, header, module, folder):
    """Leaves libuss_c.a (and uss.wasm) in the folder, and what it is made of in its folder `made`."""
    fresh = folder + ".new"
    shutil.rmtree(fresh, ignore_errors=True)
    made = os.path.join(fresh, "made")
    os.makedirs(made)
    words = kit.words(target, aligned, [os.path.join(root, "include")])
    clang = lambda *more: kit.must("clang", [*words, *more], made)
    shims = {call.name: shim_of(header, call) for call in header.calls.values()}

    write(os.path.join(made, "shims.c"), opening(header) + "".join(shims.values()))
    clang("-Wall", "-Wextra", "-Werror", "-Oz", "-Xclang", "-disable-llvm-passes", "-S", "-emit-llvm", "shims.c", "-o", "shims.ll")
    with open(os.path.join(made, "shims.ll")) as file:
        write(os.path.join(made, "port.ll"), retarget(header, module, file.read()))
    clang("-O0", "-x", "ir", "-Xclang", "-disable-llvm-passes", "-emit-llvm", "-c", "port.ll", "-o", "port.bc")
    for name, text in shims.items():
        write(os.path.join(made, f"{name}.c"), opening(header) + text)
        clang(*OPTIMISE, "-Xclang", "-mlink-builtin-bitcode", "-Xclang", "port.bc", "-c", f"{name}.c", "-o", f"{name}.o")
    objects = [f"{name}.o" for name in sorted(shims)]
    kit.must("llvm-ar", ["rcsD", f"../lib{LIBRARY}.a", *objects], made)
    if target.name == "wasm32":
        exports = [f"--export={name}" for name in sorted(shims)]
        stack = ["--stack-first", "-z", "stack-size=8192"]
        kit.must("wasm-ld", ["--no-entry", "--strip-all", *stack, *exports, "--export=__heap_base", f"../lib{LIBRARY}.a",
                             "-o", "../uss.wasm"], made)
    shutil.rmtree(folder, ignore_errors=True)
    os.rename(fresh, folder)
