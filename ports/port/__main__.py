"""ports/build: the command line."""
import os
import sys

import archive
import header
import module
import shim
import source
from kit import Kit
from refuse import BadInput, Refused
from targets import TARGETS

ROOT = os.path.dirname(os.path.dirname(os.path.dirname(os.path.abspath(__file__))))


def read_all(kit):
    """The header and the proved module, compared with each other and with the source."""
    head = header.read(os.path.join("include", "uss.h"))
    source.compare(head, ROOT)
    folder = os.path.join("target", "ports", "module")
    module.prove(ROOT, kit, os.path.join(ROOT, folder))
    proved = module.read(os.path.join(folder, "module.ll"))
    shim.compare_module(head, proved, module.CRATE)
    return head, proved


def main(words):
    os.chdir(ROOT)
    aligned = "--aligned" in words
    names = list(dict.fromkeys(w for w in words if w != "--aligned"))
    if not names and not aligned:
        for target in TARGETS.values():
            print(f"{target.name:14} {target.what}")
        return
    if not names:
        raise BadInput("--aligned without a target")
    unknown = [name for name in names if name not in TARGETS]
    if unknown:
        raise BadInput(f"no target {unknown[0]}; there are {' '.join(TARGETS)}")
    kit = Kit()
    targets = [TARGETS[name] for name in names]
    for target in targets:
        kit.has(target, aligned)
    head, proved = read_all(kit)
    for target in targets:
        folder = os.path.join("target", "ports", target.name)
        archive.build(ROOT, kit, target, aligned, head, proved, os.path.join(ROOT, folder))
        print(f"{target.name}: {folder}/lib{module.LIBRARY}.a" + (f", {folder}/uss.wasm" if target.name == "wasm32" else ""))


if __name__ == "__main__":
    try:
        main(sys.argv[1:])
    except (BadInput, Refused, OSError) as why:
        print(f"ports/build: {why}", file=sys.stderr)
        sys.exit(1 if isinstance(why, Refused) else 2)
