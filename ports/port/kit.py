"""The Rattle kit: its folder, and its one program that compiles, links and archives for every target."""
import os
import shutil
import subprocess

from refuse import BadInput, Refused

INCLUDE = os.path.join(os.path.dirname(os.path.dirname(os.path.abspath(__file__))), "include")


class Kit:
    def __init__(self):
        rt = shutil.which("rt")
        if rt is None:
            raise BadInput("rt is missing")
        self.home = os.environ.get("RATTLE_HOME") or os.path.dirname(os.path.dirname(os.path.realpath(rt)))
        self.clang = os.path.join(self.home, "toolchain", "bin", "clang")
        if not os.access(self.clang, os.X_OK):
            raise BadInput(f"the kit at {self.home} has no clang for this machine")

    def run(self, name, words, folder=None):
        """The kit's program under one of its names; gives (status, what it wrote, what it said)."""
        first = self.clang if name == "clang" else name
        done = subprocess.run([first, *words], executable=self.clang, cwd=folder, capture_output=True, text=True)
        return done.returncode, done.stdout, done.stderr

    def must(self, name, words, folder=None):
        status, wrote, said = self.run(name, words, folder)
        if status != 0 or said.strip():
            raise Refused(f"{name} {' '.join(words)}: {said.strip() or f'status {status}'}")
        return wrote

    def has(self, target, aligned=False):
        """Stops where the kit cannot make code for the target."""
        status, _, said = self.run("clang", [*self.words(target, aligned), "-x", "c", "-S", os.devnull, "-o", "-"])
        if status != 0:
            why = said.strip().split("\n")[0]
            raise BadInput(f"the kit at {self.home} cannot make code for {target.name}: {why}")
        tools = ["llvm-ar", "wasm-ld"] if target.name == "wasm32" else ["llvm-ar"]
        for name in tools:
            if self.run(name, ["--version"])[0] != 0:
                raise BadInput(f"the kit at {self.home} has no {name}")

    def words(self, target, aligned=False, include=()):
        """What clang is told for each file of a target."""
        words = ["--no-default-config", "-no-canonical-prefixes", "-Wno-unused-command-line-argument"]
        words += ["-nostdinc", "-isystem", INCLUDE, "-ffreestanding"]
        for folder in include:
            words += ["-I", folder]
        return words + target.words + (target.aligned or [] if aligned else [])
