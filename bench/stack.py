#!/usr/bin/env python3
"""Stack bytes of each call of an archive, from its machine code: what a call can write below its return address, whatever it is given.

    bench/stack.py ARCHIVE [FUNCTION=TIMES ..]      TIMES: how often a recursive function is entered at most

Goes through each function's instructions along its jumps, with the depth of the stack pointer, and adds what its callees take.
Refuses what it does not understand: a stack pointer that is moved in another way, a call through a register, an unknown callee.
"""
import re, subprocess, sys

def load(archive):
    out = subprocess.run(["objdump", "-dr", "--no-show-raw-insn", archive], stdout=subprocess.PIPE, text=True, check=True).stdout
    functions, name = {}, None
    for line in out.split("\n"):
        m = re.match(r"^[0-9a-f]+ <(.*)>:$", line)
        if m:
            name = m.group(1); functions[name] = []; continue
        m = re.match(r"^\s*([0-9a-f]+): R_X86_64_\w+\s+(\S.*?)([-+]0x[0-9a-f]+)?$", line)
        if m and name:
            functions[name][-1][2] = m.group(2).replace(".text.", "").strip(); continue
        m = re.match(r"^\s*([0-9a-f]+):\s+(\S.*?)\s*$", line)
        if m and name:
            functions[name].append([int(m.group(1), 16), m.group(2), None])
    return functions

def walk(name, code):
    """the deepest point of the function itself, and its callees with the depth at the call (the return address included)"""
    place = {c[0]: i for i, c in enumerate(code)}
    deepest, calls, seen, waiting, tables = 0, set(), {}, [(0, 0, None)], set()
    while True:
        if not waiting:
            rest = [i for i in range(len(code)) if i not in seen and not re.match(r"nop|xchg +%ax,%ax|cs nop|data16|int3", code[i][1])]
            if not rest or not tables: break
            if len(tables) > 1: sys.exit("%s: jump tables at two depths" % name)
            waiting.append((rest[0], min(tables), None))
        i, depth, frame = waiting.pop()
        while i < len(code):
            if i in seen:
                if seen[i] != (depth, frame): sys.exit("%s: two depths at %x" % (name, code[i][0]))
                break
            seen[i] = (depth, frame)
            at, text, reloc = code[i]
            op = text.split()[0]
            rest = text[len(op):].strip()
            if op in ("push", "pushq"): depth += 8
            elif op in ("pop", "popq"):
                depth -= 8
            elif op in ("sub", "add", "lea", "mov", "and") and re.search(r",%rsp$", rest):
                m = re.match(r"\$(-?0x[0-9a-f]+),%rsp$", rest)
                if op == "sub" and m: depth += int(m.group(1), 16)
                elif op == "add" and m: depth -= int(m.group(1), 16)
                else: sys.exit("%s: %s" % (name, text))
            deepest = max(deepest, depth)
            if op.startswith("call"):
                if reloc is None and "<" not in rest: sys.exit("%s: %s" % (name, text))
                callee = reloc or re.search(r"<([^>+]+)", rest).group(1)
                calls.add((callee, depth + 8)); deepest = max(deepest, depth + 8)
            elif op in ("ret", "retq", "ud2"):
                break
            elif op.startswith("j"):
                if reloc is not None:                      # a jump to another function
                    calls.add((reloc, depth))
                    if op == "jmp": break
                else:
                    m = re.match(r"([0-9a-f]+) <", rest)
                    if not m:
                        if not re.match(r"(notrack )?\*", rest): sys.exit("%s: %s" % (name, text))
                        tables.add(depth)                  # a jump table: its targets are what is reached in no other way
                        break
                    to = place[int(m.group(1), 16)]
                    if op == "jmp":
                        i = to; continue
                    waiting.append((to, depth, frame))
            i += 1
    return deepest, calls

def main():
    functions = load(sys.argv[1])
    times = dict((a.split("=")[0], int(a.split("=")[1])) for a in sys.argv[2:])
    walked = {n: walk(n, c) for n, c in functions.items()}
    def total(n, path):
        key = n if n in walked else next((k for k in walked if k.startswith(n)), None)
        if key is None: sys.exit("no function " + n)
        own, calls = walked[key]
        if key in path: sys.exit("recursion: " + key)
        most, again = own, 0
        for callee, depth in calls:
            if callee == key:
                again = max(again, depth)
            else:
                most = max(most, depth + total(callee, path + [key]))
        if again:
            if key not in times: sys.exit("recursive: " + key)
            most += again * (times[key] - 1)
        return most
    for n in sorted(functions):
        if re.match(r"uss_", n): print("%s\t%d" % (n, total(n, [])))

main()
