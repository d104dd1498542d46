"""The proved library as one LLVM module: has it proved by rt, keeps the module that rt's clang is given, and reads it.

A copy of rt is run, in a folder of links to the kit in which clang is a script: it keeps a copy of the module and goes on with the
kit's clang. So the archive for x86-64 and the module are of one run."""
import hashlib
import os
import re
import shutil
import subprocess
from collections import namedtuple

from refuse import Refused

LIBRARY = "uss_c"
CRATE = "uss_c_c"  # exports the functions of the library for C

Function = namedtuple("Function", "name inner returns parameters head body")
# inner: not called from C. returns: the IR type; parameters: (IR type, name). body: its lines
Module = namedtuple("Module", "functions tail")

# ---- proving


def needed(root):
    """The crates that the library stands on, straight or through others, and itself: what crates.txt says."""
    depends = {}
    with open(os.path.join(root, "crates.txt")) as file:
        for line in file:
            name, colon, rest = line.split("#")[0].partition(":")
            if colon:
                depends[name.split()[0]] = rest.split()
    if CRATE not in depends:
        raise Refused(f"crates.txt does not list {CRATE}")
    found, left = [], [CRATE]
    while left:
        name = left.pop()
        if name in depends and name not in found:
            found.append(name)
            left += depends[name]
    return found


def stamp(root, kit):
    """One number for all that the module is made of."""
    hash_ = hashlib.sha256()
    files = [os.path.join(kit.home, "KIT-ID"), os.path.join(root, "crates.txt"), os.path.abspath(__file__)]
    for name in needed(root):
        for part in ("src", "specs", "proofs"):
            for folder, _, names in os.walk(os.path.join(root, "crates", name, part)):
                files += [os.path.join(folder, n) for n in names]
    for path in sorted(files):
        with open(path, "rb") as file:
            hash_.update(f"{os.path.relpath(path, root)} {hashlib.sha256(file.read()).hexdigest()}\n".encode())
    return hash_.hexdigest()


def linked_kit(kit, folder, kept):
    """A folder of links to the kit, whose clang keeps the module that it is given."""
    def links(source, to, but):
        os.makedirs(to)
        for name in os.listdir(source):
            if name not in but:
                os.symlink(os.path.realpath(os.path.join(source, name)), os.path.join(to, name))
    links(kit.home, folder, ("bin", "toolchain"))
    links(os.path.join(kit.home, "bin"), os.path.join(folder, "bin"), ("rt", "rtlib.py"))
    for name in ("rt", "rtlib.py"):  # rt looks for its kit beside itself
        shutil.copy(os.path.join(kit.home, "bin", name), os.path.join(folder, "bin", name))
    tools = os.path.join(folder, "toolchain")
    links(os.path.join(kit.home, "toolchain"), tools, ("bin",))
    links(os.path.join(kit.home, "toolchain", "bin"), os.path.join(tools, "bin"), ("clang",))
    script = os.path.join(tools, "bin", "clang")
    with open(script, "w") as file:
        file.write(f"""#!/bin/sh
for word in "$@"; do
    case $word in *.bc)
        [ ! -e '{kept}' ] || {{ echo 'a second module' >&2; exit 1; }}
        cp "$word" '{kept}' || exit 1 ;;
    esac
done
exec '{kit.clang}' "$@"
""")
    os.chmod(script, 0o755)


def prove(root, kit, folder):
    """Leaves module.bc, module.ll and libuss_c.a (x86-64) in the folder, of sources that are proved."""
    made = os.path.join(folder, "stamp")
    now = stamp(root, kit)
    if os.path.exists(made):
        with open(made) as file:
            if file.read() == now:
                return False
    shutil.rmtree(folder, ignore_errors=True)
    os.makedirs(folder)
    kept, links = os.path.join(folder, "module.bc"), os.path.join(folder, "kit")
    linked_kit(kit, links, kept)
    print(f"proving the library (rt lib in crates/{CRATE}): some minutes where nothing is proved yet", flush=True)
    done = subprocess.run([os.path.join(links, "bin", "rt"), "lib", "--cpu", "x86-64"], cwd=os.path.join(root, "crates", CRATE),
                          stdout=subprocess.PIPE, stderr=subprocess.STDOUT, text=True)
    shutil.rmtree(links)
    if done.returncode != 0 or not re.search(r"^logic=proved ", done.stdout, re.M):
        print(done.stdout, end="")
        raise Refused(f"rt lib in crates/{CRATE}: not proved")
    if not os.path.exists(kept):
        raise Refused(f"rt lib in crates/{CRATE}: its clang was given no module")
    shutil.copy(os.path.join(root, "crates", CRATE, "out", f"lib{CRATE}.a"), os.path.join(folder, f"lib{LIBRARY}.a"))
    kit.must("clang", ["--no-default-config", "-x", "ir", "-O0", "-Xclang", "-disable-llvm-passes", "-S", "-emit-llvm",
                       "module.bc", "-o", "module.ll"], folder)
    if now != stamp(root, kit):
        raise Refused("the sources changed while they were proved")
    with open(made, "w") as file:
        file.write(now)
    return True


# ---- reading

# All words that may stand in a function, but for names and numbers: none of them means one thing on x86-64 and another elsewhere. A
# double is IEEE 754's binary64 on each target, rounded to the nearest, by the chip or by its compiler's library.
OPCODES = set("""add alloca and ashr br call extractvalue fdiv getelementptr icmp load lshr mul or phi ret sdiv select sext shl sitofp srem store
    sub switch trunc udiv unreachable urem xor zext""".split())
WORDS = OPCODES | set("""align double eq exact false i1 i16 i32 i64 i8 inbounds label ne noundef nsw nuw ptr range sge sgt sle slt to
    true uge ugt ule ult void x zeroext""".split())
NUMBER = r"-?\b\d+(?:\.\d+e[+-]\d+)?\b"
MEMMOVE = "llvm.memmove.p0.p0.i64"
MEMSET = "llvm.memset.p0.i64"
FENCE = "llvm.arithmetic.fence.f64"  # keeps a double from being reckoned in another order, which no flag here allows
HEAD = re.compile(r'define (internal )?(?:noundef |zeroext )*(.+?) @("[^"]+"|\w+)\((.*)\) (?:alwaysinline )?#0 \{')
# the attributes of a function that is compiled into its callers: those of #0 and one word
INLINED = re.compile(r'attributes #(\d+) = \{ alwaysinline (nounwind "probe-stack"="inline-asm" "stack-probe-size"="\d+" "target-cpu"="x86-64") \}')
TAIL = [  # all that may stand outside functions
    r"; ModuleID = .*",
    r'source_filename = "rattle"',
    r'target datalayout = "e-[^"]*"',
    r'target triple = "x86_64-unknown-linux-gnu"',
    r"; Function Attrs: .*",
    r'@static\.\d+ = private unnamed_addr constant \[\d+ x i8\] (?:c"[^"]*"|zeroinitializer), align 1',
    r"declare void @llvm\.memmove\.p0\.p0\.i64\(ptr writeonly captures\(none\), ptr readonly captures\(none\), i64, i1 immarg\) #[12]",
    r"declare void @llvm\.memset\.p0\.i64\(ptr writeonly captures\(none\), i8, i64, i1 immarg\) #[12]",
    r"declare double @llvm\.arithmetic\.fence\.f64\(double\) #3",
    r'attributes #0 = \{ nounwind "probe-stack"="inline-asm" "stack-probe-size"="\d+" "target-cpu"="x86-64" \}',
    r"attributes #[12] = \{ nocallback nofree nounwind willreturn memory\(argmem: (?:readwrite|write)\) \}",
    r"attributes #3 = \{ nocallback nocreateundeforpoison nofree nosync nounwind speculatable willreturn memory\(none\) \}",
    r"!llvm\.ident = !\{!0\}",
    r'!0 = !\{!"rattle logic=[0-9a-f]+"\}',
    r"![1-9] = !\{(i8 0, i8 \d+)?\}",
    r"",
]


def parameters_of(text, name):
    """("ptr", "%a0") for each parameter of a definition."""
    found = []
    for part in re.split(r", (?![^(]*\))", text) if text else []:
        match = re.fullmatch(r"(\w+)((?: noundef| zeroext| byval\(\[\d+ x i8\]\)| sret\(\[\d+ x i8\]\)| align \d+)*) (%a\d+)", part)
        if match is None:
            raise Refused(f"the module's {name} has a parameter that is not understood: {part}")
        found.append((match[1], match[3]))
    return found


def read_body(name, lines):
    """Refuses an instruction that is not known to mean the same on every target."""
    for line in lines:
        text = re.sub(r"\s*;.*$", "", line)
        if text == "" or re.fullmatch(r"[\w.]+:", text):
            continue
        called = re.findall(r'@("[^"]+"|[\w.]+)', text)
        bare = re.sub(rf'@("[^"]+"|[\w.]+)|%[\w.]+|!\w+|{NUMBER}', " ", text)
        # two whole numbers at once stand at the same places on every target
        unknown = set(re.findall(r"[^\s(),=\[\]]+", re.sub(r"\{ i(8|16|32|64), i(8|16|32|64) \}", " ", bare))) - WORDS
        if unknown or len(called) > 1 or not set(re.findall(r"!([a-z]\w*)", text)) <= {"noundef", "range"}:
            raise Refused(f"the module's {name} has an instruction that is not understood: {text.strip()}")
        if called == [MEMMOVE] and not re.search(r"i64 \d+, i1 false\)$", text):
            raise Refused(f"the module's {name} moves bytes in a way that is not understood: {text.strip()}")
        if called == [MEMSET] and not re.search(r"i8 0, i64 \d+, i1 false\)$", text):
            raise Refused(f"the module's {name} sets bytes in a way that is not understood: {text.strip()}")


def by_word(lines):
    """The lines with `alwaysinline` as a word of the functions that have it, and the groups of attributes numbered without that one."""
    found = next(filter(None, map(INLINED.fullmatch, lines)), None)
    if found is None or f"attributes #0 = {{ {found[2]} }}" not in lines:
        return lines
    group = int(found[1])

    def renumbered(match):
        number = int(match[1])
        return "alwaysinline #0" if number == group else f"#{number - (number > group)}"

    kept = [line for line in lines if line != found[0]]
    return [re.sub(r"#(\d+)(?=$| \{| =)", renumbered, line) if line.startswith(("define ", "declare ", "attributes ")) else line for line in kept]


def read(path):
    functions, tail = {}, []
    with open(path) as file:
        lines = by_word(file.read().split("\n"))
    at = 0
    while at < len(lines):
        line = lines[at]
        match = HEAD.fullmatch(line)
        if match is None:
            if not any(re.fullmatch(known, line) for known in TAIL):
                raise Refused(f"the module has a line that is not understood: {line}")
            tail.append(line)
            at += 1
            continue
        end = lines.index("}", at)
        name, inner = match[3].strip('"'), match[1] is not None
        body = lines[at + 1:end]
        if inner:
            read_body(name, body)
        functions[name] = Function(name, inner, match[2], parameters_of(match[4], name), line, body)
        at = end + 1
    inner = {name for name, f in functions.items() if f.inner}
    constants = {line[1:].split(" ")[0] for line in tail if line.startswith("@")}
    for f in functions.values():
        for called in re.findall(r'@("[^"]+"|[\w.]+)', "\n".join(f.body)):
            if called.strip('"') not in inner | constants | {MEMMOVE, MEMSET, FENCE}:
                raise Refused(f"the module's {f.name} calls {called}, which is not in it")
    return Module(functions, tail)
