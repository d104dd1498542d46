"""Reads objects and programs (ELF, little-endian, 32 and 64 bits) and archives of them: sections and symbols."""
import struct
from collections import namedtuple

from refuse import Refused

Section = namedtuple("Section", "name type flags address size link offset")
Symbol = namedtuple("Symbol", "name value size section kind")  # kind: "local", "global" or "undefined"
ALLOCATED, WRITABLE, NO_BITS = 2, 1, 8


class Elf:
    def __init__(self, data, name):
        self.name = name
        if data[:4] != b"\x7fELF" or data[5] != 1:
            raise Refused(f"{name} is no little-endian ELF file")
        wide = data[4] == 2
        at, count, names = (struct.unpack_from("<Q", data, 40)[0], *struct.unpack_from("<HH", data, 60)) if wide else (
            struct.unpack_from("<I", data, 32)[0], *struct.unpack_from("<HH", data, 48))
        form, size = ("<IIQQQQII", 64) if wide else ("<IIIIIIII", 40)
        rows = [struct.unpack_from(form, data, at + size * k) for k in range(count)]
        text = lambda base, n: data[base + n:data.index(b"\0", base + n)].decode()
        self.data = data
        self.sections = [Section(text(rows[names][4], r[0]), r[1], r[2], r[3], r[5], r[6], r[4]) for r in rows]
        self.symbols = []
        for table in self.sections:
            if table.type != 2:
                continue
            strings = self.sections[table.link].offset
            form, size = ("<IBBHQQ", 24) if wide else ("<IIIBBH", 16)
            for k in range(1, table.size // size):
                row = struct.unpack_from(form, data, table.offset + size * k)
                n, info, where, value, length = [row[k] for k in ((0, 1, 3, 4, 5) if wide else (0, 3, 5, 1, 2))]
                kind = "undefined" if where == 0 else "global" if info >> 4 else "local"
                self.symbols.append(Symbol(text(strings, n), value, length, where, kind))

    def bytes_of(self, wanted):
        """The bytes of all sections that a device keeps and that `wanted` takes: section -> bool."""
        return sum(s.size for s in self.sections if s.flags & ALLOCATED and wanted(s))

    def flash(self):
        """Code and constants. Tables for unwinding stay out: no call of the library throws."""
        return self.bytes_of(lambda s: s.type != NO_BITS and not s.name.startswith((".ARM.exidx", ".ARM.extab", ".eh_frame")))

    def written(self):
        """Data that a device keeps in RAM."""
        return self.bytes_of(lambda s: s.flags & WRITABLE)

    def names(self, kind):
        return sorted({s.name for s in self.symbols if s.kind == kind and s.name})

    def symbol(self, name):
        return next(s for s in self.symbols if s.name == name and s.kind != "undefined")


def read(path):
    with open(path, "rb") as file:
        return Elf(file.read(), path)


def members(path):
    """The objects of an archive: name -> Elf."""
    with open(path, "rb") as file:
        data = file.read()
    if data[:8] != b"!<arch>\n":
        raise Refused(f"{path} is no archive")
    at, found, long_names = 8, {}, b""
    while at < len(data):
        name, size = data[at:at + 16].decode().rstrip(), int(data[at + 48:at + 58])
        body = data[at + 60:at + 60 + size]
        if name == "//":
            long_names = body
        elif name != "/" and not name.startswith("/SYM64"):
            if name.startswith("/"):
                start = int(name[1:])
                name = long_names[start:long_names.index(b"/", start)].decode()
            found[name.rstrip("/")] = Elf(body, name)
        at += 60 + size + size % 2
    return found
