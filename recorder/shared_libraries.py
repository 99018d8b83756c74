"""The shared libraries of a program, and whether one has a malloc of its own."""
import mmap
import os
import re
import struct
import subprocess

WORD = 8
PT_LOAD, PT_DYNAMIC, PT_INTERP = 1, 2, 3
DT_HASH, DT_STRTAB, DT_SYMTAB, DT_GNU_HASH = 4, 5, 6, 0x6FFFFEF5
SYMBOL_BYTES = 24
# The C library, and the recorder's own, which programs with hooks are linked with.
KNOWN = re.compile(r"(libc|ld-linux-x86-64)\.so\.\d+|(libc|ld)-\d.*\.so|librecorder\.so")


class Image:
    """A 64-bit ELF file, read by the addresses that it has in memory."""

    def __init__(self, path: str):
        with open(path, "rb") as file:
            self.bytes = mmap.mmap(file.fileno(), 0, access=mmap.ACCESS_READ)
        (start,) = struct.unpack_from("<Q", self.bytes, 32)
        size, count = struct.unpack_from("<HH", self.bytes, 54)
        self.parts = [self.part(start + size * number) for number in range(count)]
        self.dynamic = dict(self.dynamic_entries())

    def part(self, at: int) -> tuple[int, int, int, int]:
        """Its type, its place in the file, its address and its size in the file."""
        kind, _, offset, address, _, size = struct.unpack_from("<IIQQQQ", self.bytes, at)
        return kind, offset, address, size

    def dynamic_entries(self):
        for kind, offset, _, size in self.parts:
            if kind == PT_DYNAMIC:
                yield from struct.iter_unpack("<QQ", self.bytes[offset : offset + size - size % (2 * WORD)])

    def offset(self, address: int) -> int:
        for kind, offset, begin, size in self.parts:
            if kind == PT_LOAD and begin <= address < begin + size:
                return offset + address - begin
        raise ValueError(f"no part of the file has the address {address:#x}")

    def numbers(self, form: str, address: int) -> tuple:
        return struct.unpack_from(form, self.bytes, self.offset(address))

    def interpreter(self) -> str:
        for kind, offset, _, size in self.parts:
            if kind == PT_INTERP:
                return self.bytes[offset : offset + size].rstrip(b"\0").decode()
        return ""

    def defines(self, name: bytes) -> bool:
        """Whether others find this function in it."""
        candidates = self.in_gnu_table(name) if DT_GNU_HASH in self.dynamic else self.in_old_table()
        return any(self.is_definition(symbol, name) for symbol in candidates)

    def is_definition(self, symbol: int, name: bytes) -> bool:
        at = self.dynamic[DT_SYMTAB] + symbol * SYMBOL_BYTES
        text, _, _, section = self.numbers("<IBBH", at)
        begin = self.offset(self.dynamic[DT_STRTAB]) + text
        return bool(section) and self.bytes[begin : begin + len(name) + 1] == name + b"\0"

    def in_gnu_table(self, name: bytes):
        """The symbols of this name's chain."""
        value = 5381
        for letter in name:
            value = (value * 33 + letter) & 0xFFFFFFFF
        table = self.dynamic[DT_GNU_HASH]
        buckets, first, filters = self.numbers("<III", table)
        chains = table + 16 + filters * WORD
        (symbol,) = self.numbers("<I", chains + value % buckets * 4)
        while symbol >= first > 0:
            (hashed,) = self.numbers("<I", chains + (buckets + symbol - first) * 4)
            if hashed | 1 == value | 1:
                yield symbol
            if hashed & 1:
                return
            symbol += 1

    def in_old_table(self):
        """All symbols."""
        if DT_HASH in self.dynamic:
            yield from range(self.numbers("<II", self.dynamic[DT_HASH])[1])


def libraries_of(path: str) -> list[str]:
    """The paths of all that is loaded with a program, by name and by LD_PRELOAD."""
    interpreter = Image(path).interpreter()
    ran = subprocess.run([interpreter, "--list", path], capture_output=True, text=True, errors="replace")
    found = re.findall(r"^\t(?:.* => )?(/.*) \(0x[0-9a-f]+\)$", ran.stdout, re.M)
    return [path for path in found if os.path.exists(path)]


def with_malloc(paths: list[str]) -> str:
    """The first of these libraries, not a known one, that has a malloc; '' where none has."""
    for path in paths:
        if KNOWN.fullmatch(os.path.basename(path)):
            continue
        try:
            if Image(path).defines(b"malloc"):
                return path
        except (OSError, ValueError, struct.error):
            pass  # (the loader tells of files that are no libraries)
    return ""
