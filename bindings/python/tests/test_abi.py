"""What programs that are linked with the library rely on, as include/fontcrunch.abi lists it.

A line is an entry's name, its report's size and fields, and what it takes, in order; a row is a pointer and a length. A new line
raises the minor version, one that changes or goes the major version. The list is written anew by
python3 -m tests.test_abi > abi && mv abi ../../include/fontcrunch.abi, in bindings/python."""

import ctypes
import re
import shutil
import subprocess
import unittest

from fontcrunch import _entries

from .common import TOP, Case

LISTED = (TOP / "include/fontcrunch.abi").read_text()

NAMES = {
    ctypes.c_int16: "i16",
    ctypes.c_uint8: "u8",
    ctypes.c_uint16: "u16",
    ctypes.c_uint32: "u32",
    ctypes.c_uint64: "u64",
    ctypes.c_size_t: "u64",
    ctypes.c_double: "f64",
}


def named(kind):
    if kind in NAMES:
        return NAMES[kind]
    if hasattr(kind, "contents"):
        return f"*{named(kind._type_)}"
    if issubclass(kind, ctypes.Array):
        return f"{named(kind._type_)}[{kind._length_}]"
    fields = (f"{field}@{getattr(kind, field).offset}:{named(held)}" for field, held in kind._fields_)
    return f"{ctypes.sizeof(kind)}{{{' '.join(fields)}}}"


def listed():
    """The list of the module's table, which tests/test_header.py holds to the header."""
    entries = sorted(_entries._ENTRIES.items())
    return "".join(f"fontcrunch_{name} {named(e.restype)} ({' '.join(map(named, e.argtypes))})\n" for name, e in entries)


def symbols(*words):
    said = subprocess.run(["nm", "--format=posix", *words], check=True, capture_output=True, text=True).stdout
    return {line.split()[0] for line in said.splitlines() if len(line.split()) > 1}


class Abi(Case):
    def test_signatures(self):
        self.assertEqual(listed().splitlines(), LISTED.splitlines())

    @unittest.skipUnless(shutil.which("nm"), "nm is missing")
    def test_symbols(self):
        names = set(re.findall(r"^\w+", LISTED, re.M))
        folder = _entries.library_file().parent
        self.assertEqual(symbols("--dynamic", "--defined-only", folder / _entries.LIBRARY), names)
        archive = TOP / "build/libfontcrunch.a"
        self.assertEqual(symbols("--defined-only", "--extern-only", archive), names)
        # the C library has these; -lm is not needed
        self.assertLessEqual(symbols("--undefined-only", archive), {"memcpy", "memset", "memmove", "memcmp"})


if __name__ == "__main__":
    print(listed(), end="")
