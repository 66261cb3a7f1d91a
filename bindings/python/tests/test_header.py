"""The table of signatures, the rooms and the numbers are those of include/fontcrunch.h; the examples in the module's text hold."""

import ctypes
import doctest
import os
import re
import subprocess
import sys
import tempfile
import types
import unittest

import fontcrunch
from fontcrunch import _entries

from .common import TOP, Case

HEADER = re.sub(r"/\*.*?\*/", "", (TOP / "include/fontcrunch.h").read_text(), flags=re.S)

IN_C = {
    "int16_t": ctypes.c_int16,
    "uint8_t": ctypes.c_uint8,
    "uint16_t": ctypes.c_uint16,
    "uint32_t": ctypes.c_uint32,
    "uint64_t": ctypes.c_uint64,
    "size_t": ctypes.c_size_t,
    "double": ctypes.c_double,
}


def in_c(parameter):
    """A parameter's type: `const T *name`, `T (*name)[n]` or `T name`."""
    kind = re.fullmatch(r"(?:const )?(\w+) (?:(\*)\w+|\(\*\w+\)\[(\d+)\]|\w+)", " ".join(parameter.split()))
    place, pointer, size = IN_C[kind[1]], kind[2], kind[3]
    if size:
        return ctypes.POINTER(place * int(size))
    return ctypes.POINTER(place) if pointer else place


def constant(name):
    return int(re.search(rf"#define FONTCRUNCH_{name} (\d+)", HEADER)[1])


class Header(Case):
    def test_signatures(self):
        declared = re.findall(r"^(fontcrunch_\w+_report) fontcrunch_(\w+)\((.*?)\);", HEADER, flags=re.M | re.S)
        self.assertEqual([name for _, name, _ in declared if name not in _entries.SIGNATURES], [])
        self.assertEqual(len(declared), len(_entries.SIGNATURES))
        for report, name, parameters in declared:
            entry = _entries._ENTRIES[name]
            self.assertEqual(report, f"fontcrunch_{name}_report")
            self.assertEqual(entry.argtypes, [in_c(word) for word in parameters.split(",")], name)
            self.assert_fields(report, entry.restype)

    def test_names_have_the_prefix(self):
        """What the headers bring into a program: types, functions, enumerators and macros."""
        for header in ("fontcrunch.h", "fontcrunch_easy.h"):
            text = re.sub(r"/\*.*?\*/", "", (TOP / "include" / header).read_text(), flags=re.S)
            patterns = (
                r"^typedef (?:struct )?(\w+)",
                r"^(?:typedef \w+|}) (\w+);",
                r"^(?:static inline )?(?:const )?\w+ \*?(\w+)\(",
                r"^    ([A-Z]\w+) = \d+,?$",
                r"^#define (\w+)",
            )
            names = [name for pattern in patterns for name in re.findall(pattern, text, re.M)]
            self.assertGreater(len(names), 20, header)
            self.assertEqual([name for name in names if not name.lower().startswith("fontcrunch_")], [], header)

    def assert_fields(self, report, kind):
        """A report's fields, each a number or a report."""
        same = re.search(rf"typedef (\w+) {report};", HEADER)
        report = same[1] if same else report
        fields = re.search(rf"typedef struct {report} \{{(.*?)\}} {report};", HEADER, re.S)[1]
        pairs = [line.split() for line in fields.replace(";", "").strip().splitlines()]
        self.assertEqual([field for field, _ in kind._fields_], [field for _, field in pairs], report)
        for (_, mine), (declared, _) in zip(kind._fields_, pairs):
            if declared in IN_C:
                self.assertEqual(mine, IN_C[declared], report)
            else:
                self.assert_fields(declared, mine)

    def test_rooms_and_penalties(self):
        for name, value in {
            "POINTS_IN": fontcrunch.MOST_POINTS_IN,
            "SAMPLES": fontcrunch.SAMPLE_ROOM,
            "BREAKS": fontcrunch.BREAK_ROOM,
            "ANSWERS": fontcrunch.ANSWER_ROOM,
            "PIECES": fontcrunch.MOST_PIECES,
            "POINTS_OUT": fontcrunch.USUAL_POINT_ROOM,
            "DEFAULT_PENALTY": fontcrunch.DEFAULT_PENALTY,
            "CRATE_PENALTY": fontcrunch.CRATE_PENALTY,
        }.items():
            self.assertEqual(value, constant(name), name)


class Module(Case):
    def test_examples(self):
        result = doctest.testmod(fontcrunch)
        self.assertGreater(result.attempted, 4)
        self.assertEqual(result.failed, 0)

    def test_all_names(self):
        # modules of the package, as pens, are imported by their own names
        public = {name for name, held in vars(fontcrunch).items() if not (name.startswith("_") or isinstance(held, types.ModuleType))}
        self.assertEqual(set(fontcrunch.__all__), public)
        for name in fontcrunch.__all__:
            self.assertTrue(getattr(fontcrunch, name).__doc__, name)

    def test_a_missing_library_is_told(self):
        with tempfile.TemporaryDirectory() as empty:
            around = {**os.environ, _entries.FOLDER_VARIABLE: empty, "PYTHONPATH": str(TOP / "bindings/python")}
            done = subprocess.run([sys.executable, "-c", "import fontcrunch"], env=around, capture_output=True, text=True)
        self.assertNotEqual(done.returncode, 0)
        self.assertIn(f"there is no libfontcrunch.so in {os.path.realpath(empty)}; `tools/library && tools/shared`", done.stderr)


if __name__ == "__main__":
    unittest.main()
