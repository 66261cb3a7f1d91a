"""The library's entries: one table of their signatures, and one way to call them.

The entries ask only that a row which is written overlaps no other, and that pointers are aligned and not null. Arrays of
ctypes are so, empty ones too, and each is apart from all others. So `call` is safe for every row: of what is in
it, and how long it is, nothing is asked.
"""

from __future__ import annotations

import ctypes
import os
import pathlib
import sys
from typing import Any

from ._refusal import Refused

I16, U8, U16, U32, U64 = ctypes.c_int16, ctypes.c_uint8, ctypes.c_uint16, ctypes.c_uint32, ctypes.c_uint64
F64, SIZE = ctypes.c_double, ctypes.c_size_t


def _row(place: type) -> type:
    """A row, given by the type of a place: in C a pointer, and then how many places it has."""
    return ctypes.POINTER(place)


def _report(**fields: type) -> type:
    """What an entry says: the number of the refusal, or 0, and then these."""
    return type("Report", (ctypes.Structure,), {"_fields_": [("number", U32), *fields.items()]})


def _both(report: type) -> type:
    """What is said of two editions, each by a report of its own."""
    return type("Both", (ctypes.Structure,), {"_fields_": [("a", report), ("b", report)]})


_POINTS = (_row(I16), _row(I16), _row(U8))
_DROPS = _row(U32 * 2)
_SETTINGS = (U32, U32, U32)
_CHAIN = (_row(U32), _row(U32), _row(F64), _row(F64))
_SPANS = _row(U32 * 2)
_GLYPH = (_row(U16), *_POINTS, _row(U8))
_RUN = (_row(F64 * 4), _row(F64 * 6), _row(F64 * 3), _row(U32))
_ASSEMBLED = _row(I16 * 3)
_MARKS = _row(SIZE * 3)
_CRUNCHED = _report(points=SIZE, pairs=SIZE, fallen=SIZE)
_CHAINED = _report(pieces=SIZE, pairs=SIZE, score_bits=U64, fallen=SIZE)
_OWN = (_row(F64 * 3), _row(U32), _ASSEMBLED, *_POINTS)

# Each entry of include/fontcrunch.h without `fontcrunch_`: its report, and what it takes in the header's order.
SIGNATURES: dict[str, tuple[type, ...]] = {
    "crunch": (_CRUNCHED, *_POINTS, *_SETTINGS, *_POINTS, *_RUN, _ASSEMBLED),
    "chain": (_CHAINED, *_POINTS, SIZE, *_SETTINGS, *_CHAIN, _SPANS, *_RUN),
    "check": (_report(accepted=U32, fallen=SIZE), *_POINTS, SIZE, *_SETTINGS, *_CHAIN, F64, *_RUN),
    "why": (_report(reasons=U32), *_POINTS, SIZE),
    "clean": (_report(kept=SIZE, dropped=SIZE), *_POINTS, *_POINTS, _DROPS),
    "put_back": (_report(points=SIZE), *_POINTS, _DROPS, *_POINTS),
    "drop_idle": (_report(kept=SIZE, dropped=SIZE), *_POINTS, *_POINTS, _DROPS),
    "put_back_idle": (_report(points=SIZE), *_POINTS, _DROPS, *_POINTS),
    "from_cubics": (_report(points=SIZE), *_POINTS, *_POINTS),
    "explicit": (_report(points=SIZE), *_POINTS, *_POINTS),
    "read_glyph": (_report(contours=SIZE, points=SIZE, instructions=SIZE), _row(U8), *_GLYPH),
    "write_glyph": (_report(bytes=SIZE), *_GLYPH, _row(U8)),
    "crunch_glyph": (_report(bytes=SIZE), _row(U8), *_SETTINGS, _row(U8), *_GLYPH, *_RUN, _ASSEMBLED),
    "read_glif": (_report(contours=SIZE, points=SIZE), _row(U8), _row(U16), *_POINTS, _MARKS),
    "write_glif": (_report(bytes=SIZE), _row(U8), _row(U16), *_POINTS, _row(U8)),
    "crunch_glif": (_report(bytes=SIZE), _row(U8), *_SETTINGS, _row(U8), _row(U16), *_POINTS, _MARKS, *_RUN, _ASSEMBLED),
    "editions": (_both(_CRUNCHED), *_POINTS, U32, U32, U32, U32, *_RUN[:2], *_OWN, *_OWN),
}

LIBRARY = "libfontcrunch.so"

# names the folder that holds the library, where that is not the default
FOLDER_VARIABLE = "FONTCRUNCH_LIB_DIR"


def _folders() -> list[pathlib.Path]:
    """Where the library is looked for: in the folder that is named, or beside this file and in the repository's build."""
    named = os.environ.get(FOLDER_VARIABLE)
    if named:
        return [pathlib.Path(named).resolve()]
    here = pathlib.Path(__file__).resolve().parent
    return [here, here.parents[2] / "build"]


def library_file() -> pathlib.Path:
    """The library's file."""
    folders = _folders()
    for folder in folders:
        if (folder / LIBRARY).is_file():
            return folder / LIBRARY
    raise ImportError(
        f"there is no {LIBRARY} in {' or '.join(map(str, folders))}; `tools/library && tools/shared`, run at the "
        f"repository's top, writes it to build. If it is elsewhere, set {FOLDER_VARIABLE} to its folder."
    )


def _in_c(taken: type) -> tuple[type, ...]:
    return (taken, SIZE) if hasattr(taken, "contents") else (taken,)


def _entry(library: ctypes.CDLL, name: str) -> Any:
    report, *takes = SIGNATURES[name]
    try:
        entry = library[f"fontcrunch_{name}"]
    except AttributeError:
        raise ImportError(f"{library._name} has no fontcrunch_{name}: it is older than this module; write it anew") from None
    entry.restype = report
    entry.argtypes = [word for taken in takes for word in _in_c(taken)]
    return entry


def _entries() -> dict[str, Any]:
    library = ctypes.CDLL(str(library_file()))
    return {name: _entry(library, name) for name in SIGNATURES}


try:
    _ENTRIES = _entries()
except (ImportError, OSError) as error:
    # so sys.argv begins while Python looks for the module that `python3 -m` names: a command says what is wrong in a line
    if sys.argv[:1] != ["-m"]:
        raise
    print(f"fontcrunch: {error}", file=sys.stderr)
    raise SystemExit(2) from None


def told(name: str, *values: Any) -> Any:
    """What an entry says of these rows and numbers. Of a row its pointer and its length are handed over."""
    words: list[Any] = []
    for value in values:
        words.append(value)
        if isinstance(value, ctypes.Array):
            words.append(len(value))
    return _ENTRIES[name](*words)


def call(name: str, *values: Any) -> Any:
    """The same, of an entry that refuses nothing; else Refused."""
    report = told(name, *values)
    if report.number:
        raise Refused(report.number)
    return report
