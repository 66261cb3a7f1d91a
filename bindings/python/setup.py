"""Puts the shared library, LICENSE and NOTICE into what is built; pyproject.toml has the rest.

The library is taken from the repository's folder build, where `tools/library && tools/shared` write it, or from the folder that the
environment variable FONTCRUNCH_LIB_DIR names. What is built is for its processor, and for every Python."""

import os
import pathlib
import shutil
import sys

from setuptools import Distribution, setup
from setuptools.command.build_py import build_py

try:
    from setuptools.command.bdist_wheel import bdist_wheel
except ImportError:
    # setuptools before 70.1 leaves it to another package
    from wheel.bdist_wheel import bdist_wheel

TOP = pathlib.Path(__file__).resolve().parents[2]
LIBRARY = pathlib.Path(os.environ.get("FONTCRUNCH_LIB_DIR") or TOP / "build").resolve() / "libfontcrunch.so"


class WithLibrary(build_py):
    def run(self):
        if not LIBRARY.is_file():
            sys.exit(f"there is no {LIBRARY}; `tools/library && tools/shared`, run at the repository's top, writes it to build. If it is "
                     "elsewhere, set FONTCRUNCH_LIB_DIR to its folder.")
        # nothing of an earlier build goes along
        shutil.rmtree(self.build_lib, ignore_errors=True)
        super().run()
        into = pathlib.Path(self.build_lib) / "fontcrunch"
        # a link is followed: what is built needs the library itself
        shutil.copy2(LIBRARY, into / LIBRARY.name)
        for text in ("LICENSE", "NOTICE"):
            shutil.copy2(TOP / text, into / text)


class ForAnyPython(bdist_wheel):
    def get_tag(self):
        return ("py3", "none", super().get_tag()[2])


class OfOneProcessor(Distribution):
    def has_ext_modules(self):
        return True


setup(distclass=OfOneProcessor, cmdclass={"build_py": WithLibrary, "bdist_wheel": ForAnyPython})
