"""The wheel: the module with the shared library in it, for any Python on its processor. And the version, which is one."""

import os
import pathlib
import re
import shutil
import subprocess
import sys
import tempfile
import unittest
import zipfile

import fontcrunch
from fontcrunch import _entries

from .common import TOP, Case, needs


# asked of a process of its own, since setuptools changes the one that imports it
NEEDED = """import setuptools
try:
    import setuptools.command.bdist_wheel
except ImportError:
    import wheel.bdist_wheel
import pip"""
CAN_BUILD = subprocess.run([sys.executable, "-c", NEEDED], capture_output=True).returncode == 0


@needs(CAN_BUILD, "pip, setuptools or wheel")
class Wheel(Case):
    def built(self, folder):
        """The wheel, built of a copy, so that nothing is left in the tree."""
        copy = folder / "bindings/python"
        shutil.copytree(TOP / "bindings/python", copy, ignore=shutil.ignore_patterns("__pycache__", "build", "*.egg-info", "tests"))
        for name in ("LICENSE", "NOTICE"):
            shutil.copy(TOP / name, folder / name)
        around = {**os.environ, _entries.FOLDER_VARIABLE: str(_entries.library_file().parent), "PIP_DISABLE_PIP_VERSION_CHECK": "1"}
        around.pop("PYTHONPATH", None)
        words = [sys.executable, "-m", "pip", "wheel", "--quiet", "--no-deps", "--no-index", "--no-build-isolation", "-w", folder, copy]
        done = subprocess.run(words, env=around, capture_output=True, text=True)
        self.assertEqual(done.returncode, 0, done.stderr)
        (found,) = folder.glob("*.whl")
        return found

    def test_it_runs_by_itself(self):
        with tempfile.TemporaryDirectory() as name:
            folder = pathlib.Path(name)
            wheel = self.built(folder)
            self.assertRegex(wheel.name, rf"^fontcrunch-{re.escape(fontcrunch.__version__)}-py3-none-linux_\w+\.whl$")
            with zipfile.ZipFile(wheel) as held:
                names = held.namelist()
                held.extractall(folder / "site")
            for needed in ("libfontcrunch.so", "LICENSE", "NOTICE", "py.typed", "pens.py", "__main__.py"):
                self.assertIn(f"fontcrunch/{needed}", names)
            self.assertEqual([name for name in names if "test" in name], [])
            around = {**os.environ, "PYTHONPATH": str(folder / "site")}
            around.pop(_entries.FOLDER_VARIABLE, None)
            code = "import fontcrunch as f; print(f._entries.library_file(), f.crunch([(0, 0, 1), (100, 0, 1), (0, 100, 1)]).points[0].y)"
            done = subprocess.run([sys.executable, "-c", code], env=around, cwd=folder, capture_output=True, text=True)
            self.assertEqual((done.stdout, done.stderr), (f"{folder.resolve()}/site/fontcrunch/libfontcrunch.so 100\n", ""))


class Version(Case):
    """include/fontcrunch.h has the version. Every other place is held to it."""

    def setUp(self):
        self.header = (TOP / "include/fontcrunch.h").read_text()
        self.version = re.search(r'^#define FONTCRUNCH_VERSION "(\d+\.\d+\.\d+)"$', self.header, re.M)[1]

    def test_in_parts(self):
        parts = [re.search(rf"^#define FONTCRUNCH_VERSION_{part} (\d+)$", self.header, re.M)[1] for part in ("MAJOR", "MINOR", "PATCH")]
        self.assertEqual(".".join(parts), self.version)

    def test_of_python(self):
        self.assertEqual(fontcrunch.__version__, self.version)
        self.assertIn('dynamic = ["version"]', (TOP / "bindings/python/pyproject.toml").read_text())

    def test_of_rust(self):
        for name in ("Cargo.toml", "Cargo.lock"):
            text = (TOP / "bindings/rust" / name).read_text()
            self.assertEqual(re.search(r'name = "fontcrunch"\nversion = "([^"]*)"', text)[1], self.version, name)

    def test_of_the_shared_library(self):
        name = f"libfontcrunch.so.{self.version.split('.')[0]}"
        self.assertTrue(f"\0{name}\0".encode() in _entries.library_file().read_bytes(), f"the shared library is not named {name}")

    def test_of_the_pages(self):
        for name, pattern in (("README.md", r"one version, (\S+):"), ("bindings/python/README.md", r"fontcrunch-([\d.]+)-py3")):
            self.assertEqual(re.search(pattern, (TOP / name).read_text())[1], self.version, name)

    def test_of_the_changes(self):
        self.assertEqual(re.search(r"^## (\d\S*)$", (TOP / "CHANGELOG.md").read_text(), re.M)[1], self.version)


if __name__ == "__main__":
    unittest.main()
