"""Where the library is found, which build is picked, and that an installed package brings its own."""
import os
import shutil
import subprocess
import sys
import tempfile
import unittest
from pathlib import Path

import balanced

from .builds import BUILDS

PACKAGE = Path(__file__).resolve().parents[1]
REPOSITORY = PACKAGE.parents[1]
SHOW = "import balanced; print(balanced.library_path(), balanced.Plan([2, 11, 15, 10]).encode(1, b'ten bytes.').hex())"
SHARES = balanced.Plan([2, 11, 15, 10]).encode(1, b"ten bytes.").hex()


def run(words, **environment):
    """Runs Python in a folder that is not the repository, with this package or another."""
    environment = {"PYTHONPATH": str(PACKAGE), "PYTHONDONTWRITEBYTECODE": "1", **environment}
    inherited = {name: value for name, value in os.environ.items() if not name.startswith(("BALANCED_", "LD_", "GLIBC_", "PIP_"))}
    return subprocess.run([sys.executable, *words], cwd="/", env={**inherited, **environment}, capture_output=True, text=True)


class Library(unittest.TestCase):
    def setUp(self):
        folder = tempfile.TemporaryDirectory()
        self.addCleanup(folder.cleanup)
        self.folder = Path(folder.name).resolve()

    def loaded(self, **environment):
        """The file that is loaded; its calls work."""
        ran = run(["-c", SHOW], **environment)
        self.assertEqual(ran.returncode, 0, ran.stderr)
        path, shares = ran.stdout.split()
        self.assertEqual(shares, SHARES)
        return path

    def test_repository(self):
        self.assertTrue(Path(self.loaded()).is_relative_to(REPOSITORY / "target" / "lib"))

    def test_each_build(self):
        """A folder with one build gives that build."""
        for path in BUILDS:
            shutil.copy(path, self.folder)
            self.assertEqual(self.loaded(BALANCED_LIB_DIR=str(self.folder)), str(self.folder / "libbalanced.so.1"))

    def test_relative_folder(self):
        shutil.copy(next(iter(BUILDS)), self.folder)
        relative = os.path.relpath(self.folder, "/")
        self.assertEqual(self.loaded(BALANCED_LIB_DIR=relative), str(self.folder / "libbalanced.so.1"))

    def test_narrower_processor(self):
        """glibc is told that the processor has no AVX-512, then no AVX2 either: the build that is picked gets narrower."""
        lib = REPOSITORY / "target" / "lib"
        picked = [self.loaded(GLIBC_TUNABLES=f"glibc.cpu.hwcaps=-{feature}") for feature in ("AVX512F", "AVX2")]
        self.assertEqual(picked[1], str(lib / "libbalanced.so.1"))
        self.assertEqual(picked[0], [path for path in BUILDS if "v4" not in path][0])

    def test_none(self):
        for folder in (self.folder, self.folder / "none"):
            ran = run(["-c", SHOW], BALANCED_LIB_DIR=str(folder))
            self.assertEqual(ran.returncode, 1)
            self.assertIn(f"ImportError: there is no libbalanced.so.1 in {folder}: run `make build`", ran.stderr)

    def test_installed(self):
        """`pip install .` makes a wheel, with nothing fetched; what it holds needs no repository."""
        if run(["-m", "pip", "--version"]).returncode:
            self.skipTest("there is no pip")
        words = ["-m", "pip", "install", "--quiet", "--no-index", "--disable-pip-version-check", "--no-cache-dir", "--target"]
        ran = run([*words, str(self.folder), str(PACKAGE)])
        self.assertEqual(ran.returncode, 0, ran.stderr)
        path = Path(self.loaded(PYTHONPATH=str(self.folder)))
        self.assertTrue(path.is_relative_to(self.folder / "balanced" / "lib"), path)
        self.assertEqual(path.parent.name == "lib", len(BUILDS) == 1)
        self.assertTrue((self.folder / "balanced" / "py.typed").is_file())
