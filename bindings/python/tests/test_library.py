"""Where the library is looked for, what a wrong or missing one raises, and the package as it is installed."""

import ast
import glob
import importlib.util
import os
import shutil
import subprocess
import sys
import tempfile
import unittest
from importlib import metadata

from common import PACKAGE

from zibrotka import calls

COUNT = "import zibrotka; print(zibrotka.Sheet.from_edges(1, [], [], 0).count_states())"
COMPILER = shutil.which("cc") or shutil.which("gcc") or shutil.which("clang")


def library():
    """The file of the library that this interpreter has loaded, also where the system found it."""
    name = calls._LIBRARY._name
    if os.path.isfile(name):
        return name
    with open("/proc/self/maps", encoding="utf-8") as maps:
        return next(line.split(maxsplit=5)[5].rstrip("\n") for line in maps if "libzibrotka" in line)


class Found(unittest.TestCase):
    def setUp(self):
        folder = tempfile.TemporaryDirectory()
        self.addCleanup(folder.cleanup)
        self.folder = folder.name

    def package(self, *parts):
        """A copy of the package in a folder of its own, without a library."""
        place = os.path.join(self.folder, *parts)
        shutil.copytree(os.path.join(PACKAGE, "zibrotka"), os.path.join(place, "zibrotka"), ignore=shutil.ignore_patterns("*.so", "__pycache__"))
        return place

    def put(self, *parts):
        place = os.path.join(self.folder, *parts)
        os.makedirs(os.path.dirname(place), exist_ok=True)
        shutil.copy(library(), place)
        return place

    def run_in(self, place, code=COUNT, **environment):
        kept = {name: value for name, value in os.environ.items() if name not in ("ZIBROTKA_LIBRARY", "LD_LIBRARY_PATH", "PYTHONPATH")}
        command = [sys.executable, "-B", "-c", f"import sys; sys.path.insert(0, {place!r}); {code}"]
        return subprocess.run(command, capture_output=True, text=True, cwd=self.folder, env={**kept, **environment})

    def works(self, place, **environment):
        done = self.run_in(place, **environment)
        self.assertEqual((done.stdout.split()[:1], done.stderr), (["1"], ""))

    def fails(self, place, *texts, **environment):
        done = self.run_in(place, **environment)
        self.assertEqual(done.returncode, 1)
        last = done.stderr.rstrip("\n").split("\n")[-1]
        self.assertTrue(last.startswith("ImportError: "), done.stderr)
        for text in texts:
            self.assertIn(text, last)

    def test_named_and_of_the_system(self):
        place = self.package("apart")
        self.fails(
            place, "there is no libzibrotka.so", os.path.join(place, "zibrotka", "libzibrotka.so"), "libzibrotka.so.1", "ZIBROTKA_LIBRARY"
        )
        self.works(place, ZIBROTKA_LIBRARY=self.put("elsewhere", "any.so"))
        self.works(place, ZIBROTKA_LIBRARY=os.path.join("elsewhere", "any.so"))
        self.put("system", "libzibrotka.so.1")
        self.works(place, LD_LIBRARY_PATH=os.path.join(self.folder, "system"))

    def test_in_an_archive(self):
        """Beside other folders a lib is somebody else's."""
        place, apart = self.package("bindings", "python"), self.package("other", "python")
        self.fails(place, os.path.join(self.folder, "lib", "libzibrotka.so"))
        self.put("lib", "libzibrotka.so")
        self.works(place)
        self.fails(apart, "there is no libzibrotka.so")

    def test_beside_and_in_the_repository(self):
        place = self.package("repository", "bindings", "python")
        self.fails(place, os.path.join(self.folder, "repository", "target", "shared", "libzibrotka.so"))
        beside = self.put("repository", "bindings", "python", "zibrotka", "libzibrotka.so")
        self.works(place)
        os.remove(beside)
        self.fails(place, "there is no libzibrotka.so")
        self.put("repository", "target", "shared", "libzibrotka.so")
        self.works(place)

    def test_the_first_place_counts(self):
        """A file that is no library is told, and no other place is tried behind it."""
        place = self.package("bindings", "python")
        self.put("lib", "libzibrotka.so")
        beside = os.path.join(place, "zibrotka", "libzibrotka.so")
        with open(beside, "wb") as file:
            file.write(b"no library")
        self.fails(place, f"the library {beside} cannot be loaded")
        self.works(place, ZIBROTKA_LIBRARY=self.put("any.so"))
        self.fails(place, "ZIBROTKA_LIBRARY names no file: none.so", ZIBROTKA_LIBRARY="none.so")

    @unittest.skipUnless(COMPILER, "libraries of another version or with a call missing, for there is no C compiler")
    def test_another_version(self):
        place = self.package("apart")
        names = [name for name in calls.CALLS if name != "release"]
        for release, missing, texts in (
            (10001, None, ("has the release 10001", "needs 10000, 1.0.0")),
            (20000, "count_states", ("has the release 20000", "needs 10000, 1.0.0")),
            (10000, "count_states", ("has no call zibrotka_count_states",)),
        ):
            with self.subTest(release=release, missing=missing):
                source, built = os.path.join(self.folder, "other.c"), os.path.join(self.folder, f"other{release}.so")
                with open(source, "w", encoding="ascii") as file:
                    file.write(f"unsigned long zibrotka_release(void) {{ return {release}; }}\n")
                    file.writelines(f"long zibrotka_{name}(void) {{ return 0; }}\n" for name in names if name != missing)
                subprocess.run([COMPILER, "-shared", "-fPIC", "-o", built, source], check=True)
                self.fails(place, built, *texts, ZIBROTKA_LIBRARY=built)


def missing_for_pip():
    """What an installation without a network needs and this interpreter has not."""
    needed = ["pip", "setuptools"]
    if importlib.util.find_spec("setuptools") and tuple(map(int, metadata.version("setuptools").split(".")[:2])) < (70, 1):
        needed.append("wheel")
    return [name for name in needed if importlib.util.find_spec(name) is None]


class Installed(unittest.TestCase):
    @unittest.skipIf(missing_for_pip(), f"the installation with pip, for there is no {' and no '.join(missing_for_pip())}")
    def test_pip(self):
        with tempfile.TemporaryDirectory() as folder:
            source, target = os.path.join(folder, "source"), os.path.join(folder, "target")
            shutil.copytree(PACKAGE, source, ignore=shutil.ignore_patterns("tests", "*.so", "__pycache__"))
            shutil.copy(library(), os.path.join(source, "zibrotka", "libzibrotka.so"))
            command = [sys.executable, "-m", "pip", "install", "--no-index", "--no-deps", "--no-build-isolation", "--no-compile", "--quiet"]
            environment = {name: value for name, value in os.environ.items() if name != "ZIBROTKA_LIBRARY"}
            environment.update(PIP_ROOT_USER_ACTION="ignore", PIP_DISABLE_PIP_VERSION_CHECK="1")
            done = subprocess.run([*command, "--target", target, source], capture_output=True, text=True, env=environment)
            self.assertEqual(done.returncode, 0, done.stderr)
            self.assertTrue(os.path.isdir(os.path.join(target, "zibrotka-1.0.0.dist-info")), os.listdir(target))
            code = f"import sys; sys.path.insert(0, {target!r}); import zibrotka; print(zibrotka.__file__, zibrotka.release())"
            done = subprocess.run([sys.executable, "-B", "-c", code], capture_output=True, text=True, cwd=folder, env=environment)
            self.assertEqual(done.stdout.split(), [os.path.join(target, "zibrotka", "__init__.py"), "10000"], done.stderr)

    def test_it_is_python_3_9(self):
        """The sources have no syntax of a later version."""
        for path in glob.glob(os.path.join(PACKAGE, "zibrotka", "*.py")):
            with open(path, encoding="utf-8") as file:
                ast.parse(file.read(), path, feature_version=(3, 9))


if __name__ == "__main__":
    unittest.main()
