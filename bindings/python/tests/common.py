"""What the tests share: where things are, the two ways in which lists come, and what is not done where something is missing."""

import contextlib
import importlib.util
import os
import struct
import subprocess
import sys
import unittest

sys.dont_write_bytecode = True

PACKAGE = os.path.dirname(os.path.dirname(os.path.abspath(__file__)))
ROOT = os.path.dirname(os.path.dirname(PACKAGE))
SHEETS = os.path.join(ROOT, "sheets")
sys.path.insert(0, PACKAGE)

from zibrotka import Sheet, lists  # noqa: E402

TRIANGLE = Sheet.from_edges(3, [(0, 1), (0, 2), (1, 2)], [(0, 1, 2)], 1)

LIBRARIES = {"NumPy": "numpy", "SciPy": "scipy", "matplotlib": "matplotlib"}


def there(library):
    return importlib.util.find_spec(LIBRARIES[library]) is not None


def needs(library, what):
    """Leaves a test out where a library is missing. The check prints the reason where no interpreter could do it."""
    return unittest.skipUnless(there(library), f"{what}, for there is no {library}")


@contextlib.contextmanager
def plain_lists():
    """Inside, lists come as they do without NumPy."""
    kept, lists.numpy = lists.numpy, None
    try:
        yield
    finally:
        lists.numpy = kept


class Plain:
    """The tests of a class with plain lists."""

    def run(self, result=None):
        with plain_lists():
            return super().run(result)


def complete(n_vertices, truncation):
    """The sheet of all edges and triangles on some vertices, in dictionary order."""
    edges = [(a, b) for a in range(n_vertices) for b in range(a + 1, n_vertices)]
    triangles = [(a, b, c) for a, b in edges for c in range(b + 1, n_vertices)]
    return Sheet.from_edges(n_vertices, edges, triangles, truncation)


def nested(numbers):
    """A NumPy array or a plain list as plain lists."""
    return numbers.tolist() if hasattr(numbers, "tolist") else numbers


def bits(numbers):
    """The bytes of floats, so that 0.0 and -0.0 differ and NaNs do not."""
    return struct.pack(f"{len(numbers)}d", *numbers)


def shipped(name):
    return Sheet.read(os.path.join(SHEETS, name))


def run_apart(code, **options):
    """Runs code with the package in an interpreter of its own, which may crash."""
    start = f"import sys; sys.path[:0] = [{PACKAGE!r}, {os.path.join(PACKAGE, 'tests')!r}]\n"
    environment = {**os.environ, "MPLBACKEND": "Agg", "PYTHONDONTWRITEBYTECODE": "1"}
    environment.pop("PYTHONUNBUFFERED", None)
    options = {"capture_output": True, "timeout": 60, "env": environment, **options}
    return subprocess.run([sys.executable, "-c", start + code], text=True, **options)


def printed_apart(case, code, **options):
    """What code prints that ends well in an interpreter of its own."""
    done = run_apart(code, **options)
    case.assertEqual((done.returncode, done.stderr), (0, ""))
    return done.stdout
