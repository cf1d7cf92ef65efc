"""Runs tests and doctests in this interpreter and prints one line of JSON: what was there, how many checks, which failed, what was left out.

Usage: report.py [FILE..]. Without a file all test files and the doctests of the package and of README.md are run.
"""

import doctest
import glob
import importlib
import json
import os
import re
import sys
import tempfile
import unittest

from common import LIBRARIES, PACKAGE, TRIANGLE, there

import zibrotka

MODULES = ("zibrotka", *(f"zibrotka.{name}" for name in ("calls", "lists", "plots", "refusals", "room", "row_lists", "sheet")))


# Examples that need more than the package.
NEEDS = {"zibrotka.row_lists.RowLists.to_scipy": "SciPy", "zibrotka.plots.plot_matrix": "matplotlib", "zibrotka.plots.plot_tree": "matplotlib"}

os.environ.setdefault("MPLBACKEND", "Agg")


class SameNumbers(doctest.OutputChecker):
    """Takes what NumPy prints of an array for the plain lists that the examples show: brackets and numbers must be the same."""

    def check_output(self, want, got, optionflags):
        return super().check_output(want, got, optionflags) or (want.startswith("[") and tokens(want) == tokens(got))


def tokens(text):
    found = re.findall(r"[\[\]]|[^\s,\[\]]+", text)
    try:
        return [token if token in "[]" else float(token) for token in found]
    except ValueError:
        return found


def run_examples(failed):
    """The doctests: how many examples there were, and which were left out. The folder that they write to is made for them."""
    runner = doctest.DocTestRunner(checker=SameNumbers(), verbose=False, optionflags=doctest.REPORT_NDIFF)
    finder = doctest.DocTestFinder(exclude_empty=True)
    tests = []
    for name in MODULES:
        tests += finder.find(importlib.import_module(name), name, extraglobs={"Sheet": zibrotka.Sheet, "triangle": TRIANGLE})
    with open(os.path.join(PACKAGE, "README.md"), encoding="utf-8") as page:
        tests.append(doctest.DocTestParser().get_doctest(page.read(), {}, "README.md", "README.md", 0))
    left_out = [f"the example of {test.name}, for there is no {NEEDS[test.name]}" for test in tests if not can(test.name)]
    home = os.getcwd()
    with tempfile.TemporaryDirectory() as folder:
        os.chdir(folder)
        try:
            for test in filter(lambda test: can(test.name), tests):
                failed += [f"doctest {test.name}"] * runner.run(test, out=sys.stderr.write).failed
        finally:
            os.chdir(home)
    return runner.tries, left_out


def can(example):
    return example not in NEEDS or there(NEEDS[example])


def run_tests(files, failed):
    """The unittests of some files: how many were run, and why others were left out."""
    names = [os.path.splitext(os.path.basename(file))[0] for file in files]
    suite = unittest.TestSuite(unittest.defaultTestLoader.loadTestsFromName(name) for name in names)
    checks = suite.countTestCases()
    result = unittest.TextTestRunner(stream=sys.stderr, verbosity=0).run(suite)
    wrong = [test for test, _ in result.failures + result.errors] + list(result.unexpectedSuccesses)
    failed += sorted({getattr(test, "test_case", test).id() for test in wrong})
    return checks - len(result.skipped), sorted({reason for _, reason in result.skipped})


def main(files):
    failed = []
    checks, left_out = run_tests(files or sorted(glob.glob(os.path.join(os.path.dirname(os.path.abspath(__file__)), "test_*.py"))), failed)
    if not files:
        tries, more = run_examples(failed)
        checks, left_out = checks + tries, left_out + more
    print(json.dumps({"there": [name for name in LIBRARIES if there(name)], "checks": checks, "failed": failed, "left out": left_out}))


if __name__ == "__main__":
    main(sys.argv[1:])
