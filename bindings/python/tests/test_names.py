"""Every public name says what it does and shows it, and its types are known."""

import inspect
import typing
import unittest

from common import complete, printed_apart, run_apart

import zibrotka
from zibrotka import Refused, calls, plots, room


def of_class(name, kind):
    """A class and its public methods and properties."""
    yield name, kind
    for member, value in vars(kind).items():
        if member[0] != "_" and (isinstance(value, (property, classmethod)) or inspect.isfunction(value)):
            yield f"{name}.{member}", getattr(value, "__func__", value)


def public():
    names = [(name, getattr(zibrotka, name)) for name in zibrotka.__all__ if name not in ("Finding", "__version__")]
    names += [(f"plots.{name}", value) for name, value in vars(plots).items() if inspect.isfunction(value) and name[0] != "_"]
    for name, value in names:
        yield from of_class(name, value) if inspect.isclass(value) else [(name, value)]


class Names(unittest.TestCase):
    def test_each_has_an_example(self):
        named = dict(public())
        for name in ("Sheet.edges", "Sheet.read", "Sheet.wilson", "RowLists.n", "RowLists.to_scipy", "plots.plot_tree", "release", "NotInBasis"):
            self.assertIn(name, named)
        self.assertEqual([name for name, value in named.items() if ">>> " not in (value.__doc__ or "")], [])

    def test_types_are_known(self):
        for name, value in public():
            with self.subTest(name):
                value = value.fget if isinstance(value, property) else value
                if inspect.isfunction(value):
                    self.assertIn("return", typing.get_type_hints(value))

    def test_said_once(self):
        """The package hands out the calls' own functions."""
        self.assertIs(zibrotka.refusal_text, calls.refusal_text)
        with self.assertRaises(Refused) as raised:
            zibrotka.refusal_text(18)
        self.assertEqual((raised.exception.number, raised.exception.sentence), (13, zibrotka.refusal_text(13)))


class Machine(unittest.TestCase):
    def test_another_one(self):
        calls.judge_machine("cpython", 64, "linux", "x86_64")
        for other in (("pypy", 64, "linux", "x86_64"), ("cpython", 32, "linux", "x86_64"), ("cpython", 64, "darwin", "arm64")):
            with self.assertRaisesRegex(ImportError, "zibrotka needs CPython of 64 bits on x86-64 Linux, and this is"):
                calls.judge_machine(*other)

    def test_it_is_judged_first(self):
        done = run_apart("import platform; platform.machine = lambda: 'aarch64'; import zibrotka")
        told = "ImportError: zibrotka needs CPython of 64 bits on x86-64 Linux, and this is cpython of 64 bits, linux aarch64"
        self.assertEqual((done.returncode, done.stderr.splitlines()[-1]), (1, told))

    def test_what_the_machine_holds(self):
        room.judge("a list", 1, "another")
        with self.assertRaisesRegex(MemoryError, "^a list takes 1,180,591,620,717,411,303,424 bytes, and this machine has [0-9,]+: use another$"):
            room.judge("a list", 2**70, "another")

    def test_a_stack_of_256_kib(self):
        """docs/STACK.md says that it is enough."""
        told = printed_apart(
            self,
            "import threading\n"
            "from common import complete\n"
            "from zibrotka.calls import call\n"
            "data = complete(5, 1).to_bytes()\n"
            "threading.stack_size(2**18)\n"
            "thread = threading.Thread(target=lambda: print(call('count_entries', data)))\n"
            "thread.start()\n"
            "thread.join()\n",
        )
        self.assertEqual(int(told), complete(5, 1).count_entries())


if __name__ == "__main__":
    unittest.main()
