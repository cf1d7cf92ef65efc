"""The calls one to one: the list against the header, each call called, and what misuse raises."""

import contextlib
import ctypes
import mmap
import os
import random
import re
import sys
import threading
import time
import unittest
from array import array
from collections import deque
from collections.abc import Sequence
from fractions import Fraction
from unittest import mock

from common import ROOT, TRIANGLE, complete, needs, printed_apart, shipped

from zibrotka import Refused, calls, room
from zibrotka.calls import CALLS, answer, call

DATA = TRIANGLE.to_bytes()
COUPLING = (1.0, 0.5, -1.0)
Z2_COUPLING = (1.0, 0.375, -0.5)


def ints(length):
    return array("i", [77] * length)


def masks(length):
    return array("Q", [77] * length)


def floats(length):
    return array("d", [77.0] * length)


def small(length):
    return array("I", [77] * length)


# Each call once on the triangle: the arguments, the answer, and what the lists that it writes hold afterwards, by their places.
SAMPLES = {
    "make_sheet": (lambda: (3, [0, 1, 0, 2, 1, 2], [0, 1, 2], 1, bytearray(20)), 20, {4: list(DATA)}),
    "read_sheet": (
        lambda: (DATA, masks(1), masks(1), masks(1), masks(1), bytearray(126), bytearray(768)),
        0,
        {1: [3], 2: [3], 3: [1], 4: [1], 5: [0, 1, 0, 2, 1, 2] + [0] * 120, 6: [0, 1, 2] + [0] * 765},
    ),
    "tri_edge_indices": (lambda: (DATA, 0, masks(3)), 0, {2: [0, 1, 2]}),
    "from_pentachorons": (lambda: (5, [4, 3, 2, 1, 0], bytearray(20), bytearray(30), masks(1)), 10, {4: [10]}),
    "spanning_tree": (lambda: (DATA, small(2), small(1)), 1, {1: [0, 1], 2: [2]}),
    "fundamental_loops": (lambda: (DATA, small(2), bytearray(3), array("b", [0] * 3)), 1, {1: [0, 3], 2: [0, 1, 2], 3: [-1, 1, -1]}),
    "su2_fundamental_loops": (lambda: (DATA, small(2), bytearray(3)), 1, {1: [0, 3], 2: [0, 1, 2]}),
    "check_gauss_law": (lambda: (DATA, [1, -1, 1]), 1, {}),
    "check_gauss_law_finding": (lambda: (DATA, [3, 0, -2], masks(1), array("q", [77])), 0, {2: [0], 3: [-3]}),
    "enumerate_gauge_invariant": (lambda: (DATA, ints(9)), 3, {1: [-1, 1, -1, 0, 0, 0, 1, -1, 1]}),
    "config_to_index": (lambda: (DATA, [1, -1, 1], ints(9)), 2, {2: [-1, 1, -1, 0, 0, 0, 1, -1, 1]}),
    "config_to_index_finding": (
        lambda: (DATA, [2, -2, 2], ints(9), masks(1), array("q", [77]), masks(1)), -17, {2: [77] * 9, 3: [77], 4: [0], 5: [0]},
    ),
    "apply_shift": (lambda: (DATA, [1, -1, 0], 2, 1, ints(9), ints(3)), 2, {5: [1, -1, 1]}),
    "apply_shift_finding": (
        lambda: (DATA, [0, 0, 0], 2, 1, ints(9), ints(3), masks(1), array("q", [77]), masks(1)),
        -17,
        {4: [77] * 9, 5: [77] * 3, 6: [1], 7: [-1], 8: [77]},
    ),
    "apply_triangle_shift": (lambda: (DATA, 0, 0, ints(9)), 1, {3: [-1, 1, -1, 0, 0, 0, 1, -1, 1]}),
    "su2_basis": (lambda: (DATA, masks(2)), 2, {1: [0, 7]}),
    "u1_params": (lambda: (1.0, floats(3)), 0, {1: list(COUPLING)}),
    "su2_params": (lambda: (1.0, floats(3)), 0, {1: list(Z2_COUPLING)}),
    "build_hamiltonian": (
        lambda: (DATA, *COUPLING, False, [], ints(9), floats(10)), 3, {7: [1.5, -0.5, 0, -0.5, 0, -0.5, 0, -0.5, 1.5, 77]},
    ),
    "build_su2_hamiltonian": (lambda: (DATA, *Z2_COUPLING, True, [2.0], masks(2), floats(4)), 2, {6: [0, 7], 7: [0, -1, -1, 1.125]}),
    "build_csr": (
        lambda: (DATA, *COUPLING, True, [1], ints(9), small(4), small(6), floats(6)),
        6,
        {7: [0, 2, 4, 6], 8: [0, 1, 0, 2, 1, 2], 9: [1.5, -0.5, -0.5, -0.5, -0.5, 1.5]},
    ),
    "build_csr_su2": (
        lambda: (DATA, *Z2_COUPLING, False, [], masks(2), small(3), small(3), floats(3)), 3, {7: [0, 1, 3], 8: [1, 0, 1], 9: [-0.5, -0.5, 1.125]},
    ),
    "matvec": (lambda: ([0, 1, 2], [1, 0], [2.0, 3.0], [5.0, 7.0], floats(2)), 0, {4: [14, 15]}),
    "count_states": (lambda: (DATA,), 3, {}),
    "su2_count_states": (lambda: (DATA,), 2, {}),
    "count_entries": (lambda: (DATA,), 6, {}),
    "hamiltonian_matvec": (lambda: (DATA, *COUPLING, False, [], [1.0, 2.0, 3.0], ints(9), floats(3)), 3, {8: [0.5, -2, 3.5]}),
    "electric_field_sq": (lambda: (DATA, [1.0, 2.0, 3.0], ints(9), floats(3)), 3, {3: [10, 10, 10]}),
    "wilson_loop": (lambda: (DATA, [1.0, 2.0, 3.0], [0, 1, 2], [-1, 1, -1], ints(9), floats(1)), 0, {5: [8]}),
    "su2_count_entries": (lambda: (DATA,), 3, {}),
    "su2_hamiltonian_matvec": (lambda: (DATA, *Z2_COUPLING, False, [], [3.0, 5.0], masks(2), floats(2)), 2, {8: [-2.5, 4.125]}),
    "su2_wilson_loop": (lambda: (DATA, [3.0, 5.0], [0, 1, 2], masks(2), floats(1)), 0, {4: [-16]}),
    "su2_wilson_passes": (lambda: (DATA, [3.0, 5.0], [0, 0], masks(2), floats(1)), 0, {4: [34]}),
    "refusal_text": (lambda: (1, bytearray(34)), 33, {1: list(b"the sheet has fewer than 11 bytes\0")}),
    "release": (lambda: (), 10000, {}),
}


def header_calls():
    """The calls of the C header, written as calls.txt writes them."""
    with open(os.path.join(ROOT, "include", "zibrotka.h"), encoding="ascii") as file:
        text = re.sub(r"/\*.*?\*/", "", file.read(), flags=re.S)
    lengths = dict(re.findall(r"#define (\w+) (\d+)\n", text))
    short = {f"{sign}int{bits}_t": f"{letter}{bits}" for sign, letter in (("u", "u"), ("", "i")) for bits in (8, 16, 32, 64)}
    short.update({"double": "f64", "bool": "bool"})
    told = []
    for result, name, parameters in re.findall(r"(\w+) zibrotka_(\w+)\(([^)]*)\);", text):
        words = [] if parameters == "void" else [word.strip() for word in parameters.split(",")]
        types = []
        for place, word in enumerate(words):
            const, kind, star, parameter, length = re.fullmatch(r"(const )?(\w+) (\*?)(\w+)(?:\[(\w+)\])?", word).groups()
            is_list = star and place + 1 < len(words) and re.fullmatch(r"size_t \w+_len", words[place + 1])
            if kind == "size_t":
                continue
            if is_list:
                types.append(f"{parameter}: {'&' if const else '&mut '}[{short[kind]}]")
            elif length:
                types.append(f"{parameter}: &mut [{short[kind]}; {lengths.get(length, length)}]")
            else:
                types.append(f"{parameter}: {'&mut ' if star else ''}{short[kind]}")
        told.append(f"{name}({', '.join(types)}) -> {short[result]}\n")
    return told


class Listed(unittest.TestCase):
    def test_the_list_is_the_header(self):
        """The same calls, with the same parameters in the same order. The header's calls come in an order of their own."""
        with open(os.path.join(os.path.dirname(calls.__file__), "calls.txt"), encoding="ascii") as file:
            listed = list(file)
        self.assertEqual(sorted(listed), sorted(header_calls()))
        self.assertEqual(len(listed), 35)

    def test_every_call_has_a_sample(self):
        self.assertEqual(set(SAMPLES), set(CALLS))

    def test_each_call(self):
        for name, (make, wanted, written) in SAMPLES.items():
            with self.subTest(name):
                arguments = make()
                self.assertEqual(call(name, *arguments), wanted)
                for place, numbers in written.items():
                    self.assertEqual(list(arguments[place]), numbers, f"{name}, argument {place}")

    def test_answer_raises_what_call_tells(self):
        self.assertEqual(answer("count_states", DATA), 3)
        with self.assertRaises(Refused) as raised:
            answer("config_to_index", DATA, [3, 0, -2], ints(9))
        self.assertEqual((raised.exception.number, str(raised.exception)), (17, "refused 17: the configuration is not in the basis"))

    def test_names_and_numbers_of_arguments(self):
        with self.assertRaisesRegex(ValueError, "no call of the name 'counts'"):
            call("counts", DATA)
        with self.assertRaisesRegex(TypeError, "count_states takes 1 arguments"):
            call("count_states")
        with self.assertRaisesRegex(TypeError, "release takes 0 arguments"):
            call("release", 1)

    def test_each_argument_of_another_type_is_raised(self):
        """An object that is no number and no list is a TypeError in the place of every argument, and so is a list of texts."""
        for name, (make, _, _) in SAMPLES.items():
            for place in range(len(make())):
                for wrong in (object(), "1", None, 1j, ["x"], {1: 2}):
                    with self.subTest(name=name, place=place, wrong=wrong):
                        arguments = list(make())
                        arguments[place] = wrong
                        with self.assertRaisesRegex(TypeError, CALLS[name].parameters[place].name):
                            call(name, *arguments)


class Numbers(unittest.TestCase):
    def test_whole_numbers(self):
        for wrong in (True, 2.0, "2", None, [2], 1j, b"2", Fraction(2)):
            with self.subTest(wrong=wrong), self.assertRaisesRegex(TypeError, "triangle must be a whole number"):
                call("tri_edge_indices", DATA, wrong, masks(3))
        for wrong in (-1, 2**64, -(2**64), 10**5000):
            with self.assertRaisesRegex(OverflowError, "triangle must be a whole number from 0 to 18446744073709551615"):
                call("tri_edge_indices", DATA, wrong, masks(3))
        for delta in (2**31, -(2**31) - 1):
            with self.assertRaisesRegex(OverflowError, "delta must be a whole number from -2147483648 to 2147483647"):
                call("apply_shift", DATA, [0, 0, 0], 0, delta, ints(9), ints(3))
        self.assertEqual(call("tri_edge_indices", DATA, 2**64 - 1, masks(3)), -13)
        self.assertEqual(call("apply_shift", DATA, [0, 0, 0], 0, -(2**31), ints(9), ints(3)), -16)

    def test_a_class_with_an_index(self):
        class Zero:
            def __index__(self):
                return 0

        self.assertEqual(call("tri_edge_indices", DATA, Zero(), masks(3)), 0)
        self.assertEqual(call("check_gauss_law", DATA, [Zero(), 0, 0]), 1)

    def test_classes_of_numbers(self):
        """What counts is the number that an object of such a class is, not what its methods tell."""

        class Float(float):
            def __float__(self):
                return 2.0

        class Whole(int):
            def __index__(self):
                return 5

            def __le__(self, other):
                return True

        params, indices = floats(3), masks(3)
        self.assertEqual(call("u1_params", Float(1.0), params), 0)
        self.assertEqual(list(params), list(COUPLING))
        result = floats(3)
        self.assertEqual(call("electric_field_sq", DATA, [Float(1.0), 2.0, 3.0], ints(9), result), 3)
        self.assertEqual(list(result), [10, 10, 10])
        self.assertEqual(call("tri_edge_indices", DATA, Whole(0), indices), 0)
        with self.assertRaisesRegex(OverflowError, "triangle must be a whole number"):
            call("tri_edge_indices", DATA, Whole(2**64), indices)

    def test_floats(self):
        for wrong in (True, "1.0", None, 1j, [1.0]):
            with self.subTest(wrong=wrong), self.assertRaisesRegex(TypeError, "g_squared must be a float"):
                call("u1_params", wrong, floats(3))
        for wrong in (2**53 + 1, Fraction(1, 3)):
            with self.assertRaisesRegex(ValueError, "g_squared is no float exactly"):
                call("u1_params", wrong, floats(3))
        with self.assertRaisesRegex(OverflowError, "g_squared is too large for a float"):
            call("u1_params", 10**400, floats(3))
        params = floats(3)
        self.assertEqual(call("u1_params", 2**32, params), 0)
        self.assertEqual(call("u1_params", Fraction(1, 4), params), 0)
        self.assertEqual(list(params), [0.25, 0.125, -4.0])

    def test_bools(self):
        for wrong in (2, 1, 0, "x", None, 1.0, []):
            with self.subTest(wrong=wrong), self.assertRaisesRegex(TypeError, "given must be True or False"):
                call("build_hamiltonian", DATA, *COUPLING, wrong, [], ints(9), floats(9))

    def test_floats_that_are_none_or_endless_are_refused(self):
        for wrong in (float("nan"), float("inf"), -float("inf"), 0.0, -1.0, 5e-324, 2.0**33):
            with self.subTest(wrong=wrong):
                self.assertEqual(call("u1_params", wrong, floats(3)), -14)
                self.assertEqual(call("su2_params", wrong, floats(3)), -14)
                self.assertEqual(call("build_hamiltonian", DATA, wrong, 0.5, -1.0, False, [], ints(9), floats(9)), -14)
        for wrong in (float("nan"), float("inf"), -float("inf"), 2.0**33):
            with self.subTest(wrong=wrong):
                self.assertEqual(call("build_hamiltonian", DATA, *COUPLING, True, [wrong], ints(9), floats(9)), -14)
                self.assertEqual(call("build_hamiltonian", DATA, *COUPLING, False, [wrong], ints(9), floats(9)), 3)
                self.assertEqual(call("hamiltonian_matvec", DATA, *COUPLING, False, [], [1.0, wrong, 1.0], ints(9), floats(3)), -14)
                self.assertEqual(call("electric_field_sq", DATA, [1.0, wrong, 1.0], ints(9), floats(3)), -14)
                self.assertEqual(call("su2_wilson_loop", DATA, [wrong, 1.0], [], masks(2), floats(1)), -14)


class ReadLists(unittest.TestCase):
    def law(self, configuration):
        return call("check_gauss_law", DATA, configuration)

    def test_all_kinds_of_lists(self):
        kinds = [
            [1, -1, 1], (1, -1, 1), array("i", [1, -1, 1]), array("q", [1, -1, 1]), array("b", [1, -1, 1]), deque([1, -1, 1]),
            (ctypes.c_int32 * 3)(1, -1, 1), (ctypes.c_int64 * 3)(1, -1, 1), memoryview(array("i", [1, 0, -1, 0, 1]))[::2],
        ]  # fmt: skip
        for kind in kinds:
            with self.subTest(kind=kind):
                self.assertEqual(self.law(kind), 1)
        self.assertEqual(self.law(range(3)), 0)
        self.assertEqual(self.law([]), -12)
        self.assertEqual(self.law(()), -12)

    def test_bytes_of_all_kinds(self):
        with mmap.mmap(-1, len(DATA)) as mapped:
            mapped.write(DATA)
            for kind in (DATA, bytearray(DATA), memoryview(DATA), list(DATA), array("B", DATA), mapped, (ctypes.c_uint8 * 20)(*DATA)):
                self.assertEqual(call("count_states", kind), 3)

    def test_turned_bytes(self):
        foreign = (ctypes.c_int32.__ctype_be__ * 3)(1, -1, 1)
        self.assertEqual(self.law(foreign), 1)
        with self.assertRaisesRegex(TypeError, "states must hold i32 in this machine's order of bytes"):
            call("enumerate_gauge_invariant", DATA, (ctypes.c_int32.__ctype_be__ * 9)())

    def test_an_odd_place(self):
        """Numbers that do not begin at a multiple of their size are copied where they are read, and raised where they are written."""
        room = bytearray(41)
        odd = memoryview(room)[1:37].cast("i") if calls.address_of(memoryview(room)) % 4 == 0 else memoryview(room)[:36].cast("i")
        odd[0], odd[1], odd[2] = 1, -1, 1
        self.assertEqual(self.law(odd[:3]), 1)
        with self.assertRaisesRegex(ValueError, "states must begin at a multiple of 4 bytes"):
            call("enumerate_gauge_invariant", DATA, odd)

    def test_each_number_is_judged(self):
        with self.assertRaisesRegex(OverflowError, r"configuration\[1\] must be a whole number from -2147483648 to 2147483647, not 2147483648"):
            self.law([0, 2**31, 0])
        with self.assertRaisesRegex(OverflowError, r"configuration\[2\].*, not -2147483649"):
            self.law(array("q", [0, 0, -(2**31) - 1]))
        with self.assertRaisesRegex(OverflowError, r"path\[0\] must be a whole number from 0 to 255, not -1"):
            call("su2_wilson_loop", DATA, [3.0, 5.0], [-1], masks(2), floats(1))
        for wrong in (1.0, True, "0", None, [0]):
            with self.subTest(wrong=wrong), self.assertRaisesRegex(TypeError, r"configuration\[0\] must be a whole number"):
                self.law([wrong, 0, 0])
        for wrong in (array("d", [0, 0, 0]), array("f", [0, 0, 0]), b"\0\0\0", bytearray(3), (ctypes.c_bool * 3)(), (ctypes.c_char * 3)()):
            with self.subTest(wrong=wrong), self.assertRaisesRegex(TypeError, "configuration must hold i32"):
                self.law(wrong)

    def test_lists_of_floats(self):
        def squares(amplitudes):
            result = floats(3)
            return call("electric_field_sq", DATA, amplitudes, ints(9), result), list(result)

        wanted = (3, [10.0, 10.0, 10.0])
        for kind in ([1, 2, 3], [1.0, 2, Fraction(3)], array("d", [1, 2, 3]), array("f", [1, 2, 3]), array("q", [1, 2, 3]), range(1, 4)):
            self.assertEqual(squares(kind), wanted)
        for wrong, error in ((True, TypeError), ("1", TypeError), (2**53 + 1, ValueError), (10**400, OverflowError), (1j, TypeError)):
            with self.subTest(wrong=wrong), self.assertRaisesRegex(error, r"amplitudes\[1\]"):
                squares([1.0, wrong, 3.0])
        with self.assertRaisesRegex(ValueError, r"amplitudes\[2\] is no float exactly: 9007199254740993"):
            squares(array("q", [1, 2, 2**53 + 1]))

    def test_what_is_no_list(self):
        for wrong in (5, 5.0, "101", {1, 2, 3}, (x for x in (1, 2, 3)), ctypes.c_int32(1), None):
            with self.subTest(wrong=wrong), self.assertRaisesRegex(TypeError, "configuration must be a list"):
                self.law(wrong)

    def ready(self, given, item):
        with contextlib.ExitStack() as views:
            return calls.read_list(given, calls.ITEMS[item], "numbers", views).copy

    def test_floats_stay_where_they_lie(self):
        """Through a view of 2^32 floats that no memory holds nothing could be copied; the length alone is wrong, and told."""
        with mmap.mmap(-1, 2**35, mmap.MAP_PRIVATE | mmap.MAP_ANONYMOUS | getattr(mmap, "MAP_NORESERVE", 0x4000)) as mapped:
            with memoryview(mapped) as view, view.cast("d") as numbers:
                self.assertEqual(call("electric_field_sq", DATA, numbers, ints(9), floats(3)), -12)
            with memoryview(mapped) as view, view.cast("i") as numbers, mock.patch.object(room, "memory", lambda: 2**35 - 1):
                with self.assertRaisesRegex(MemoryError, "a copy of configuration takes 34,359,738,368 bytes"):
                    self.law(numbers)
        self.assertIsNone(self.ready(DATA, "u8"))
        self.assertIsNone(self.ready(floats(3), "f64"))

    def test_whole_numbers_are_copied(self):
        for letter, item in (("B", "u8"), ("b", "i8"), ("i", "i32"), ("I", "u32"), ("Q", "u64"), ("h", "i32")):
            given = array(letter, [1, 2, 3])
            copy = self.ready(given, item)
            given[1] = 77
            self.assertEqual((copy.tolist(), copy.format), ([1, 2, 3], calls.ITEMS[item].letter))
        given = bytearray(DATA)
        copy = self.ready(given, "u8")
        given[0] = 0
        self.assertEqual(copy.tobytes(), DATA)

    def test_one_dimension(self):
        square = memoryview(array("d", [1, 2, 3, 4])).cast("B").cast("d", (2, 2))
        with self.assertRaisesRegex(ValueError, "amplitudes must be a list in one dimension, not in 2"):
            call("electric_field_sq", DATA, square, ints(9), floats(3))
        with self.assertRaisesRegex(ValueError, "configuration must be a list in one dimension, not in 2"):
            self.law(memoryview(bytes(12)).cast("i", (3, 1)))

    def test_lengths_that_no_machine_holds(self):
        with mock.patch.object(room, "memory", lambda: 1000):
            for given in (range(300), array("i", bytes(1200)), array("b", bytes(300)), memoryview(bytes(1200)).cast("i")[::-1]):
                with self.assertRaisesRegex(MemoryError, "a copy of configuration takes 1,200 bytes, and this machine has 1,000: use a shorter list"):
                    self.law(given)
        with self.assertRaisesRegex(MemoryError, "configuration is longer than any list that a machine holds"):
            self.law(range(10**20))

    def test_a_length_that_is_none(self):
        class Numbers(Sequence):
            def __init__(self, length, items):
                self.length, self.items = length, items

            def __len__(self):
                return self.length

            def __getitem__(self, place):
                if place >= self.items:
                    raise IndexError
                return 0

        self.assertEqual(self.law(Numbers(3, 3)), 1)
        self.assertEqual(self.law(Numbers(10**5, 10**5)), -12)
        for length, items in ((3, 2), (3, 10**30), (0, 1), (10**5, 10**5 + 1)):
            with self.subTest(length=length), self.assertRaisesRegex(ValueError, f"configuration has the length {length}, and another number"):
                self.law(Numbers(length, items))

    def test_places_in_a_long_list(self):
        wrong = [0] * 10**5
        wrong[-1] = 2**31
        with self.assertRaisesRegex(OverflowError, r"configuration\[99999\] must be"):
            self.law(wrong)

    if sys.version_info >= (3, 12):  # Before that no class of the caller's could make a buffer.

        def test_a_buffer_that_is_made(self):
            """It is made once, before any address is taken, and let go."""

            class Made:
                def __init__(self, numbers):
                    self.numbers, self.told = numbers, []

                def __buffer__(self, flags):
                    self.told.append("made")
                    return memoryview(self.numbers)

                def __release_buffer__(self, view):
                    self.told.append("let go")
                    view.release()

            states = Made(ints(9))
            self.assertEqual(call("enumerate_gauge_invariant", Made(DATA), states), 3)
            self.assertEqual((states.told, list(states.numbers)), (["made", "let go"], [-1, 1, -1, 0, 0, 0, 1, -1, 1]))
            amplitudes = Made(floats(3))
            with self.assertRaisesRegex(TypeError, "states is written"):
                call("electric_field_sq", DATA, amplitudes, "states", floats(3))
            amplitudes.numbers.append(1.0)
            self.assertEqual(amplitudes.told, ["made", "let go"])

    def test_buffers_are_let_go(self):
        """A bytearray that is still lent cannot grow."""
        states, data = bytearray(36), bytearray(DATA)
        with memoryview(states) as view, view.cast("i") as numbers:
            self.assertEqual(call("enumerate_gauge_invariant", data, numbers), 3)
        data.append(0)
        states.append(0)
        kept = []
        for arguments in ((data, "no list"), (data, bytearray(36)), (data, memoryview(states)[1:37].cast("i"), 1)):
            try:
                call("enumerate_gauge_invariant", *arguments)
            except (TypeError, ValueError) as error:
                kept.append(error)
        try:
            call("make_sheet", 3, data, data, 1, data)
        except ValueError as error:
            kept.append(error)
        del arguments
        data.append(0)
        self.assertEqual(len(kept), 4)


class WrittenLists(unittest.TestCase):
    def test_items(self):
        for wrong in (array("I", [0] * 9), array("q", [0] * 9), array("f", [0] * 9), bytearray(36), (ctypes.c_uint32 * 9)()):
            with self.subTest(wrong=wrong), self.assertRaisesRegex(TypeError, "states must hold i32"):
                call("enumerate_gauge_invariant", DATA, wrong)
        for wrong in ([0] * 9, (0,) * 9, range(9), 5, "states"):
            with self.subTest(wrong=wrong), self.assertRaisesRegex(TypeError, "states is written and must be a buffer of i32"):
                call("enumerate_gauge_invariant", DATA, wrong)
        self.assertEqual(call("enumerate_gauge_invariant", DATA, (ctypes.c_int32 * 9)()), 3)

    def test_read_only(self):
        with self.assertRaisesRegex(TypeError, "sheet is written, and the buffer can only be read"):
            call("make_sheet", 3, [], [], 1, bytes(905))
        with self.assertRaisesRegex(TypeError, "states is written, and the buffer can only be read"):
            call("enumerate_gauge_invariant", DATA, memoryview(ints(9)).toreadonly())

    def test_gaps(self):
        with self.assertRaisesRegex(TypeError, "states is written, and the buffer has gaps"):
            call("enumerate_gauge_invariant", DATA, memoryview(ints(18))[::2])
        with self.assertRaisesRegex(TypeError, "states is written, and the buffer has gaps"):
            call("enumerate_gauge_invariant", DATA, memoryview(ints(9))[::-1])

    def test_fixed_lengths(self):
        for length in (0, 2, 4):
            with self.assertRaisesRegex(ValueError, f"indices must have the length 3, not {length}"):
                call("tri_edge_indices", DATA, 0, masks(length))
            with self.assertRaisesRegex(ValueError, f"params must have the length 3, not {length}"):
                call("u1_params", 1.0, floats(length))
        for length in (0, 2):
            with self.assertRaisesRegex(ValueError, f"vertex must have the length 1, not {length}"):
                call("check_gauss_law_finding", DATA, [0, 0, 0], masks(length), array("q", [0]))
        for edges, triangles in ((125, 768), (127, 768), (126, 767), (126, 769)):
            with self.assertRaisesRegex(ValueError, "must have the length"):
                call("read_sheet", DATA, masks(1), masks(1), masks(1), masks(1), bytearray(edges), bytearray(triangles))

    def test_single_numbers(self):
        vertex, excess = ctypes.c_uint64(7), ctypes.c_int64(7)
        self.assertEqual(call("check_gauss_law_finding", DATA, [3, 0, -2], vertex, excess), 0)
        self.assertEqual((vertex.value, excess.value), (0, -3))
        with self.assertRaisesRegex(TypeError, "states must be a list, not a single number"):
            call("enumerate_gauge_invariant", DATA, ctypes.c_int32())

    def test_an_empty_list(self):
        self.assertEqual(call("enumerate_gauge_invariant", DATA, ints(0)), -15)
        one = b"GLS" + bytes([1, 0, 1, 0, 0, 0, 0, 0])
        self.assertEqual(call("enumerate_gauge_invariant", one, ints(0)), 1)


class Overlaps(unittest.TestCase):
    """What is written must share nothing with what else is given. Each pair of kinds: read, written, number, array."""

    def raises(self, first, second, name, *arguments):
        with self.assertRaisesRegex(ValueError, f"({first} and {second}|{second} and {first}) overlap"):
            call(name, *arguments)

    def test_read_and_written(self):
        numbers = ints(12)
        view = memoryview(numbers)
        self.raises("configuration", "states", "config_to_index", DATA, view[0:3], view[2:11])
        self.assertEqual(call("config_to_index", DATA, view[0:3], view[3:12]), -17)
        data = bytearray(DATA)
        with memoryview(data) as lent:
            self.raises("edges", "sheet", "make_sheet", 3, lent[:6], [], 1, data)
            self.raises("sheet", "edges", "su2_fundamental_loops", data, small(2), lent[3:6])

    def test_written_and_written(self):
        view = memoryview(small(8))
        self.raises("tree", "free_edges", "spanning_tree", DATA, view[0:2], view[1:3])
        self.raises("tree", "free_edges", "spanning_tree", DATA, view, view)
        self.assertEqual(call("spanning_tree", DATA, view[0:2], view[2:3]), 1)
        self.assertEqual(call("spanning_tree", DATA, view[2:4], view[0:1]), 1)

    def test_different_items(self):
        room = bytearray(160)
        view = memoryview(room)
        self.raises("states", "result", "build_hamiltonian", DATA, *COUPLING, False, [], view[:36].cast("i"), view[32:104].cast("d"))
        self.raises("weights", "result", "build_hamiltonian", DATA, *COUPLING, True, view[72:80].cast("d"), ints(9), view[8:80].cast("d"))
        self.assertEqual(call("build_hamiltonian", DATA, *COUPLING, True, view[80:88].cast("d"), view[88:124].cast("i"), view[8:80].cast("d")), 3)

    def test_read_and_number(self):
        vector = floats(3)
        self.raises("amplitudes", "expectation", "wilson_loop", DATA, vector, [], [], ints(9), memoryview(vector)[1:2])
        pentachora = array("Q", [0, 1, 2, 3, 4])
        self.raises("pentachora", "n_triangles", "from_pentachorons", 5, pentachora, bytearray(20), bytearray(30), memoryview(pentachora)[4:])

    def test_written_and_number(self):
        states = masks(2)
        room = bytearray(16)
        self.raises("states", "expectation", "su2_wilson_loop", DATA, [3.0, 5.0], [], memoryview(room).cast("Q"), memoryview(room)[8:].cast("d"))
        self.assertEqual(call("su2_wilson_loop", DATA, [3.0, 5.0], [], states, floats(1)), 0)

    def test_number_and_number(self):
        number = masks(1)
        self.raises("vertex", "edge", "config_to_index_finding", DATA, [0, 0, 0], ints(9), number, array("q", [0]), number)
        self.raises("vertex", "excess", "check_gauss_law_finding", DATA, [0, 0, 0], number, memoryview(number).cast("B").cast("q"))

    def test_read_and_array(self):
        data = bytearray(20 + 126)
        data[:20] = DATA
        with memoryview(data) as view:
            rest = (masks(1), masks(1), masks(1), masks(1))
            self.raises("sheet", "edges", "read_sheet", view[:20], *rest, view[19:145], bytearray(768))
            self.assertEqual(call("read_sheet", view[:20], *rest, view[20:146], bytearray(768)), 0)
        room = bytearray(24)
        room[:20] = DATA
        self.raises("sheet", "indices", "tri_edge_indices", memoryview(room)[:20], 0, memoryview(room).cast("Q"))

    def test_array_and_array(self):
        room = bytearray(768)
        self.raises("edges", "triangles", "read_sheet", DATA, masks(1), masks(1), masks(1), masks(1), memoryview(room)[:126], room)

    def test_number_and_array(self):
        room = bytearray(768)
        self.raises("lambda", "triangles", "read_sheet", DATA, masks(1), masks(1), masks(1), memoryview(room)[8:16].cast("Q"), bytearray(126), room)

    def test_what_is_only_read_may_overlap(self):
        same = array("d", [1.0, 1.0])
        self.assertEqual(call("matvec", [0, 1, 2], [0, 1], same, same, floats(2)), 0)
        self.assertEqual(call("make_sheet", 1, b"", b"", 0, bytearray(11)), 11)

    def test_a_name_that_changes(self):
        """The call that is judged is the one that is made, though the name is another by then."""
        code = (
            "from zibrotka.calls import call\n"
            "class Name(str):\n"
            "    now = 'refusal_text'\n"
            "    __hash__ = lambda self: hash(self.now)\n"
            "    __eq__ = lambda self, other: self.now == other\n"
            "class Number:\n"
            "    def __index__(self): Name.now = 'count_states'; return 0xdead0000\n"
            "print(call(Name(), Number(), bytearray(200)))\n"
        )
        self.assertEqual(printed_apart(self, code), "-13\n")

    def test_a_refused_overlap_changes_nothing(self):
        view = memoryview(small(3))
        self.raises("tree", "free_edges", "spanning_tree", DATA, view[0:2], view[1:3])
        self.assertEqual(view.tolist(), [77, 77, 77])


@needs("NumPy", "NumPy arrays as arguments")
class NumPyArguments(unittest.TestCase):
    def setUp(self):
        import numpy

        self.np = numpy

    def law(self, configuration):
        return call("check_gauss_law", DATA, configuration)

    def test_whole_numbers(self):
        np = self.np
        for kind in ("int8", "int16", "int32", "int64", ">i4", ">i8", "<i8"):
            self.assertEqual(self.law(np.array([1, -1, 1], kind)), 1, kind)
        for kind in ("uint8", "uint16", "uint32", "uint64", ">u2"):
            self.assertEqual(self.law(np.array([0, 0, 0], kind)), 1, kind)
        for kind in ("float64", "float32", "float16", "longdouble", "bool", "complex128", "object", "S1", "U1", "datetime64[s]", "i4,i4"):
            with self.subTest(kind=kind), self.assertRaisesRegex(TypeError, "configuration"):
                self.law(np.zeros(3, kind))
        with self.assertRaisesRegex(OverflowError, r"configuration\[1\] .*, not 4294967295"):
            self.law(np.array([0, 2**32 - 1, 0], "uint32"))
        with self.assertRaisesRegex(OverflowError, r"configuration\[0\] .*, not -2147483649"):
            self.law(np.array([-(2**31) - 1, 0, 0], ">i8"))

    def test_single_numbers(self):
        np = self.np
        for kind in (np.int8, np.uint64, np.int32):
            self.assertEqual(call("tri_edge_indices", DATA, kind(0), np.zeros(3, "uint64")), 0)
        for wrong in (np.bool_(False), np.float64(0), np.float32(0), np.array([0])):
            with self.assertRaises(TypeError):
                call("tri_edge_indices", DATA, wrong, np.zeros(3, "uint64"))
        params = np.zeros(3)
        for kind in (np.float64(1), np.float32(1), np.float16(1), np.int8(1), np.longdouble(1)):
            self.assertEqual(call("u1_params", kind, params), 0)
        for wrong in (np.bool_(True), np.complex128(1), np.str_("1")):
            with self.assertRaises(TypeError):
                call("u1_params", wrong, params)
        self.assertEqual(call("u1_params", np.float32("nan"), params), -14)
        for given, weights, wanted in ((np.bool_(True), [], -12), (np.bool_(False), [], 3)):
            self.assertEqual(call("build_hamiltonian", DATA, *COUPLING, given, weights, ints(9), floats(9)), wanted)
        for wrong in (np.int8(1), np.float64(1), np.array([True])):
            with self.assertRaisesRegex(TypeError, "given must be True or False"):
                call("build_hamiltonian", DATA, *COUPLING, wrong, [], ints(9), floats(9))
        with self.assertRaisesRegex(TypeError, "amplitudes must be a list"):
            call("electric_field_sq", DATA, np.float64(1), ints(9), floats(3))
        with self.assertRaisesRegex(TypeError, r"configuration\[0\]"):
            self.law([np.bool_(False), 0, 0])
        self.assertEqual(self.law([np.int8(1), np.int64(-1), 1]), 1)

    def test_floats(self):
        np = self.np
        for kind in ("float64", "float32", "float16", ">f8", ">f4", "int8", ">i8", "uint64"):
            result = np.zeros(3)
            self.assertEqual(call("electric_field_sq", DATA, np.array([1, 2, 3], kind), ints(9), result), 3)
            self.assertEqual(result.tolist(), [10, 10, 10], kind)
        tenth = np.float32(0.1)
        result = np.zeros(3)
        call("electric_field_sq", DATA, np.array([tenth, 0, 0], "float32"), ints(9), result)
        self.assertEqual(result[0], float(tenth) * float(tenth))
        for kind in ("bool", "complex64", "object", "longdouble"):
            with self.subTest(kind=kind), self.assertRaises(TypeError):
                call("electric_field_sq", DATA, np.ones(3, kind), ints(9), result)

    def test_masked_arrays(self):
        np = self.np
        masked = np.ma.array(np.zeros(9, "int32"), mask=[True] * 9)
        with self.assertRaisesRegex(TypeError, "configuration .* masked array"):
            self.law(masked[:3])
        with self.assertRaisesRegex(TypeError, "states .* masked array"):
            call("enumerate_gauge_invariant", DATA, masked)

    def test_strides(self):
        np = self.np
        self.assertEqual(self.law(np.array([1, 5, -1, 5, 1], "int32")[::2]), 1)
        self.assertEqual(self.law(np.array([1, 1, -1], "int32")[::-1]), 0)
        with self.assertRaisesRegex(ValueError, "configuration must be a list in one dimension, not in 2"):
            self.law(np.array([[1, -1, 1]], "int32"))
        for wrong in (np.zeros(18, "int32")[::2], np.zeros((3, 3), "int32").T, np.zeros((3, 3), "int32", order="F")):
            with self.assertRaisesRegex(TypeError, "states is written, and the buffer has gaps"):
                call("enumerate_gauge_invariant", DATA, wrong)
        square = np.zeros((3, 3), "int32")
        self.assertEqual(call("enumerate_gauge_invariant", DATA, square), 3)
        self.assertEqual(square.tolist(), [[-1, 1, -1], [0, 0, 0], [1, -1, 1]])

    def test_written(self):
        np = self.np
        for kind in ("uint32", "int64", "float32", ">i4", "bool", "object"):
            with self.subTest(kind=kind), self.assertRaisesRegex(TypeError, "states must hold i32"):
                call("enumerate_gauge_invariant", DATA, np.zeros(9, kind))
        kept = np.zeros(9, "int32")
        kept.flags.writeable = False
        with self.assertRaisesRegex(TypeError, "can only be read"):
            call("enumerate_gauge_invariant", DATA, kept)
        self.assertEqual(call("enumerate_gauge_invariant", DATA, np.zeros(9, "<i4")), 3)

    def test_overlaps(self):
        np = self.np
        room = np.zeros(12, "int32")
        with self.assertRaisesRegex(ValueError, "states and configuration overlap|configuration and states overlap"):
            call("config_to_index", DATA, room[:3], room[2:11])
        self.assertEqual(call("config_to_index", DATA, room[9:], room[:9]), 1)
        both = np.zeros(9)
        with self.assertRaisesRegex(ValueError, "overlap"):
            call("hamiltonian_matvec", DATA, *COUPLING, False, [], both[:3], ints(9), both[2:5])


def numbers_around(item):
    """Whole numbers at and past the ends of what the library takes, and what is no number at all."""
    return [0, 1, 2, 3, 5, -1, item.low, item.high, item.high + 1, item.low - 1, 1.5, True, None, "1"]


FLOATS = [0.0, 1.0, 0.5, -1.0, 2, 2.0**33, float("nan"), float("inf"), 2**53 + 1, False, None, "1.0"]
LENGTHS = [0, 1, 2, 3, 4, 5, 6, 9, 10, 20, 36, 126, 768]

# The samples that are refused, as they are answered.
ANSWERED = {
    "config_to_index_finding": lambda: (DATA, [1, -1, 1], ints(9), masks(1), array("q", [77]), masks(1)),
    "apply_shift_finding": lambda: (DATA, [1, -1, 0], 2, 1, ints(9), ints(3), masks(1), array("q", [77]), masks(1)),
}


class Misuse(unittest.TestCase):
    """The samples with one argument spoiled, or none. Each list lies in a room of its own, whose other bytes must stay."""

    def laid(self, draw, parameter, numbers, rooms):
        """The list of a sample in a room. One that is written is sometimes longer than it must be."""
        data = array(parameter.item.letter, numbers).tobytes()
        if parameter.kind == "written" and draw.random() < 0.5:
            data += bytes(draw.randrange(4) * parameter.item.size)
        room = bytearray(draw.randbytes(64) + data + draw.randbytes(64))
        rooms.append((room, 64, 64 + len(data), parameter.kind != "read"))
        return memoryview(room)[64 : 64 + len(data)].cast(parameter.item.letter)

    def lent(self, draw, parameter, rooms):
        """A view into a room. Sometimes of other items, with gaps, in an odd place, of what may only be read, or of another list's room."""
        size = parameter.item.size
        room = bytearray(draw.randbytes(64)) * ((draw.choice(LENGTHS) * size + 256) // 64 + 1)
        if rooms and draw.random() < 0.3:
            room = draw.choice(rooms)[0]
        start = 64 + (draw.randrange(8) if draw.random() < 0.1 else 0)
        length = min(draw.choice(LENGTHS), (len(room) - start - 64) // size)
        letter = draw.choice("bBiIqQdf") if draw.random() < 0.2 else parameter.item.letter
        end = start + length * size
        end -= (end - start) % array(letter).itemsize
        rooms.append((room, start, end, parameter.kind != "read"))
        view = memoryview(room)[start:end].cast(letter)
        return view[::2] if draw.random() < 0.05 else view.toreadonly() if draw.random() < 0.05 else view

    def spoiled(self, draw, parameter, rooms):
        if parameter.kind == "bool":
            return draw.choice([True, False, 2, 1, None])
        if parameter.kind == "number":
            return draw.choice(FLOATS if parameter.item.name == "f64" else numbers_around(parameter.item))
        if parameter.kind == "read" and draw.random() < 0.5:
            return [draw.choice(FLOATS if parameter.item.name == "f64" else [0, 1, 2, -1]) for _ in range(draw.choice(LENGTHS[:8]))]
        return self.lent(draw, parameter, rooms)

    def arguments(self, draw, entry, rooms):
        made = ANSWERED.get(entry.name, SAMPLES[entry.name][0])()
        given = [
            argument if parameter.kind in ("number", "bool") else self.laid(draw, parameter, argument, rooms)
            for parameter, argument in zip(entry.parameters, made)
        ]
        place = draw.randrange(len(given) + 2)
        if place < len(given):
            given[place] = self.spoiled(draw, entry.parameters[place], rooms)
        return given

    def hold(self, rooms, before, answered):
        """Whether all bytes stayed but those of written lists, and these too where the call refused and tells no finding."""
        for (room, _, _, _), old in zip(rooms, before):
            kept = bytearray(room)
            for other, start, end, written in rooms:
                if other is room and written and (answered is not None and (answered >= 0 or answered == -17)):
                    kept[start:end] = old[start:end]
            if kept != old:
                return False
        return True

    def test_random_arguments(self):
        draw, told = random.Random(20261127), {name: set() for name in CALLS}
        for turn in range(200 * len(CALLS)):
            entry = list(CALLS.values())[turn % len(CALLS)]
            rooms, answered = [], None
            arguments = self.arguments(draw, entry, rooms)
            before = [bytes(room) for room, _, _, _ in rooms]
            try:
                answered = call(entry.name, *arguments)
                told[entry.name].add("refused" if answered < 0 else "answered")
            except (TypeError, ValueError, OverflowError) as error:
                told[entry.name].add(type(error).__name__)
            self.assertTrue(self.hold(rooms, before, answered), (entry.name, answered, arguments))
        self.assertEqual(set.union(*told.values()), {"answered", "refused", "TypeError", "ValueError", "OverflowError"})
        self.assertEqual(told.pop("release"), {"answered"})
        self.assertEqual([name for name, kinds in told.items() if not {"answered", "refused"} <= kinds], [])


class Held(unittest.TestCase):
    """Lists that change, move or go while they are judged and used. Each in an interpreter of its own, since it may crash."""

    def test_a_thread_that_changes_a_list(self):
        """It writes columns that are out of range and takes them back. A call sees the ones or the others from begin to end."""
        told = printed_apart(
            self,
            "import threading, time\n"
            "from array import array\n"
            "from zibrotka.calls import call\n"
            "n = 2_000_000\n"
            "starts, columns, ones, result = array('I', range(n + 1)), array('I', bytes(4 * n)), array('d', [1.0]) * n, array('d', [0.0]) * n\n"
            "good, bad = array('I', [0]) * 1000, array('I', [0xFFFFFFF0]) * 1000\n"
            "def scribble():\n"
            "    while True:\n"
            "        columns[n - 1000:] = bad\n"
            "        columns[n - 1000:] = good\n"
            "threading.Thread(target=scribble, daemon=True).start()\n"
            "end, told = time.monotonic() + 1.5, set()\n"
            "while time.monotonic() < end:\n"
            "    told.add(call('matvec', starts, columns, ones, ones, result))\n"
            "print(told <= {0, -13}, len(told) > 0)\n",
        )
        self.assertEqual(told.split(), ["True", "True"])

    def test_other_threads_wait(self):
        """A thread that counts whenever Python runs it does not count during a call."""
        data, counted, ended = shipped("chain.gls").to_bytes(), [0], []

        def count():
            while not ended:
                counted[0] += 1
                time.sleep(0.0001)

        interval = sys.getswitchinterval()
        thread = threading.Thread(target=count)
        thread.start()
        try:
            sys.setswitchinterval(100)
            while counted[0] < 3:
                time.sleep(0.001)
            before = counted[0]
            started = time.monotonic()
            call("count_entries", data)
            lasted, after = time.monotonic() - started, counted[0]
        finally:
            sys.setswitchinterval(interval)
            ended.append(True)
            thread.join()
        self.assertGreater(lasted, 0.005)
        # It may have its turn right before the call and right behind it. If it ran meanwhile it would count some ten times and more.
        self.assertLess(after - before, 3)

    INDEX = (
        "from array import array\n"
        "from common import complete\n"
        "from zibrotka.calls import call\n"
        "class Index:\n"
        "    def __index__(self):\n"
        "        change()\n"
        "        return 0\n"
        "n = 2**15\n"
        "def along(vector):\n"
        "    told = array('d', [0])\n"
        "    return call('su2_wilson_loop', complete(7, 1).to_bytes(), vector, [Index()], array('Q', bytes(8 * n)), told), told[0]\n"
    )

    def test_an_index_that_moves_a_ctypes_list(self):
        """The list goes to another place after it was given, and is used where it lies then."""
        told = printed_apart(
            self,
            self.INDEX + "import ctypes\n"
            "given = (ctypes.c_double * n)()\n"
            "first, between = ctypes.addressof(given), []\n"
            "def change():\n"
            "    times = 1\n"
            "    while ctypes.addressof(given) == first and times < 4096:\n"
            "        between.append((ctypes.c_double * n)())\n"
            "        times *= 2\n"
            "        ctypes.resize(given, 8 * n * times)\n"
            "    ctypes.resize(given, 8 * n)\n"
            "    given[0] = 2.0\n"
            "print(along(given), ctypes.addressof(given) != first)\n",
        )
        self.assertEqual(told, "(0, 4.0) True\n")

    @needs("NumPy", "an index that moves a NumPy array")
    def test_an_index_that_moves_an_array(self):
        told = printed_apart(
            self,
            self.INDEX + "import numpy\n"
            "def change(): given.resize(3, refcheck=False)\n"
            "given = numpy.zeros(5_000_001, 'uint32'); given[-1] = 1\n"
            "print(call('matvec', given, [Index()], [1.0], numpy.zeros(5_000_000), numpy.zeros(5_000_000)))\n"
            "given = numpy.zeros(n)\n"
            "print(along(given))\n"
            "def change(): given.dtype = 'int64'\n"
            "given = numpy.zeros(n)\n"
            "try: along(given)\n"
            "except ValueError as error: print(error)\n",
        )
        self.assertEqual(told.splitlines(), ["0", "(-12, 0.0)", "vector was changed while another argument was judged"])


class Threads(unittest.TestCase):
    def test_many_at_once(self):
        """Each thread lends lists of its own, and all must get the same answers."""
        sheets = [complete(4, truncation).to_bytes() for truncation in (1, 2, 3, 4)]
        counts = [call("count_states", sheet) for sheet in sheets]
        wanted = []
        for sheet, count in zip(sheets, counts):
            states = ints(6 * count)
            call("enumerate_gauge_invariant", sheet, states)
            wanted.append(states.tobytes())
        wrong = []

        def work(turn):
            for step in range(40):
                at = (turn + step) % 4
                states = ints(6 * counts[at])
                if call("enumerate_gauge_invariant", sheets[at], states) != counts[at] or states.tobytes() != wanted[at]:
                    wrong.append((turn, step))

        threads = [threading.Thread(target=work, args=(turn,)) for turn in range(8)]
        for thread in threads:
            thread.start()
        for thread in threads:
            thread.join()
        self.assertEqual((wrong, counts[0], len(set(wanted))), ([], 15, 4))


if __name__ == "__main__":
    unittest.main()
