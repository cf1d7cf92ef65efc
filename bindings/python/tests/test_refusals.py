"""Every refusal reached, its sentence, what is left as it was, and the findings of 17."""

import copy
import os
import pickle
import re
import struct
import unittest
from array import array

from common import ROOT, SHEETS, TRIANGLE, Plain, nested, shipped

from zibrotka import BreaksLaw, NotInBasis, OutsideBand, Refused, Sheet, refusal_text
from zibrotka.calls import CALLS, answer, call

DATA = TRIANGLE.to_bytes()
COUPLING = (1.0, 0.5, -1.0)
APART = b"GLS" + bytes([1, 0, 4, 2, 0, 0, 1, 0, 0, 1, 2, 3])


def documented():
    """The sentences of docs/REFUSALS.md by number."""
    with open(os.path.join(ROOT, "docs", "REFUSALS.md"), encoding="utf-8") as page:
        return {int(number): sentence for number, sentence in re.findall(r"^\| (\d+) \| (.+) \|$", page.read(), re.M)}


def changed(place, value):
    return DATA[:place] + bytes([value]) + DATA[place + 1 :]


def short_list():
    answer("enumerate_gauge_invariant", DATA, array("i", [0] * 8))


# How each refusal is reached through the methods of a sheet; only a list that is too short has to be lent by hand.
REACHED = {
    1: [lambda: Sheet.from_bytes(b""), lambda: Sheet.from_bytes(DATA[:10])],
    2: [lambda: Sheet.from_bytes(changed(0, 0))],
    3: [lambda: Sheet.from_bytes(changed(3, 2))],
    4: [
        lambda: Sheet.from_edges(0, [], [], 1),
        lambda: Sheet.from_edges(2**64 - 1, [], [], 1),
        lambda: Sheet.from_edges(64, [(0, 1)] * 64, [], 1),
        lambda: Sheet.from_edges(64, [], [(0, 1, 2)] * 257, 1),
        lambda: Sheet.read(os.path.join(SHEETS, "65-vertices.gls")),
        lambda: Sheet.from_pentachora(65, [], 1),
    ],
    5: [lambda: Sheet.from_edges(1, [], [], 1001), lambda: Sheet.from_pentachora(1, [], 2**64 - 1)],
    6: [lambda: Sheet.from_bytes(DATA + b"\0"), lambda: Sheet.from_bytes(DATA + bytes(10**6)), lambda: Sheet.from_bytes(DATA[:-1])],
    7: [lambda: Sheet.from_edges(2, [(1, 0)], [], 1), lambda: Sheet.from_edges(2, [(0, 1)] * 2, [], 1), lambda: Sheet.from_edges(2, [(0, 2)], [], 1)],
    8: [lambda: Sheet.from_edges(3, [(0, 1), (0, 2)], [(0, 1, 2)], 1)],
    9: [lambda: Sheet.from_bytes(APART), lambda: Sheet.from_pentachora(6, [(0, 1, 2, 3, 4)], 1)],
    10: [
        lambda: shipped("two-free-edges-512.gls").count_states(),
        lambda: shipped("two-free-edges-512.gls").states(),
        lambda: shipped("two-free-edges-512.gls").hamiltonian(float("nan")),
    ],
    11: [lambda: Sheet.from_pentachora(5, [(0, 0, 1, 2, 3)], 1), lambda: Sheet.from_pentachora(5, [(0, 1, 2, 3, 5)], 1)],
    12: [
        lambda: TRIANGLE.config_to_index([0, 0]),
        lambda: TRIANGLE.check_gauss_law([0] * 4),
        lambda: TRIANGLE.hamiltonian(1.0, []),
        lambda: TRIANGLE.hamiltonian(0.0, [1.0, 1.0]),
        lambda: TRIANGLE.matvec(1.0, [1.0]),
        lambda: TRIANGLE.su2_wilson([9], []),
        lambda: TRIANGLE.csr(1.0).matvec([1.0, 2.0]),
    ],
    13: [
        lambda: TRIANGLE.tri_edge_indices(1),
        lambda: TRIANGLE.apply_shift([0, 0, 0], 3, 1),
        lambda: TRIANGLE.apply_triangle_shift(0, 3),
        lambda: TRIANGLE.wilson([(0, 0)], [1, 2, 3]),
        lambda: TRIANGLE.wilson([(3, 1)], [1, 2, 3]),
        lambda: refusal_text(0),
        lambda: refusal_text(18),
    ],
    14: [
        lambda: TRIANGLE.hamiltonian(0.0),
        lambda: TRIANGLE.su2_hamiltonian(float("nan")),
        lambda: TRIANGLE.csr(float("inf")),
        lambda: TRIANGLE.su2_csr(-1.0),
        lambda: TRIANGLE.hamiltonian(1.0, [float("nan")]),
        lambda: TRIANGLE.matvec(1.0, [1.0, float("-inf"), 1.0]),
        lambda: TRIANGLE.su2_matvec(1.0, [1.0, 2.0**33]),
    ],
    15: [short_list],
    16: [lambda: TRIANGLE.apply_triangle_shift(0, 2), lambda: TRIANGLE.apply_shift([1, -1, 1], 0, 1)],
    17: [lambda: TRIANGLE.config_to_index([3, 0, -2]), lambda: TRIANGLE.apply_shift([0, 0, 0], 2, 1)],
}


class Reached(unittest.TestCase):
    def test_all_are_reached(self):
        sentences = documented()
        self.assertEqual(sorted(sentences), list(range(1, 18)))
        self.assertEqual(sorted(REACHED), list(range(1, 18)))
        for number, ways in REACHED.items():
            for place, way in enumerate(ways):
                with self.subTest(number=number, way=place):
                    with self.assertRaises(Refused) as raised:
                        way()
                    self.assertEqual((raised.exception.number, raised.exception.sentence), (number, sentences[number]))
                    why = raised.exception.finding if number == 17 else sentences[number]
                    self.assertEqual(str(raised.exception), f"refused {number}: {why}")

    def test_sentences(self):
        self.assertEqual({number: refusal_text(number) for number in range(1, 18)}, documented())

    def test_it_is_a_value_error(self):
        with self.assertRaisesRegex(ValueError, "^refused 12: a list does not have the length that it must have$"):
            TRIANGLE.config_to_index([0, 0])

    def test_pickles_and_copies(self):
        for error in (Refused(12, "a sentence"), NotInBasis(17, "another", BreaksLaw(1, -2)), NotInBasis(17, "another", OutsideBand(3, 1))):
            for other in (pickle.loads(pickle.dumps(error)), copy.copy(error), copy.deepcopy(error)):
                self.assertEqual((type(other), str(other), other.args, vars(other)), (type(error), str(error), error.args, vars(error)))


class ReachedPlain(Plain, Reached):
    pass


class Findings(unittest.TestCase):
    def finding(self, way):
        with self.assertRaises(NotInBasis) as raised:
            way()
        self.assertEqual(raised.exception.number, 17)
        self.assertEqual(str(raised.exception), f"refused 17: {raised.exception.finding}")
        return raised.exception.finding

    def test_of_a_place(self):
        with self.assertRaisesRegex(NotInBasis, "^refused 17: vertex 0 breaks the law, its sum is -3$"):
            TRIANGLE.config_to_index([3, 0, -2])
        found = self.finding(lambda: TRIANGLE.config_to_index([3, 0, -2]))
        self.assertEqual((found, type(found), str(found)), ((0, -3), BreaksLaw, "vertex 0 breaks the law, its sum is -3"))
        found = self.finding(lambda: TRIANGLE.config_to_index([2, -2, 2]))
        self.assertEqual((found, type(found), str(found)), ((0, 1), OutsideBand, "edge 0 is outside -1 to 1"))
        tetrahedron = shipped("tetrahedron.gls")
        self.assertEqual(self.finding(lambda: tetrahedron.config_to_index([1, -1, 0, 3, -2, 2])), OutsideBand(3, 1))
        self.assertEqual(self.finding(lambda: TRIANGLE.config_to_index([0, 0, 2**31 - 1])), BreaksLaw(1, 1 - 2**31))

    def test_of_a_shift(self):
        found = self.finding(lambda: TRIANGLE.apply_shift([0, 0, 0], 2, 1))
        self.assertEqual((found, type(found)), ((1, -1), BreaksLaw))
        tetrahedron = shipped("tetrahedron.gls")
        found = self.finding(lambda: tetrahedron.apply_shift([0, -1, 0, 3, -2, 2], 0, 1))
        self.assertEqual((found, type(found)), ((3, 1), OutsideBand))

    def test_truncation_0(self):
        flat = Sheet.from_edges(3, [(0, 1), (0, 2), (1, 2)], [], 0)
        self.assertEqual(str(self.finding(lambda: flat.config_to_index([1, -1, 1]))), "edge 0 is outside -0 to 0")

    def test_of_the_law(self):
        self.assertIsNone(TRIANGLE.check_gauss_law([5, -5, 5]))
        self.assertEqual(TRIANGLE.check_gauss_law([3, 0, -2]), BreaksLaw(0, -3))
        self.assertEqual(TRIANGLE.check_gauss_law([-(2**31)] * 3), BreaksLaw(0, 2**32))


class FindingsPlain(Plain, Findings):
    pass


def filled(code, length):
    """A list with bytes of all kinds; of floats with NaNs that are not those of the machine."""
    size = array(code).itemsize
    numbers = array(code)
    numbers.frombytes(struct.pack("<Q", 0x7FF4DEADBEEF1234)[:size] * length if code == "d" else bytes(i % 251 + 1 for i in range(size * length)))
    return numbers


# Calls that are refused, with full-sized lists to be written: (call, arguments, the refusal).
UNCHANGED = [
    ("make_sheet", (3, [0, 1], [], 1, filled("B", 905)), 9),
    ("make_sheet", (3, [0, 1, 0, 2], [], 1, filled("B", 14)), 15),
    ("read_sheet", (b"", *[filled("Q", 1) for _ in range(4)], filled("B", 126), filled("B", 768)), 1),
    ("read_sheet", (APART, *[filled("Q", 1) for _ in range(4)], filled("B", 126), filled("B", 768)), 9),
    ("tri_edge_indices", (DATA, 1, filled("Q", 3)), 13),
    ("from_pentachorons", (5, [0, 1, 2, 3, 3], filled("B", 126), filled("B", 768), filled("Q", 1)), 11),
    ("spanning_tree", (DATA, filled("I", 2), filled("I", 0)), 15),
    ("fundamental_loops", (DATA, filled("I", 2), filled("B", 3), filled("b", 2)), 15),
    ("su2_fundamental_loops", (DATA, filled("I", 1), filled("B", 3)), 15),
    ("check_gauss_law_finding", (DATA, [0, 0], filled("Q", 1), filled("q", 1)), 12),
    ("enumerate_gauge_invariant", (DATA, filled("i", 8)), 15),
    ("config_to_index", (DATA, [1, 1, 1], filled("i", 9)), 17),
    ("config_to_index_finding", (DATA, [1, 1], filled("i", 9), filled("Q", 1), filled("q", 1), filled("Q", 1)), 12),
    ("apply_shift", (DATA, [0, 0, 0], 2, 1, filled("i", 9), filled("i", 3)), 17),
    ("apply_shift_finding", (DATA, [0, 0, 0], 2, 2, filled("i", 9), filled("i", 3), filled("Q", 1), filled("q", 1), filled("Q", 1)), 16),
    ("apply_triangle_shift", (DATA, 0, 2, filled("i", 9)), 16),
    ("su2_basis", (DATA, filled("Q", 1)), 15),
    ("u1_params", (float("nan"), filled("d", 3)), 14),
    ("su2_params", (0.0, filled("d", 3)), 14),
    ("build_hamiltonian", (DATA, *COUPLING, False, [], filled("i", 9), filled("d", 8)), 15),
    ("build_hamiltonian", (DATA, 1.0, 0.375, -0.5, False, [], filled("i", 9), filled("d", 9)), 14),
    ("build_su2_hamiltonian", (DATA, *COUPLING, False, [], filled("Q", 2), filled("d", 4)), 14),
    ("build_csr", (DATA, *COUPLING, True, [], filled("i", 9), filled("I", 4), filled("I", 6), filled("d", 6)), 12),
    ("build_csr_su2", (DATA, 1.0, 0.375, -0.5, False, [], filled("Q", 2), filled("I", 3), filled("I", 3), filled("d", 2)), 15),
    ("matvec", ([0, 1], [1], [1.0], [1.0], filled("d", 1)), 13),
    ("hamiltonian_matvec", (DATA, *COUPLING, False, [], [1.0, 2.0], filled("i", 9), filled("d", 3)), 12),
    ("electric_field_sq", (DATA, [1.0, 2.0, float("nan")], filled("i", 9), filled("d", 3)), 14),
    ("wilson_loop", (DATA, [1.0, 2.0, 3.0], [0], [], filled("i", 9), filled("d", 1)), 12),
    ("su2_hamiltonian_matvec", (DATA, *COUPLING, False, [], [1.0, 2.0], filled("Q", 2), filled("d", 2)), 14),
    ("su2_wilson_loop", (DATA, [1.0, 2.0], [3], filled("Q", 2), filled("d", 1)), 13),
    ("su2_wilson_passes", (DATA, [1.0, 2.0], [], filled("Q", 1), filled("d", 1)), 15),
    ("refusal_text", (12, filled("B", 10)), 15),
]


class Unchanged(unittest.TestCase):
    def test_a_refusal_leaves_lists_as_they_were(self):
        for name, arguments, number in UNCHANGED:
            with self.subTest(name=name, number=number):
                before = [argument.tobytes() if isinstance(argument, array) else argument for argument in arguments]
                self.assertEqual(call(name, *arguments), -number)
                after = [argument.tobytes() if isinstance(argument, array) else argument for argument in arguments]
                self.assertEqual(repr(before), repr(after))

    def test_every_call_that_writes_is_among_them(self):
        writing = {name for name, entry in CALLS.items() if any(parameter.kind in ("written", "lent") for parameter in entry.parameters)}
        self.assertEqual({name for name, _, _ in UNCHANGED}, writing)

    def test_beside_17_only_the_three_numbers_are_written(self):
        states, vertex, excess, edge = filled("i", 9), filled("Q", 1), filled("q", 1), filled("Q", 1)
        self.assertEqual(call("config_to_index_finding", DATA, [3, 0, -2], states, vertex, excess, edge), -17)
        self.assertEqual((states, edge), (filled("i", 9), filled("Q", 1)))
        self.assertEqual((vertex[0], excess[0]), (0, -3))

    def test_what_lies_behind_a_result_stays(self):
        states = filled("i", 12)
        self.assertEqual(call("enumerate_gauge_invariant", DATA, states), 3)
        self.assertEqual(states[9:], filled("i", 12)[9:])
        self.assertEqual(nested(states)[:9], [-1, 1, -1, 0, 0, 0, 1, -1, 1])


if __name__ == "__main__":
    unittest.main()
