"""Sheets: the triangle's values in both kinds of lists, files, wrong shapes, and counts that no machine holds."""

import copy
import ctypes
import fcntl
import itertools
import os
import pickle
import stat
import tempfile
import termios
import threading
import time
import unittest
from array import array
from pathlib import Path
from unittest import mock

from common import SHEETS, TRIANGLE, Plain, complete, needs, nested, printed_apart, run_apart, shipped

import zibrotka
from zibrotka import Refused, RowLists, Sheet, room


class Triangle(unittest.TestCase):
    """The example of README.md."""

    def test_the_complex(self):
        self.assertEqual((TRIANGLE.n_vertices, TRIANGLE.truncation), (3, 1))
        self.assertEqual((TRIANGLE.edges, TRIANGLE.triangles), (((0, 1), (0, 2), (1, 2)), ((0, 1, 2),)))
        self.assertEqual(TRIANGLE.to_bytes(), bytes.fromhex("474C53 0100 03 03 0100 0100 0001 0002 0102 000102"))
        self.assertEqual(TRIANGLE, shipped("triangle.gls"))
        self.assertEqual(TRIANGLE.tri_edge_indices(0), (0, 1, 2))
        self.assertEqual(tuple(TRIANGLE.spanning_tree()), ([0, 1], [2]))
        self.assertEqual(TRIANGLE.loops(), [[(0, -1), (1, 1), (2, -1)]])
        self.assertEqual(TRIANGLE.su2_loops(), [[0, 1, 2]])

    def test_states(self):
        self.assertEqual(nested(TRIANGLE.states()), [[-1, 1, -1], [0, 0, 0], [1, -1, 1]])
        self.assertEqual(nested(TRIANGLE.su2_states()), [0, 7])
        self.assertEqual((TRIANGLE.count_states(), TRIANGLE.su2_count_states()), (3, 2))
        self.assertEqual((TRIANGLE.count_entries(), TRIANGLE.su2_count_entries()), (6, 3))
        for place, state in enumerate(TRIANGLE.states()):
            self.assertEqual(TRIANGLE.config_to_index(state), place)
            self.assertIsNone(TRIANGLE.check_gauss_law(state))

    def test_shifts(self):
        place, shifted = TRIANGLE.apply_shift([1, -1, 0], 2, 1)
        self.assertEqual((place, nested(shifted)), (2, [1, -1, 1]))
        self.assertEqual([TRIANGLE.apply_triangle_shift(0, place) for place in (0, 1)], [1, 2])

    def test_matrices(self):
        self.assertEqual(nested(TRIANGLE.hamiltonian(1.0)), [[1.5, -0.5, 0], [-0.5, 0, -0.5], [0, -0.5, 1.5]])
        self.assertEqual(nested(TRIANGLE.hamiltonian(1, [2])), [[1.5, -1, 0], [-1, 0, -1], [0, -1, 1.5]])
        self.assertEqual(nested(TRIANGLE.su2_hamiltonian(1.0)), [[0, -0.5], [-0.5, 1.125]])
        self.assertEqual(nested(TRIANGLE.su2_hamiltonian(1.0, (0.5,))), [[0, -0.25], [-0.25, 1.125]])
        rows = TRIANGLE.csr(1.0)
        self.assertEqual((list(rows.starts), list(rows.columns)), ([0, 2, 4, 6], [0, 1, 0, 2, 1, 2]))
        self.assertEqual(list(rows.values), [1.5, -0.5, -0.5, -0.5, -0.5, 1.5])
        self.assertEqual(nested(rows.matvec([1, 2, 3])), [0.5, -2, 3.5])
        self.assertEqual(nested(TRIANGLE.matvec(1.0, [1, 2, 3])), [0.5, -2, 3.5])
        self.assertEqual(nested(TRIANGLE.matvec(1.0, [1, 2, 3], [2])), [-0.5, -4, 2.5])
        self.assertEqual(nested(TRIANGLE.su2_matvec(1.0, [3, 5])), [-2.5, 4.125])
        self.assertEqual(nested(TRIANGLE.su2_csr(1.0).matvec([3, 5])), [-2.5, 4.125])

    def test_expectations(self):
        self.assertEqual(nested(TRIANGLE.electric_field_sq([1, 2, 3])), [10, 10, 10])
        self.assertEqual(TRIANGLE.wilson(TRIANGLE.loops()[0], [1, 2, 3]), 8)
        self.assertEqual(TRIANGLE.wilson([(0, 1), (0, -1)], [1, 2, 3]), 5)
        self.assertEqual(TRIANGLE.su2_wilson(TRIANGLE.su2_loops()[0], [3, 5]), -16)
        self.assertEqual((TRIANGLE.su2_wilson([0, 0], [3, 5]), TRIANGLE.su2_wilson_passes([0, 0], [3, 5])), (-16, 34))
        self.assertIs(type(TRIANGLE.wilson([], [1, 2, 3])), float)

    def test_free_functions(self):
        self.assertEqual(zibrotka.u1_params(3.0), (3.0, 1.5, -1 / 3))
        self.assertEqual(zibrotka.su2_params(3.0), (3.0, 1.125, -0.5 / 3))
        self.assertEqual((zibrotka.release(), zibrotka.__version__), (10000, "1.0.0"))

    def test_what_comes_out_goes_in(self):
        for state in TRIANGLE.states():
            self.assertEqual(len(state), 3)
        product = TRIANGLE.matvec(1.0, TRIANGLE.matvec(1.0, [1, 2, 3]))
        self.assertEqual(nested(product), [1.75, -2, 6.25])

    def test_no_edges(self):
        one = shipped("one-vertex.gls")
        self.assertEqual((nested(one.states()), one.config_to_index([]), nested(one.hamiltonian(1.0))), ([[]], 0, [[0.0]]))
        self.assertEqual((one.loops(), tuple(one.spanning_tree()), nested(one.electric_field_sq([1]))), ([], ([], []), []))
        self.assertEqual(list(one.csr(1.0)), [[]])
        self.assertEqual(one.wilson([], [2.0]), 4.0)

    def test_pentachora(self):
        self.assertEqual(Sheet.from_pentachora(5, [(4, 3, 2, 1, 0)], 2), complete(5, 2))
        self.assertEqual(Sheet.from_pentachora(5, [(4, 3, 2, 1, 0)], 2), shipped("five-vertices.gls"))
        two = Sheet.from_pentachora(6, [(0, 1, 2, 3, 4), (1, 2, 3, 4, 5)], 0)
        self.assertEqual((len(two.edges), len(two.triangles)), (14, 16))


class TrianglePlain(Plain, Triangle):
    def test_kinds(self):
        self.assertEqual(type(TRIANGLE.states()), list)
        self.assertEqual(type(TRIANGLE.states()[0]), list)
        self.assertEqual({type(x) for row in TRIANGLE.hamiltonian(1.0) for x in row}, {float})
        self.assertEqual({type(x) for x in TRIANGLE.su2_states()}, {int})


@needs("NumPy", "results as NumPy arrays")
class NumPyResults(unittest.TestCase):
    def test_kinds(self):
        told = {
            "states": (TRIANGLE.states(), "int32", (3, 3)),
            "su2_states": (TRIANGLE.su2_states(), "uint64", (2,)),
            "hamiltonian": (TRIANGLE.hamiltonian(1.0), "float64", (3, 3)),
            "starts": (TRIANGLE.csr(1.0).starts, "uint32", (4,)),
            "columns": (TRIANGLE.csr(1.0).columns, "uint32", (6,)),
            "values": (TRIANGLE.csr(1.0).values, "float64", (6,)),
            "matvec": (TRIANGLE.matvec(1.0, [1, 2, 3]), "float64", (3,)),
            "shifted": (TRIANGLE.apply_shift([1, -1, 0], 2, 1)[1], "int32", (3,)),
        }
        for name, (numbers, kind, shape) in told.items():
            with self.subTest(name):
                self.assertEqual((str(numbers.dtype), numbers.shape), (kind, shape))

    def test_arrays_of_edges(self):
        import numpy

        sheet = Sheet.from_edges(numpy.int64(3), numpy.array([[0, 1], [0, 2], [1, 2]]), numpy.array([[0, 1, 2]], "uint8"), numpy.uint8(1))
        self.assertEqual(sheet, TRIANGLE)
        self.assertEqual(TRIANGLE.wilson(numpy.array(TRIANGLE.loops()[0]), numpy.array([1, 2, 3])), 8)
        self.assertEqual(TRIANGLE.su2_wilson(numpy.array([0, 1, 2]), numpy.array([3, 5], "float32")), -16)
        self.assertEqual(Sheet.from_bytes(numpy.frombuffer(TRIANGLE.to_bytes(), "uint8")), TRIANGLE)
        with self.assertRaisesRegex(TypeError, r"edges\[0\]\[0\] must be a whole number"):
            Sheet.from_edges(3, numpy.array([[0.0, 1.0]]), [], 1)


class Value(unittest.TestCase):
    def test_equality(self):
        same = Sheet.from_bytes(bytearray(TRIANGLE.to_bytes()))
        self.assertEqual((same == TRIANGLE, same != TRIANGLE, hash(same) == hash(TRIANGLE)), (True, False, True))
        self.assertNotEqual(TRIANGLE, complete(3, 2))
        self.assertNotEqual(TRIANGLE, TRIANGLE.to_bytes())
        self.assertEqual(len({TRIANGLE, same, complete(3, 2)}), 2)

    def test_it_cannot_be_changed(self):
        with self.assertRaisesRegex(AttributeError, "truncation cannot be set"):
            TRIANGLE.truncation = 2
        with self.assertRaisesRegex(AttributeError, "other cannot be set"):
            TRIANGLE.other = 2
        with self.assertRaisesRegex(AttributeError, "edges cannot be taken away"):
            del TRIANGLE.edges
        TRIANGLE.__init__(complete(4, 2).to_bytes())
        self.assertEqual((TRIANGLE.truncation, TRIANGLE.to_bytes()), (1, shipped("triangle.gls").to_bytes()))
        data = bytearray(TRIANGLE.to_bytes())
        sheet = Sheet.from_bytes(data)
        data[9] = 9
        self.assertEqual((sheet, type(sheet.to_bytes())), (TRIANGLE, bytes))

    def test_pickles_and_copies(self):
        for other in (pickle.loads(pickle.dumps(TRIANGLE)), copy.copy(TRIANGLE), copy.deepcopy(TRIANGLE)):
            self.assertEqual((other, other.edges), (TRIANGLE, TRIANGLE.edges))
        rows = pickle.loads(pickle.dumps(TRIANGLE.csr(1.0)))
        self.assertEqual(list(rows), list(TRIANGLE.csr(1.0)))

    def test_what_is_no_bytes(self):
        for wrong in (5, "GLS", None, [71, 76, 83], memoryview(bytes(12)).cast("I")):
            with self.subTest(wrong=wrong), self.assertRaisesRegex(TypeError, "a sheet is made of bytes"):
                Sheet.from_bytes(wrong)

    def test_bytes_of_all_kinds(self):
        data = TRIANGLE.to_bytes()
        spread = bytes(2).join(data[place : place + 1] for place in range(20))
        for kind in (bytearray(data), array("B", data), (ctypes.c_uint8 * 20)(*data), memoryview(spread)[::3]):
            with self.subTest(kind=kind):
                self.assertEqual(Sheet.from_bytes(kind), TRIANGLE)

    def test_buffers_are_let_go(self):
        """Also while the exception lives, an array can grow."""
        for given in (array("i", [1, 2, 3]), array("B", [1, 2, 3])):
            try:
                Sheet(given)
            except (TypeError, Refused) as error:
                given.append(4)
                self.assertIsNotNone(error.__traceback__)
            self.assertEqual(len(given), 4)


class Shapes(unittest.TestCase):
    def raises(self, error, text, way, *arguments):
        with self.subTest(text=text), self.assertRaisesRegex(error, text):
            way(*arguments)

    def test_edges_and_triangles(self):
        make = Sheet.from_edges
        self.raises(ValueError, r"edges\[1\] must have 2 numbers, and has more", make, 3, [(0, 1), (0, 1, 2)], [], 1)
        self.raises(ValueError, r"triangles\[0\] must have 3 numbers, and has 2", make, 3, [(0, 1)], [(0, 1)], 1)
        self.raises(TypeError, r"edges\[0\] must have 2 numbers, and is 0", make, 3, [0, 1], [], 1)
        self.raises(TypeError, r"edges\[0\]\[1\] must be a whole number, not 1.0", make, 3, [(0, 1.0)], [], 1)
        self.raises(TypeError, r"edges\[0\]\[0\] must be a whole number, not True", make, 3, [(True, 2)], [], 1)
        self.raises(TypeError, r"edges\[0\]\[0\] must be a whole number, not 'a'", make, 3, ["ab"], [], 1)
        self.raises(OverflowError, r"edges\[0\]\[1\] must be a whole number from 0 to 255, not 256", make, 3, [(0, 256)], [], 1)
        self.raises(OverflowError, r"triangles\[0\]\[2\] .* not -1", make, 3, [(0, 1)], [(0, 1, -1)], 1)
        self.raises(OverflowError, "n_vertices must be a whole number from 0", make, -1, [], [], 1)
        self.raises(TypeError, "n_vertices must be a whole number, not 3.0", make, 3.0, [], [], 1)
        self.raises(OverflowError, "truncation must be a whole number from 0", make, 3, [], [], -1)
        self.raises(TypeError, "truncation must be a whole number", make, 3, [], [], "1")
        self.raises(TypeError, "not iterable", make, 3, 5, [], 1)
        self.assertEqual(make(2, iter([[0, 1]]), (), 1).edges, ((0, 1),))

    def test_pentachora(self):
        make = Sheet.from_pentachora
        self.raises(ValueError, r"pentachora\[1\] must have 5 numbers, and has 4", make, 5, [range(5), range(4)], 1)
        self.raises(OverflowError, r"pentachora\[0\]\[0\] must be a whole number from 0 to 18446744073709551615, not -1", make, 5, [range(-1, 4)], 1)

    def test_lists_without_end(self):
        """One entry more than a sheet can have is enough. Of pentachora and steps there may be any number, but not without end."""
        for way in (
            lambda: Sheet.from_edges(64, itertools.repeat((0, 1)), [], 1),
            lambda: Sheet.from_edges(64, [], itertools.repeat((0, 1, 2)), 1),
        ):
            with self.assertRaises(Refused) as raised:
                way()
            self.assertEqual(raised.exception.number, 4)
        self.raises(ValueError, r"edges\[0\] must have 2 numbers, and has more", Sheet.from_edges, 3, [itertools.count()], [], 1)
        told = "does not tell its length, and has more than 1,048,576 entries: give a list"
        self.raises(ValueError, f"pentachora {told}", Sheet.from_pentachora, 5, itertools.repeat(range(5)), 1)
        self.raises(ValueError, f"path {told}", TRIANGLE.wilson, itertools.repeat((0, 1)), [1, 2, 3])
        self.raises(MemoryError, "a copy of path takes", TRIANGLE.wilson, range(10**18), [1, 2, 3])
        self.raises(MemoryError, "pentachora is longer than any list", Sheet.from_pentachora, 5, range(10**20), 1)
        self.assertEqual(Sheet.from_pentachora(5, iter([range(5)] * 1000), 1), Sheet.from_pentachora(5, [range(5)], 1))
        self.assertEqual(TRIANGLE.wilson(iter([(0, 1), (0, -1)] * 1000), [1, 2, 3]), 5)

    def test_long_lists(self):
        """A list that is too long is refused before it is copied: these would take hours and more memory than there is."""
        n = range(10**13)
        for way in (
            lambda: TRIANGLE.matvec(1.0, n), lambda: TRIANGLE.su2_matvec(1.0, n), lambda: TRIANGLE.matvec(1.0, [1, 2, 3], n),
            lambda: TRIANGLE.hamiltonian(1.0, n), lambda: TRIANGLE.su2_csr(1.0, n), lambda: TRIANGLE.electric_field_sq(n),
            lambda: TRIANGLE.wilson([], n), lambda: TRIANGLE.su2_wilson([], n), lambda: TRIANGLE.check_gauss_law(range(10**20)),
            lambda: TRIANGLE.config_to_index(n), lambda: TRIANGLE.apply_shift(n, 0, 1), lambda: RowLists([0, 0], [], []).matvec(n),
        ):  # fmt: skip
            with self.assertRaises(Refused) as raised:
                way()
            self.assertEqual(raised.exception.number, 12)

    def test_paths(self):
        self.raises(ValueError, r"path\[0\] must have 2 numbers, and has more", TRIANGLE.wilson, [(0, 1, 1)], [1, 2, 3])
        self.raises(TypeError, r"path\[0\] must have 2 numbers, and is 0", TRIANGLE.wilson, [0], [1, 2, 3])
        self.raises(OverflowError, r"path\[0\]\[1\] must be a whole number from -128 to 127, not 128", TRIANGLE.wilson, [(0, 128)], [1, 2, 3])
        self.raises(TypeError, r"path\[0\] must be a whole number", TRIANGLE.su2_wilson, [(0, 1)], [3, 5])


class Files(unittest.TestCase):
    def setUp(self):
        folder = tempfile.TemporaryDirectory()
        self.addCleanup(folder.cleanup)
        self.folder = Path(folder.name)

    def test_round_trip(self):
        for path in (self.folder / "one.gls", str(self.folder / "two.gls")):
            TRIANGLE.write(path)
            self.assertEqual(Sheet.read(path), TRIANGLE)
        complete(5, 2).write(self.folder / "one.gls")
        self.assertEqual((self.folder / "one.gls").read_bytes(), shipped("five-vertices.gls").to_bytes())
        self.assertEqual(sorted(os.listdir(self.folder)), ["one.gls", "two.gls"])

    def test_all_shipped_sheets(self):
        for name in sorted(os.listdir(SHEETS)):
            if name.endswith(".gls") and name not in ("65-vertices.gls", "no-vertices.gls", "two-triangles.gls"):
                with open(os.path.join(SHEETS, name), "rb") as file:
                    data = file.read()
                sheet = Sheet.read(os.path.join(SHEETS, name))
                again = Sheet.from_edges(sheet.n_vertices, sheet.edges, sheet.triangles, sheet.truncation)
                self.assertEqual((sheet.to_bytes(), again), (data, sheet), name)

    def written(self, path):
        TRIANGLE.write(path)
        return Path(path).read_bytes()

    def test_rights_and_links(self):
        path, link, hard = self.folder / "sheet.gls", self.folder / "link.gls", self.folder / "hard.gls"
        path.write_bytes(bytes(2000))
        os.chmod(path, 0o640)
        os.symlink(path, link)
        os.link(path, hard)
        self.assertEqual(self.written(link), TRIANGLE.to_bytes())
        self.assertTrue(link.is_symlink())
        self.assertTrue(path.samefile(hard))
        self.assertEqual((path.read_bytes(), stat.S_IMODE(path.stat().st_mode)), (TRIANGLE.to_bytes(), 0o640))
        kept = os.umask(0o027)
        self.addCleanup(os.umask, kept)
        TRIANGLE.write(self.folder / "new.gls")
        self.assertEqual(stat.S_IMODE((self.folder / "new.gls").stat().st_mode), 0o640)

    def test_a_protected_file(self):
        """It stays as it is, though its folder may be written."""
        path = self.folder / "sheet.gls"
        path.write_bytes(b"old")
        os.chmod(path, 0o444)
        os.chmod(self.folder, 0o777)
        told = printed_apart(
            self,
            "import os\n"
            "from zibrotka import Sheet\n"
            "sheet = Sheet.from_edges(1, [], [], 0)\n"
            "if os.getuid() == 0: os.setgroups([]); os.setgid(65534); os.setuid(65534)\n"
            f"try: sheet.write({str(path)!r})\n"
            "except PermissionError: print('raised')\n",
        )
        self.assertEqual((told, path.read_bytes(), os.listdir(self.folder)), ("raised\n", b"old", ["sheet.gls"]))

    def test_a_full_disk_leaves_the_old_sheet(self):
        """A limit on the length of files that lets no byte be written is as a full disk."""
        path = self.folder / "sheet.gls"
        path.write_bytes(b"old")
        told = printed_apart(
            self,
            "import resource, signal\n"
            "from zibrotka import Sheet\n"
            "signal.signal(signal.SIGXFSZ, signal.SIG_IGN)\n"
            "resource.setrlimit(resource.RLIMIT_FSIZE, (0, 0))\n"
            f"try: Sheet.from_edges(1, [], [], 0).write({str(path)!r})\n"
            "except OSError: print('raised')\n",
        )
        self.assertEqual((told, path.read_bytes(), os.listdir(self.folder)), ("raised\n", b"old", ["sheet.gls"]))
        if os.path.exists("/dev/full"):
            with self.assertRaises(OSError):
                TRIANGLE.write("/dev/full")

    def test_pipes(self):
        """A pipe gives what is in it. Of more than a sheet can have, the rest stays in it."""
        pipe, data = self.folder / "pipe", TRIANGLE.to_bytes()
        os.mkfifo(pipe)
        with open(os.open(pipe, os.O_RDWR | os.O_NONBLOCK), "r+b", buffering=0) as ends:
            TRIANGLE.write(pipe)
            self.assertEqual(ends.read(100), data)
            ends.write(bytes(1000))
            with self.assertRaises(Refused) as raised:
                Sheet.read(pipe)
            self.assertEqual((raised.exception.number, len(ends.read(1000))), (2, 94))

    def test_a_slow_pipe(self):
        """Its second part comes when the first has been read."""
        inward, outward = os.pipe()
        self.addCleanup(os.close, inward)
        data = TRIANGLE.to_bytes()

        def slowly():
            os.write(outward, data[:5])
            while fcntl.ioctl(inward, termios.FIONREAD, bytes(4)) != bytes(4):
                time.sleep(0.001)
            os.write(outward, data[5:])
            os.close(outward)

        thread = threading.Thread(target=slowly, daemon=True)
        thread.start()
        self.assertEqual(Sheet.read(f"/dev/fd/{inward}"), TRIANGLE)
        thread.join()

    def test_standard_output(self):
        """What is printed before and behind is kept, also where it goes to a file."""
        code = (
            "from zibrotka import Sheet\n"
            "print('before')\n"
            "for path in ('/dev/stdout', '/dev/fd/1', '/proc/self/fd/1'): Sheet.from_edges(1, [], [], 0).write(path)\n"
            "print('behind')\n"
            "Sheet.from_edges(1, [], [], 0).write('/dev/stderr')\n"
        )
        sheet, path = "GLS\1\0\1\0\0\0\0\0", self.folder / "printed"
        done = run_apart(code)
        self.assertEqual((done.returncode, done.stdout, done.stderr), (0, f"before\n{3 * sheet}behind\n", sheet))
        with open(path, "wb") as file:
            run_apart(code, capture_output=False, stdout=file, stderr=file)
        self.assertEqual(path.read_text(), f"before\n{3 * sheet}behind\n{sheet}")

    def test_odd_paths(self):
        """A folder, a path that ends as one, and a file that has no name any more."""
        for path in (self.folder, f"{self.folder}/new.gls/", f"{self.folder}/"):
            with self.subTest(path=path), self.assertRaises(IsADirectoryError):
                TRIANGLE.write(path)
        with open(self.folder / "gone.gls", "w+b") as file:
            os.remove(self.folder / "gone.gls")
            TRIANGLE.write(f"/proc/self/fd/{file.fileno()}")
            file.seek(0)
            self.assertEqual(file.read(), TRIANGLE.to_bytes())
        with self.assertRaises(OSError):
            TRIANGLE.write("/dev/fd/999999999")
        self.assertEqual(os.listdir(self.folder), [])

    def test_what_is_no_path(self):
        for wrong in (0, None, 1.5):
            with self.assertRaises(TypeError):
                Sheet.read(wrong)
            with self.assertRaises(TypeError):
                TRIANGLE.write(wrong)
        with self.assertRaises(FileNotFoundError):
            Sheet.read(self.folder / "none.gls")
        with self.assertRaises(FileNotFoundError):
            TRIANGLE.write(self.folder / "none" / "sheet.gls")
        with self.assertRaises(IsADirectoryError):
            Sheet.read(self.folder)

    def test_an_endless_file(self):
        with self.assertRaises(Refused) as raised:
            Sheet.read("/dev/zero")
        self.assertEqual(raised.exception.number, 2)


class Room(unittest.TestCase):
    """chain.gls has 1,046,529 states, so that its dense matrix has 8.8 million million bytes."""

    def test_a_matrix_that_no_machine_holds(self):
        chain = shipped("chain.gls")
        self.assertEqual(chain.count_states(), 1046529)
        told = r"the dense matrix of 1,046,529 states takes [\d,]{17,} bytes, and this machine has .*: use csr or matvec"
        with self.assertRaisesRegex(MemoryError, told):
            chain.hamiltonian(1.0)

    def test_what_the_machine_has_decides(self):
        with mock.patch.object(room, "memory", lambda: 1000):
            self.assertEqual(len(nested(TRIANGLE.states())), 3)
            for way in (complete(4, 1).hamiltonian, complete(4, 1).csr, complete(5, 1).su2_hamiltonian):
                with self.subTest(way=way), self.assertRaises(MemoryError):
                    way(1.0)
            with self.assertRaisesRegex(MemoryError, "the product of 65 states takes"):
                complete(4, 2).matvec(1.0, [1.0])
            for way in (complete(4, 2).states, lambda: complete(4, 2).config_to_index([0] * 6)):
                with self.subTest(way=way), self.assertRaisesRegex(MemoryError, "the list of [0-9]+ states"):
                    way()
        with mock.patch.object(room, "memory", lambda: None):
            self.assertEqual(len(nested(TRIANGLE.hamiltonian(1.0))), 3)

    def test_the_machine_tells(self):
        self.assertTrue(room.memory() is None or room.memory() > 2**20)


class RoomPlain(Plain, Room):
    pass


class OwnRowLists(unittest.TestCase):
    def test_lists_of_ones_own(self):
        rows = RowLists([0, 1, 1, 3], [2, 0, 0], [2.0, 3.0, 4.0])
        self.assertEqual((rows.n, len(rows), list(rows)), (3, 3, [[(2, 2.0)], [], [(0, 3.0), (0, 4.0)]]))
        self.assertEqual(nested(rows.matvec([1, 10, 100])), [200, 0, 7])
        self.assertEqual(nested(RowLists([0], [], []).matvec([])), [])

    def test_lengths_that_no_machine_holds(self):
        with self.assertRaisesRegex(MemoryError, r"the product of 9,999,999,999,999 rows takes [\d,]+ bytes"):
            RowLists(range(10**13), [], []).matvec([1.0])
        with self.assertRaisesRegex(MemoryError, "starts is longer than any list"):
            RowLists(range(10**20), [], []).matvec([1.0])
        with mock.patch.object(room, "memory", lambda: 1000), self.assertRaisesRegex(MemoryError, "a copy of columns takes 1,200 bytes"):
            RowLists([0, 1], range(300), [1.0]).matvec([1.0])

    def test_they_are_judged(self):
        for rows, vector, number in (
            (RowLists([], [], []), [], 12),
            (RowLists([0, 1], [0], []), [1], 12),
            (RowLists([0, 1], [1], [1.0]), [1], 13),
            (RowLists([0, 2, 1], [0], [1.0]), [1, 1], 13),
            (RowLists([0, 1], [0], [2.0**81]), [1], 14),
        ):
            with self.subTest(rows=list(rows.starts)), self.assertRaises(Refused) as raised:
                rows.matvec(vector)
            self.assertEqual(raised.exception.number, number)


class OwnRowListsPlain(Plain, OwnRowLists):
    pass


if __name__ == "__main__":
    unittest.main()
