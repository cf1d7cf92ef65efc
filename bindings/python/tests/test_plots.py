"""Pictures, drawn without a screen into a file that must not be blank."""

import io
import os
import subprocess
import sys
import unittest

from common import PACKAGE, TRIANGLE, complete, needs, shipped, there

from zibrotka import Refused, RowLists


@needs("matplotlib", "plots")
class Plots(unittest.TestCase):
    @classmethod
    def setUpClass(cls):
        if not there("matplotlib"):
            return
        import matplotlib

        matplotlib.use("Agg")

    def setUp(self):
        import numpy
        from matplotlib import pyplot

        from zibrotka import plots

        self.np, self.plots, self.pyplot = numpy, plots, pyplot
        self.addCleanup(pyplot.close, "all")

    def pixels(self, axes):
        """The picture as the file has it."""
        file = io.BytesIO()
        axes.figure.savefig(file, format="png")
        self.assertEqual(file.getvalue()[:8], b"\x89PNG\r\n\x1a\n")
        file.seek(0)
        return self.pyplot.imread(file)

    def inside(self, axes):
        """The pixels between the axes, where the picture of the matrix or the tree is."""
        pixels = self.pixels(axes)
        box, (height, width) = axes.get_position(), pixels.shape[:2]
        return pixels[int((1 - box.y1) * height) + 2 : int((1 - box.y0) * height) - 2, int(box.x0 * width) + 2 : int(box.x1 * width) - 2]

    def colours(self, axes):
        return len(self.np.unique(self.inside(axes).reshape(-1, 4), axis=0))

    def test_matrix(self):
        for matrix in (TRIANGLE.hamiltonian(1.0), TRIANGLE.csr(1.0), [[1.5, -0.5, 0], [-0.5, 0, -0.5], [0, -0.5, 1.5]]):
            axes = self.plots.plot_matrix(matrix)
            self.assertEqual(axes.images[0].get_array().tolist(), [[1.5, -0.5, 0], [-0.5, 0, -0.5], [0, -0.5, 1.5]])
            self.assertGreaterEqual(self.colours(axes), 3)

    def test_given_axes(self):
        figure, (left, right) = self.pyplot.subplots(1, 2)
        self.assertIs(self.plots.plot_matrix(TRIANGLE.csr(1.0), left), left)
        self.assertIs(self.plots.plot_tree(TRIANGLE, axes=right), right)
        self.assertGreaterEqual(self.colours(left), 3)

    def test_squares(self):
        """Row lists and dense matrix of one sheet are drawn alike, and nothing is lost in the sums."""
        sheet = complete(5, 2)
        rows = sheet.csr(1.0)
        kept = self.plots.MOST_SQUARES
        self.addCleanup(setattr, self.plots, "MOST_SQUARES", kept)
        small = complete(5, 1)
        for most in (7, 16, small.count_states() - 1):
            self.plots.MOST_SQUARES = most
            dense = self.plots.plot_matrix(small.hamiltonian(1.0)).images[0].get_array()
            sparse = self.plots.plot_matrix(small.csr(1.0)).images[0].get_array()
            self.assertEqual(dense.shape, (most, most))
            self.assertLessEqual(self.np.abs(dense - sparse).max(), 1e-9)
            self.assertAlmostEqual(float(dense.sum()), float(small.hamiltonian(1.0).sum()), 6)
        self.plots.MOST_SQUARES = kept
        axes = self.plots.plot_matrix(rows)
        self.assertEqual(axes.images[0].get_array().shape, (512, 512))
        self.assertGreaterEqual(self.colours(axes), 3)

    def test_a_million_states(self):
        axes = self.plots.plot_matrix(shipped("chain.gls").csr(1.0))
        self.assertEqual(axes.images[0].get_array().shape, (512, 512))
        self.assertGreaterEqual(self.colours(axes), 3)

    def test_zeros_and_wrong_shapes(self):
        self.plots.plot_matrix(shipped("one-vertex.gls").csr(1.0))
        for wrong in ([[1.0, 2.0]], [1.0, 2.0], [], [[]]):
            with self.assertRaisesRegex(ValueError, "a matrix has as many columns as rows"):
                self.plots.plot_matrix(wrong)
        with self.assertRaisesRegex(ValueError, "no row"):
            self.plots.plot_matrix(RowLists([0], [], []))

    def test_what_cannot_be_drawn(self):
        """It is raised before a figure is made."""
        for wrong in ([[1j]], self.np.array([[1 + 0j]]), [["1"]], [[True]], [[None]]):
            with self.subTest(wrong=wrong), self.assertRaisesRegex(TypeError, "a matrix that is drawn has real numbers"):
                self.plots.plot_matrix(wrong)
        for wrong in ([[float("nan")]], [[float("inf")]], self.np.full((1024, 1024), 1e308)):
            with self.assertRaisesRegex(ValueError, "a matrix that is drawn has finite numbers and sums"):
                self.plots.plot_matrix(wrong)
        for wrong, number in ((RowLists([0, 1], [7], [1.0]), 13), (RowLists([0, 2], [0], [1.0]), 13), (RowLists([0, 1], [0], [float("nan")]), 14)):
            with self.assertRaises(Refused) as raised:
                self.plots.plot_matrix(wrong)
            self.assertEqual(raised.exception.number, number)
        self.assertEqual(self.pyplot.get_fignums(), [])
        self.assertEqual(self.plots.plot_matrix(RowLists([0, 1, 1], [1], [2])).images[0].get_array().tolist(), [[0, 2], [0, 0]])

    def test_tree(self):
        axes = self.plots.plot_tree(TRIANGLE)
        self.assertEqual([line.get_linestyle() for line in axes.lines], ["-", "-", "--"])
        self.assertEqual([text.get_text() for text in axes.texts], ["0", "1", "2", "0", "1", "2"])
        self.assertGreaterEqual(self.colours(axes), 3)
        for name in ("one-vertex.gls", "path.gls", "five-vertices.gls"):
            sheet = shipped(name)
            axes = self.plots.plot_tree(sheet)
            self.assertEqual(len(axes.lines), len(sheet.edges))
            self.assertEqual(sum(line.get_linestyle() == "-" for line in axes.lines), sheet.n_vertices - 1)
            self.assertGreaterEqual(self.colours(axes), 2)


class WithoutThem(unittest.TestCase):
    """In an interpreter in which the import of a library fails."""

    def told(self, code):
        script = f"import sys\nsys.path.insert(0, {PACKAGE!r})\n{code}"
        done = subprocess.run([sys.executable, "-B", "-c", script], capture_output=True, text=True, env={**os.environ, "MPLBACKEND": "Agg"})
        self.assertEqual(done.returncode, 0, done.stderr)
        return done.stdout

    def test_plain_words(self):
        told = self.told(
            "for name in ('numpy', 'scipy', 'matplotlib'): sys.modules[name] = None\n"
            "import zibrotka\n"
            "sheet = zibrotka.Sheet.from_edges(3, [(0, 1), (0, 2), (1, 2)], [(0, 1, 2)], 1)\n"
            "print(sheet.states())\n"
            "ways = [lambda: zibrotka.plots.plot_tree(sheet), lambda: zibrotka.plots.plot_matrix(sheet.csr(1)), sheet.csr(1).to_scipy]\n"
            "for way in ways:\n"
            "    try: way()\n"
            "    except ImportError as error: print(error)\n"
        )
        self.assertEqual(
            told.splitlines(),
            [
                "[[-1, 1, -1], [0, 0, 0], [1, -1, 1]]",
                "plots need matplotlib, which is not there",
                "plots need NumPy, which is not there",
                "to_scipy needs SciPy, which is not there",
            ],
        )

    def test_plots_are_read_when_asked_for(self):
        told = self.told(
            "import zibrotka\n"
            "print('zibrotka.plots' in sys.modules, 'matplotlib' in sys.modules)\n"
            "zibrotka.plots\n"
            "print('zibrotka.plots' in sys.modules, 'matplotlib' in sys.modules)\n"
            "print(hasattr(zibrotka, 'plot'))\n"
        )
        self.assertEqual(told.split(), ["False", "False", "True", "False", "False"])


if __name__ == "__main__":
    unittest.main()
