"""Dense matrix, row lists and product: each against its definition in docs/SCOPE.md bit by bit, and against each other; with SciPy besides."""

import random
import unittest

from common import TRIANGLE, Plain, bits, complete, needs, nested, printed_apart, shipped

from zibrotka import Refused, RowLists, Sheet, su2_params, u1_params


def small_sheets():
    return [
        shipped("one-vertex.gls"), shipped("triangle.gls"), shipped("tetrahedron.gls"), shipped("path.gls"), complete(3, 4), complete(4, 2),
        complete(5, 0), Sheet.from_edges(4, [(0, 1), (0, 2), (0, 3), (1, 2), (2, 3)], [(0, 2, 3), (0, 1, 2)], 2),
    ]  # fmt: skip


class Definition:
    """A mode as docs/SCOPE.md has it: the electric term of a state, and the hits (i, j) of each triangle by number and rising i."""

    def __init__(self, sheet, g_squared, weights):
        self.sheet, self.weights = sheet, weights or [1.0] * len(sheet.triangles)
        self.states = self.listed()
        self.place = {state: place for place, state in enumerate(self.states)}
        self.n = len(self.states)
        _, self.electric, self.magnetic = self.params(g_squared)
        sides = [sheet.tri_edge_indices(number) for number in range(len(sheet.triangles))]
        self.hits = [[(i, self.place[other]) for i, other in enumerate(self.moved(three)) if other in self.place] for three in sides]


class U1(Definition):
    params = staticmethod(u1_params)

    def listed(self):
        return [tuple(state) for state in nested(self.sheet.states())]

    def moved(self, three):
        move = [0] * len(self.sheet.edges)
        move[three[0]], move[three[1]], move[three[2]] = 1, -1, 1
        return [tuple(value + more for value, more in zip(state, move)) for state in self.states]

    def square(self, i):
        return self.electric * float(sum(value * value for value in self.states[i]))

    def dense(self):
        matrix = [[0.0] * self.n for _ in range(self.n)]
        for i in range(self.n):
            matrix[i][i] += self.square(i)
        for weight, hits in zip(self.weights, self.hits):
            for i, j in hits:
                matrix[i][j] += (self.magnetic * weight) * 0.5
                matrix[j][i] += (self.magnetic * weight) * 0.5
        return matrix

    def rows(self):
        rows = [{} if self.square(i) == 0 else {i: self.square(i)} for i in range(self.n)]
        for weight, hits in zip(self.weights, self.hits):
            for i, j in hits:
                rows[i][j] = rows[j][i] = (self.magnetic * 0.5) * weight
        return [sorted(row.items()) for row in rows]

    def product(self, vector):
        result = [0.0 + self.square(i) * vector[i] for i in range(self.n)]
        for weight, hits in zip(self.weights, self.hits):
            for i, j in hits:
                x = (self.magnetic * 0.5) * weight
                result[i] += x * vector[j]
                result[j] += x * vector[i]
        return result


class Z2(Definition):
    params = staticmethod(su2_params)

    def listed(self):
        return nested(self.sheet.su2_states())

    def moved(self, three):
        return [mask ^ sum(1 << edge for edge in three) for mask in self.states]

    def square(self, i):
        return self.electric * float(bin(self.states[i]).count("1"))

    def dense(self):
        matrix = [[0.0] * self.n for _ in range(self.n)]
        for i in range(self.n):
            matrix[i][i] += self.square(i)
        for weight, hits in zip(self.weights, self.hits):
            for i, j in hits:
                matrix[i][j] += self.magnetic * weight
        return matrix

    def rows(self):
        rows = [{} if self.square(i) == 0 else {i: self.square(i)} for i in range(self.n)]
        for weight, hits in zip(self.weights, self.hits):
            for i, j in hits:
                rows[i][j] = self.magnetic * weight
        return [sorted(row.items()) for row in rows]

    def product(self, vector):
        result = [0.0 + self.square(i) * vector[i] for i in range(self.n)]
        for weight, hits in zip(self.weights, self.hits):
            for i, j in hits:
                result[i] += (self.magnetic * weight) * vector[j]
        return result


def of_mode(sheet, mode):
    """The three methods of a mode."""
    return (sheet.hamiltonian, sheet.csr, sheet.matvec) if mode is U1 else (sheet.su2_hamiltonian, sheet.su2_csr, sheet.su2_matvec)


def flat(matrix):
    return [value for row in matrix for value in row]


def row_product(rows, vector):
    """Each row's products added up from 0.0 in the order of the list."""
    result = []
    for row in rows:
        total = 0.0
        for column, value in row:
            total += value * vector[column]
        result.append(total)
    return result


class AgainstDefinitions(unittest.TestCase):
    def hold(self, sheet, mode, g_squared, weights, vector_of):
        dense, csr, matvec = of_mode(sheet, mode)
        definition = mode(sheet, g_squared, weights)
        vector = vector_of(definition.n)
        rows = csr(g_squared, weights)
        self.assertEqual(bits(flat(nested(dense(g_squared, weights)))), bits(flat(definition.dense())))
        self.assertEqual(repr(list(rows)), repr(definition.rows()))
        self.assertEqual(bits(nested(matvec(g_squared, vector, weights))), bits(definition.product(vector)))
        self.assertEqual(bits(nested(rows.matvec(vector))), bits(row_product(definition.rows(), vector)))

    def test_random_floats(self):
        draw = random.Random(20261127)
        for sheet in small_sheets():
            for mode in (U1, Z2):
                for turn in range(3):
                    weights = [draw.uniform(-2, 2) for _ in sheet.triangles] if turn else None
                    with self.subTest(sheet=sheet, mode=mode.__name__, turn=turn):
                        self.hold(sheet, mode, draw.uniform(0.1, 10), weights, lambda n: [draw.uniform(-1, 1) for _ in range(n)])

    def test_ends_of_ranges(self):
        """Subnormal weights, weights of 0 and large amplitudes: -0.0 stays in row lists, and the factors come in another order."""
        sheet = complete(3, 1)
        for mode in (U1, Z2):
            for weight in (2.0**-1071, 5e-324, 0.0, -0.0, 2.0**32, -(2.0**32)):
                for g_squared in (3.0, 2.0**-32, 2.0**32):
                    with self.subTest(mode=mode.__name__, weight=weight, g_squared=g_squared):
                        self.hold(sheet, mode, g_squared, [weight], lambda n: [2.0**32, -(2.0**32), 5e-324][:n])


class AgainstEachOther(unittest.TestCase):
    """With floats of few bits every sum is exact in any order, so that the three forms must agree bit by bit."""

    def test_three_forms(self):
        draw = random.Random(7)
        for sheet in small_sheets():
            for mode in (U1, Z2):
                for weights in (None, [draw.randrange(-8, 9) / 4 for _ in sheet.triangles]):
                    dense, csr, matvec = of_mode(sheet, mode)
                    matrix, rows = nested(dense(2.0, weights)), csr(2.0, weights)
                    vector = [float(draw.randrange(-100, 101)) for _ in matrix]
                    with self.subTest(sheet=sheet, mode=mode.__name__, weights=weights):
                        self.assertEqual(flat(self.filled(rows)), flat(matrix))
                        by_matrix = row_product([list(enumerate(row)) for row in matrix], vector)
                        self.assertEqual(bits([0.0 + x for x in nested(rows.matvec(vector))]), bits(by_matrix))
                        self.assertEqual(bits([0.0 + x for x in nested(matvec(2.0, vector, weights))]), bits(by_matrix))

    def filled(self, rows):
        matrix = [[0.0] * rows.n for _ in range(rows.n)]
        for i, row in enumerate(rows):
            for column, value in row:
                matrix[i][column] += value
        return matrix


class AgainstDefinitionsPlain(Plain, AgainstDefinitions):
    pass


class AgainstEachOtherPlain(Plain, AgainstEachOther):
    pass


@needs("SciPy", "row lists as SciPy matrices, and their eigenvalues")
class WithSciPy(unittest.TestCase):
    def setUp(self):
        import numpy

        self.np = numpy
        self.draw = numpy.random.default_rng(20261127)

    def test_products(self):
        for sheet in (shipped("triangle.gls"), shipped("tetrahedron.gls"), shipped("five-vertices.gls"), complete(6, 1)):
            for csr, matvec in ((sheet.csr, sheet.matvec), (sheet.su2_csr, sheet.su2_matvec)):
                with self.subTest(sheet=sheet, csr=csr.__name__):
                    weights = self.draw.uniform(0.5, 1.5, len(sheet.triangles))
                    rows = csr(1.5, weights)
                    matrix = rows.to_scipy()
                    self.assertEqual((matrix.shape, matrix.nnz), ((rows.n, rows.n), len(rows.values)))
                    vector = self.draw.standard_normal(rows.n)
                    vector /= self.np.linalg.norm(vector)
                    self.assertLessEqual(self.np.abs(matrix @ vector - rows.matvec(vector)).max(), 1e-12)
                    self.assertLessEqual(self.np.abs(matrix @ vector - matvec(1.5, vector, weights)).max(), 1e-12)

    def test_it_has_lists_of_its_own(self):
        for rows in (TRIANGLE.csr(1.0), RowLists([0, 2, 3, 3], [0, 1, 0], [0.0, 2.0, 0.0])):
            kept, matrix = (list(rows), list(rows.starts)), rows.to_scipy()
            matrix.data[0] = 0.0
            matrix.eliminate_zeros()
            self.assertEqual((list(rows), list(rows.starts)), kept)

    def test_it_is_judged(self):
        """SciPy reads where a column says, wherever that is."""
        for rows, error in (
            (RowLists([0, 1], [7], [1.0]), Refused),
            (RowLists([0, 5], [0], [1.0]), Refused),
            (RowLists([0, 1], [0], [float("nan")]), Refused),
            (RowLists([0, 1], [0.5], [1.0]), TypeError),
            (RowLists([0, 1], [-1], [1.0]), OverflowError),
            (RowLists([], [], []), Refused),
        ):
            with self.subTest(rows=(rows.starts, rows.columns)), self.assertRaises(error):
                rows.to_scipy()
        told = printed_apart(
            self,
            "import numpy\n"
            "from zibrotka import Refused, RowLists\n"
            "rows = RowLists(numpy.array([0, 1], 'uint32'), numpy.array([2_000_000_000], 'uint32'), numpy.array([1.0]))\n"
            "try: print(rows.to_scipy() @ numpy.ones(1))\n"
            "except Refused as refused: print(refused.number)\n",
        )
        self.assertEqual(told, "13\n")

    def test_lowest_eigenvalue(self):
        from scipy.sparse.linalg import LinearOperator, eigsh

        start = None
        for sheet in (shipped("tetrahedron.gls"), complete(5, 1)):
            for dense, csr, matvec in (of_mode(sheet, U1), of_mode(sheet, Z2)):
                matrix = dense(1.0)
                self.assertTrue(self.np.array_equal(matrix, matrix.T))
                lowest = self.np.linalg.eigvalsh(matrix)[0]
                start = self.draw.standard_normal(len(matrix))
                by_product = LinearOperator(matrix.shape, lambda vector: matvec(1.0, vector.reshape(-1)), dtype="float64")
                for operator in (csr(1.0).to_scipy(), by_product):
                    with self.subTest(sheet=sheet, dense=dense.__name__, operator=type(operator).__name__):
                        found = eigsh(operator, k=1, which="SA", v0=start, return_eigenvectors=False)[0]
                        self.assertLessEqual(abs(found - lowest), 1e-9)

    def test_lowest_eigenvalue_of_the_larger_sheet(self):
        """With 4,175 states the dense matrix takes too long; the two sparse forms must agree, and bound the smallest diagonal entry."""
        from scipy.sparse.linalg import LinearOperator, eigsh

        sheet = shipped("five-vertices.gls")
        matrix = sheet.csr(1.0).to_scipy()
        start = self.draw.standard_normal(matrix.shape[0])
        by_product = LinearOperator(matrix.shape, lambda vector: sheet.matvec(1.0, vector.reshape(-1)), dtype="float64")
        first, second = (eigsh(form, k=1, which="SA", v0=start, return_eigenvectors=False)[0] for form in (matrix, by_product))
        self.assertLessEqual(abs(first - second), 1e-9)
        self.assertLess(first, 0.0)


if __name__ == "__main__":
    unittest.main()
