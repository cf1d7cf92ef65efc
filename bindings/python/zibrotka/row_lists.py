"""The Hamiltonian as row lists, also called CSR: where each row starts, the columns and the values."""

from __future__ import annotations

from contextlib import ExitStack
from typing import Any, Iterator, List, Tuple

from . import lists, room
from .calls import ITEMS, answer, read_list
from .lists import Floats, WholeNumbers


class RowLists:
    """A matrix of n rows. Row i has the columns and values from starts[i] to starts[i + 1].

    The three lists are NumPy arrays, or array.array without NumPy. Lists of your own may be given too; `matvec` judges them whole.

    >>> rows = triangle.csr(1.0)
    >>> print(list(rows.starts) == [0, 2, 4, 6], rows.n, len(rows))
    True 3 3
    >>> for row in rows:
    ...     print(row)
    [(0, 1.5), (1, -0.5)]
    [(0, -0.5), (2, -0.5)]
    [(1, -0.5), (2, 1.5)]
    """

    __slots__ = ("starts", "columns", "values")

    def __init__(self, starts: WholeNumbers, columns: WholeNumbers, values: Floats) -> None:
        self.starts: Any = starts
        self.columns: Any = columns
        self.values: Any = values

    @property
    def n(self) -> int:
        """The number of rows, which is that of columns too.

        >>> triangle.csr(1.0).n
        3
        """
        return max(room.length_of(self.starts, "starts") - 1, 0)

    def __len__(self) -> int:
        return self.n

    def __iter__(self) -> Iterator[List[Tuple[int, float]]]:
        """The rows, each as pairs of a column and a value."""
        for start, end in zip(self.starts[:-1], self.starts[1:]):
            yield list(zip(map(int, self.columns[start:end]), map(float, self.values[start:end])))

    def __repr__(self) -> str:
        return f"<RowLists: {self.n} rows, {len(self.values)} entries>"

    def matvec(self, vector: Floats) -> Any:
        """The product with a vector of n amplitudes.

        >>> print(triangle.csr(1.0).matvec([1, 2, 3]))
        [0.5, -2.0, 3.5]
        """
        n = self.n
        lists.judge_room(f"the product of {n:,} rows", "a smaller matrix", n, "f64")
        result = lists.zeros("f64", n)
        answer("matvec", self.starts, self.columns, self.values, lists.cut(vector, n), result)
        return lists.handed(result)

    def _copied(self) -> RowLists:
        """A copy in NumPy arrays, judged whole as `matvec` judges. So code that judges nothing may use it. It needs NumPy."""
        import numpy

        with ExitStack() as views:
            named = (("starts", "u32"), ("columns", "u32"), ("values", "f64"))
            ready = [read_list(getattr(self, name), ITEMS[item], name, views) for name, item in named]
            copy = RowLists(*(numpy.array(one.used()) for one in ready))
        copy.matvec(numpy.zeros(copy.n))
        return copy

    def to_scipy(self) -> Any:
        """The same as scipy.sparse.csr_matrix, which has lists of its own. It needs SciPy. SciPy adds in an order of its own.

        >>> print(triangle.csr(1.0).to_scipy() @ [1, 2, 3])
        [0.5, -2.0, 3.5]
        """
        try:
            from scipy.sparse import csr_matrix
        except ImportError:
            raise ImportError("to_scipy needs SciPy, which is not there") from None
        copy = self._copied()
        return csr_matrix((copy.values, copy.columns, copy.starts), shape=(copy.n, copy.n))
