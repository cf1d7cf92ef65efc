"""A sheet: a complex and a truncation L, and all that the library tells of it.

Lists come as NumPy arrays where NumPy is there (int32, uint64, uint32, float64), else as plain lists of the same numbers. The examples print
either, and show plain lists. In all of them `triangle` is

    Sheet.from_edges(3, [(0, 1), (0, 2), (1, 2)], [(0, 1, 2)], 1)
"""

from __future__ import annotations

import itertools
import os
import re
import stat
import sys
from typing import Any, Iterable, List, NamedTuple, Optional, Tuple, Union

from . import lists, room
from .calls import CALLS, ITEMS, answer, call, item_of, refusal_text, shown, view_of, whole
from .lists import Floats, WholeNumbers, cut
from .refusals import BreaksLaw, NotInBasis, OutsideBand, Refused
from .row_lists import RowLists

Path = Union[str, "os.PathLike[str]"]

_EDGE_BYTES, _TRIANGLE_BYTES = (parameter.length or 0 for parameter in CALLS["read_sheet"].parameters[-2:])
_SHEET_BYTES = 11 + _EDGE_BYTES + _TRIANGLE_BYTES

# So many entries are taken of what does not tell its length, since it may have no end.
_MOST_ENTRIES = 1 << 20


class Mode(NamedTuple):
    """The names of the calls of a mode, U(1) or Z2, and the items of its list of states."""

    item: str
    states: str
    n_states: str
    n_entries: str
    params: str
    dense: str
    csr: str
    matvec: str


U1 = Mode("i32", "enumerate_gauge_invariant", "count_states", "count_entries", "u1_params", "build_hamiltonian", "build_csr", "hamiltonian_matvec")
Z2 = Mode(
    "u64", "su2_basis", "su2_count_states", "su2_count_entries", "su2_params", "build_su2_hamiltonian", "build_csr_su2", "su2_hamiltonian_matvec"
)


def _flat(entries: Iterable[Any], width: int, items: Tuple[str, ...], name: str) -> List[int]:
    """Pairs, triples or longer entries as one flat list. Entry by entry, so that a message can say which one is wrong."""
    flat: List[int] = []
    for place, entry in enumerate(entries):
        try:
            numbers = tuple(itertools.islice(entry, width + 1))
        except TypeError:
            raise TypeError(f"{name}[{place}] must have {width} numbers, and is {shown(entry)}") from None
        if len(numbers) != width:
            raise ValueError(f"{name}[{place}] must have {width} numbers, and has {'more' if len(numbers) > width else len(numbers)}")
        flat += [whole(number, ITEMS[item], f"{name}[{place}][{at}]") for at, (number, item) in enumerate(zip(numbers, items))]
    return flat


def _ended(entries: Iterable[Any], width: int, name: str) -> Iterable[Any]:
    """Entries of which there may be any number, but not without end, and not more than the machine can hold."""
    if hasattr(type(entries), "__len__"):
        length = room.length_of(entries, name)
        room.judge(f"a copy of {name}", 8 * width * length, "a shorter list")
        return itertools.islice(entries, length)
    found = list(itertools.islice(entries, _MOST_ENTRIES + 1))
    if len(found) > _MOST_ENTRIES:
        raise ValueError(f"{name} does not tell its length, and has more than {_MOST_ENTRIES:,} entries: give a list")
    return found


def _bytes_of(data: Any) -> bytes:
    """The bytes of a sheet. One byte more than the longest sheet has is enough to have it refused."""
    view = view_of(data, "the sheet")
    if view is None:
        raise TypeError(f"a sheet is made of bytes, not of {shown(data)}")
    with view:
        if item_of(view)[0] is not ITEMS["u8"] or view.ndim != 1:
            raise TypeError(f"a sheet is made of bytes, not of {shown(data)}")
        return view[: _SHEET_BYTES + 1].tobytes()


def _open(path: str) -> Tuple[int, bool]:
    """A file to be written, and whether it ends behind what is written.

    What is open already, as /dev/stdout, is written from where it stands. To open it anew would begin at the start of a file, and what is
    printed before and behind would be lost.
    """
    named = re.fullmatch(r"/dev/(?:std(out|err)|fd/(\d{1,9}))|/proc/self/fd/(\d{1,9})", path)
    if named:
        for stream in (sys.stdout, sys.stderr):
            if stream is not None:
                stream.flush()
        return os.dup({"out": 1, "err": 2}.get(named[1]) or int(named[2] or named[3])), False
    file = os.open(path, os.O_WRONLY | os.O_CREAT | os.O_CLOEXEC, 0o666)
    return file, stat.S_ISREG(os.fstat(file).st_mode)


class SpanningTree(NamedTuple):
    """The numbers of the tree edges in the order in which they are found, and of all other edges by rising number.

    >>> tree, free_edges = triangle.spanning_tree()
    >>> tree, free_edges
    ([0, 1], [2])
    """

    tree: List[int]
    free_edges: List[int]


class Sheet:
    """A complex and a truncation L, judged when made. It cannot be changed; two are equal if their bytes are.

    >>> triangle == Sheet(triangle.to_bytes())
    True
    >>> triangle
    <Sheet: vertices 3, edges 3, triangles 1, truncation 1>
    """

    __slots__ = ("_data", "_n_vertices", "_edges", "_triangles", "_truncation")

    _data: bytes
    _n_vertices: int
    _edges: Tuple[Tuple[int, int], ...]
    _triangles: Tuple[Tuple[int, int, int], ...]
    _truncation: int

    def __new__(cls, data: bytes) -> Sheet:
        data = _bytes_of(data)
        counts = [lists.zeros("u64", 1) for _ in range(4)]
        edges, triangles = bytearray(_EDGE_BYTES), bytearray(_TRIANGLE_BYTES)
        answer("read_sheet", data, *counts, edges, triangles)
        n_vertices, n_edges, n_triangles, truncation = (int(count[0]) for count in counts)
        pairs = tuple((edges[2 * i], edges[2 * i + 1]) for i in range(n_edges))
        triples = tuple((triangles[3 * i], triangles[3 * i + 1], triangles[3 * i + 2]) for i in range(n_triangles))
        sheet = super().__new__(cls)
        for name, value in zip(Sheet.__slots__, (data, n_vertices, pairs, triples, truncation)):
            object.__setattr__(sheet, name, value)
        return sheet

    @property
    def n_vertices(self) -> int:
        """The number of vertices.

        >>> triangle.n_vertices
        3
        """
        return self._n_vertices

    @property
    def edges(self) -> Tuple[Tuple[int, int], ...]:
        """The edges by number, each a pair of vertices.

        >>> triangle.edges
        ((0, 1), (0, 2), (1, 2))
        """
        return self._edges

    @property
    def triangles(self) -> Tuple[Tuple[int, int, int], ...]:
        """The triangles by number, each three vertices.

        >>> triangle.triangles
        ((0, 1, 2),)
        """
        return self._triangles

    @property
    def truncation(self) -> int:
        """The truncation L: a state has values from -L to L.

        >>> triangle.truncation
        1
        """
        return self._truncation

    def __setattr__(self, name: str, value: Any) -> None:
        raise AttributeError(f"a sheet cannot be changed, so {name} cannot be set")

    def __delattr__(self, name: str) -> None:
        raise AttributeError(f"a sheet cannot be changed, so {name} cannot be taken away")

    def __eq__(self, other: object) -> bool:
        if not isinstance(other, Sheet):
            return NotImplemented
        return self._data == other._data

    def __hash__(self) -> int:
        return hash((Sheet, self._data))

    def __reduce__(self) -> Any:
        return (type(self), (self._data,))

    def __repr__(self) -> str:
        return f"<Sheet: vertices {self.n_vertices}, edges {len(self.edges)}, triangles {len(self.triangles)}, truncation {self.truncation}>"

    # Making, reading and writing

    @classmethod
    def from_bytes(cls, data: bytes) -> Sheet:
        """The sheet that these bytes are.

        >>> Sheet.from_bytes(b"GLS" + bytes([1, 0, 1, 0, 0, 0, 0, 0]))
        <Sheet: vertices 1, edges 0, triangles 0, truncation 0>
        """
        return cls(data)

    @classmethod
    def read(cls, path: Path) -> Sheet:
        """The sheet in a file, of which at most 906 bytes are read.

        >>> triangle.write("triangle.gls")
        >>> Sheet.read("triangle.gls") == triangle
        True
        """
        data = b""
        with open(os.fsdecode(path), "rb", buffering=0) as file:
            while len(data) <= _SHEET_BYTES and (more := file.read(_SHEET_BYTES + 1 - len(data))):
                data += more
        return cls(data)

    @classmethod
    def from_edges(
        cls, n_vertices: int, edges: Iterable[Tuple[int, int]], triangles: Iterable[Tuple[int, int, int]], truncation: int
    ) -> Sheet:
        """The sheet of a complex that is given by pairs and triples of vertices.

        >>> Sheet.from_edges(2, [(0, 1)], [], 5).edges
        ((0, 1),)
        """
        data = bytearray(_SHEET_BYTES)
        # One entry more than a sheet can have is enough for the library to refuse it.
        pairs = _flat(itertools.islice(edges, _EDGE_BYTES // 2 + 1), 2, ("u8",) * 2, "edges")
        triples = _flat(itertools.islice(triangles, _TRIANGLE_BYTES // 3 + 1), 3, ("u8",) * 3, "triangles")
        truncation = whole(truncation, ITEMS["u64"], "truncation")
        return cls(bytes(data[: answer("make_sheet", n_vertices, pairs, triples, truncation, data)]))

    @classmethod
    def from_pentachora(cls, n_vertices: int, pentachora: Iterable[Iterable[int]], truncation: int) -> Sheet:
        """The sheet of all edges and triangles of pentachora, five vertices each.

        >>> Sheet.from_pentachora(5, [(0, 1, 2, 3, 4)], 1)
        <Sheet: vertices 5, edges 10, triangles 10, truncation 1>
        """
        vertices = _flat(_ended(pentachora, 5, "pentachora"), 5, ("u64",) * 5, "pentachora")
        truncation = whole(truncation, ITEMS["u64"], "truncation")
        edges, triangles, n_triangles = bytearray(_EDGE_BYTES), bytearray(_TRIANGLE_BYTES), lists.zeros("u64", 1)
        n_edges = answer("from_pentachorons", n_vertices, vertices, edges, triangles, n_triangles)
        data = bytearray(_SHEET_BYTES)
        n_bytes = answer("make_sheet", n_vertices, edges[: 2 * n_edges], triangles[: 3 * int(n_triangles[0])], truncation, data)
        return cls(bytes(data[:n_bytes]))

    def to_bytes(self) -> bytes:
        """The bytes of the sheet.

        >>> len(triangle.to_bytes())
        20
        """
        return self._data

    def write(self, path: Path) -> None:
        """Writes the sheet over what a file holds, or to a new file, a device or a pipe. Where that fails, a part may be written.

        >>> triangle.write("triangle.gls")
        """
        file, ends = _open(os.fsdecode(path))
        with os.fdopen(file, "wb") as out:
            out.write(self._data)
            out.flush()
            # Only now what the file held behind that goes, so that a full disk leaves the old sheet.
            if ends:
                out.truncate()

    # The complex

    def tri_edge_indices(self, triangle: int) -> Tuple[int, int, int]:
        """The numbers of a triangle's edges (a,b), (a,c), (b,c).

        >>> triangle.tri_edge_indices(0)
        (0, 1, 2)
        """
        indices = lists.zeros("u64", 3)
        answer("tri_edge_indices", self._data, triangle, indices)
        first, second, third = map(int, indices)
        return first, second, third

    def spanning_tree(self) -> SpanningTree:
        """The spanning tree from vertex 0: its edges, and the free edges.

        >>> triangle.spanning_tree()
        SpanningTree(tree=[0, 1], free_edges=[2])
        """
        tree, free_edges = lists.zeros("u32", self.n_vertices - 1), lists.zeros("u32", self._n_free)
        answer("spanning_tree", self._data, tree, free_edges)
        return SpanningTree(tree.tolist(), free_edges.tolist())

    @property
    def _n_free(self) -> int:
        return len(self.edges) - self.n_vertices + 1

    @property
    def _most_steps(self) -> int:
        """No fundamental loop has more steps than there are vertices: it is a path in the tree and one free edge."""
        return self._n_free * self.n_vertices

    def loops(self) -> List[List[Tuple[int, int]]]:
        """The fundamental loop of each free edge, as steps of an edge and a direction, 1 or -1. `wilson` takes one as a path.

        >>> triangle.loops()
        [[(0, -1), (1, 1), (2, -1)]]
        """
        starts, steps = lists.zeros("u32", self._n_free + 1), self._most_steps
        edges, directions = bytearray(steps), lists.zeros("i8", steps)
        answer("fundamental_loops", self._data, starts, edges, directions)
        walk = list(zip(edges, directions))
        return [walk[start:end] for start, end in zip(starts[:-1], starts[1:])]

    def su2_loops(self) -> List[List[int]]:
        """The same without directions. `su2_wilson` and `su2_wilson_passes` take one as a path.

        >>> triangle.su2_loops()
        [[0, 1, 2]]
        """
        starts, edges = lists.zeros("u32", self._n_free + 1), bytearray(self._most_steps)
        answer("su2_fundamental_loops", self._data, starts, edges)
        return [list(edges[start:end]) for start, end in zip(starts[:-1], starts[1:])]

    # States

    def check_gauss_law(self, configuration: WholeNumbers) -> Optional[BreaksLaw]:
        """None where a configuration obeys Gauss's law, else the lowest vertex at which it does not, with the excess there.

        >>> print(triangle.check_gauss_law([1, -1, 1]))
        None
        >>> print(triangle.check_gauss_law([3, 0, -2]))
        vertex 0 breaks the law, its sum is -3
        """
        vertex, excess = lists.zeros("u64", 1), lists.zeros("i64", 1)
        if answer("check_gauss_law_finding", self._data, cut(configuration, len(self.edges)), vertex, excess):
            return None
        return BreaksLaw(int(vertex[0]), int(excess[0]))

    def count_states(self) -> int:
        """The number of U(1) states.

        >>> triangle.count_states()
        3
        """
        return answer("count_states", self._data)

    def su2_count_states(self) -> int:
        """The number of Z2 states.

        >>> triangle.su2_count_states()
        2
        """
        return answer("su2_count_states", self._data)

    def count_entries(self) -> int:
        """The number of entries of `csr`.

        >>> triangle.count_entries()
        6
        """
        return answer("count_entries", self._data)

    def su2_count_entries(self) -> int:
        """The number of entries of `su2_csr`.

        >>> triangle.su2_count_entries()
        3
        """
        return answer("su2_count_entries", self._data)

    def states(self) -> Any:
        """All U(1) states, one in each row, with a value for each edge.

        >>> print(triangle.states())
        [[-1, 1, -1], [0, 0, 0], [1, -1, 1]]
        """
        n = self.count_states()
        lists.judge_room(f"the list of {n:,} states", "call with a list of your own", n * len(self.edges), "i32")
        states = self._work(U1, n)
        answer(U1.states, self._data, states)
        return lists.handed(states, n)

    def su2_states(self) -> Any:
        """All Z2 states as masks: bit e says that edge e has j = 1/2.

        >>> print(triangle.su2_states())
        [0, 7]
        """
        states = self._work(Z2, self.su2_count_states())
        answer(Z2.states, self._data, states)
        return lists.handed(states)

    def _work(self, mode: Mode, n: int) -> Any:
        """The list into which a call writes all n states."""
        lists.judge_room(f"the list of {n:,} states", "a smaller truncation", 0, mode.item, self._work_bytes(mode, n))
        return lists.zeros(mode.item, n * len(self.edges) if mode is U1 else n)

    def config_to_index(self, configuration: WholeNumbers) -> int:
        """The place of a state, counted from 0. Where the configuration is none, `NotInBasis` says why.

        >>> triangle.config_to_index([1, -1, 1])
        2
        >>> triangle.config_to_index([3, 0, -2])
        Traceback (most recent call last):
        zibrotka.refusals.NotInBasis: refused 17: vertex 0 breaks the law, its sum is -3
        """
        return self._placed("config_to_index_finding", cut(configuration, len(self.edges)), self._work(U1, self.count_states()))

    def apply_shift(self, configuration: WholeNumbers, edge: int, delta: int) -> Tuple[int, Any]:
        """The place of the configuration that has `delta` more on an edge, and that configuration.

        >>> place, shifted = triangle.apply_shift([1, -1, 0], 2, 1)
        >>> print(place, list(map(int, shifted)))
        2 [1, -1, 1]
        """
        edge = whole(edge, ITEMS["u64"], "edge")
        shifted = lists.zeros("i32", len(self.edges))
        states, configuration = self._work(U1, self.count_states()), cut(configuration, len(self.edges))
        place = self._placed("apply_shift_finding", configuration, edge, delta, states, shifted)
        return place, lists.handed(shifted)

    def _placed(self, name: str, *arguments: Any) -> int:
        """The place that a call answers which tells its finding beside refusal 17."""
        vertex, excess, edge = lists.zeros("u64", 1), lists.zeros("i64", 1), lists.zeros("u64", 1)
        place = call(name, self._data, *arguments, vertex, excess, edge)
        if place == -17:
            broken = BreaksLaw(int(vertex[0]), int(excess[0]))
            raise NotInBasis(17, refusal_text(17), broken if broken.excess else OutsideBand(int(edge[0]), self.truncation))
        if place < 0:
            raise Refused(-place, refusal_text(-place))
        return place

    def apply_triangle_shift(self, triangle: int, place: int) -> int:
        """The place of the state that a triangle makes of the one at a place: 1 more on its edges (a,b) and (b,c), 1 less on (a,c).

        >>> triangle.apply_triangle_shift(0, 0)
        1
        """
        place = whole(place, ITEMS["u64"], "place")
        return answer("apply_triangle_shift", self._data, triangle, place, self._work(U1, self.count_states()))

    # The Hamiltonian

    def hamiltonian(self, g_squared: float, weights: Optional[Floats] = None) -> Any:
        """The U(1) Hamiltonian as a dense matrix. There is one weight for each triangle; without weights each is 1.

        >>> print(triangle.hamiltonian(1.0))
        [[1.5, -0.5, 0.0], [-0.5, 0.0, -0.5], [0.0, -0.5, 1.5]]
        """
        return self._dense(U1, g_squared, weights)

    def su2_hamiltonian(self, g_squared: float, weights: Optional[Floats] = None) -> Any:
        """The Z2 Hamiltonian as a dense matrix.

        >>> print(triangle.su2_hamiltonian(1.0))
        [[0.0, -0.5], [-0.5, 1.125]]
        """
        return self._dense(Z2, g_squared, weights)

    def csr(self, g_squared: float, weights: Optional[Floats] = None) -> RowLists:
        """The U(1) Hamiltonian as row lists.

        >>> triangle.csr(1.0)
        <RowLists: 3 rows, 6 entries>
        """
        return self._row_lists(U1, g_squared, weights)

    def su2_csr(self, g_squared: float, weights: Optional[Floats] = None) -> RowLists:
        """The Z2 Hamiltonian as row lists.

        >>> list(triangle.su2_csr(1.0))
        [[(1, -0.5)], [(0, -0.5), (1, 1.125)]]
        """
        return self._row_lists(Z2, g_squared, weights)

    def matvec(self, g_squared: float, vector: Floats, weights: Optional[Floats] = None) -> Any:
        """The product of the U(1) Hamiltonian with a vector, without a matrix.

        >>> print(triangle.matvec(1.0, [1, 2, 3]))
        [0.5, -2.0, 3.5]
        """
        return self._product(U1, g_squared, vector, weights)

    def su2_matvec(self, g_squared: float, vector: Floats, weights: Optional[Floats] = None) -> Any:
        """The product of the Z2 Hamiltonian with a vector, without a matrix.

        >>> print(triangle.su2_matvec(1.0, [3, 5]))
        [-2.5, 4.125]
        """
        return self._product(Z2, g_squared, vector, weights)

    def _terms(self, mode: Mode, g_squared: float, weights: Optional[Floats]) -> Tuple[Any, ...]:
        """What each of these calls takes after the sheet. A bad coupling goes on as it is, for the call to refuse it in its turn."""
        params = lists.zeros("f64", 3)
        call(mode.params, g_squared, params)
        return g_squared, float(params[1]), float(params[2]), weights is not None, () if weights is None else cut(weights, len(self.triangles))

    def _dense(self, mode: Mode, g_squared: float, weights: Optional[Floats]) -> Any:
        n = answer(mode.n_states, self._data)
        lists.judge_room(f"the dense matrix of {n:,} states", "csr or matvec", n * n, "f64", self._work_bytes(mode, n))
        states, matrix = self._work(mode, n), lists.zeros("f64", n * n)
        answer(mode.dense, self._data, *self._terms(mode, g_squared, weights), states, matrix)
        return lists.handed(matrix, n)

    def _row_lists(self, mode: Mode, g_squared: float, weights: Optional[Floats]) -> RowLists:
        n, entries = answer(mode.n_states, self._data), answer(mode.n_entries, self._data)
        lists.judge_room("the row lists", "matvec", 0, "f64", self._work_bytes(mode, n) + 4 * (n + 1) + 12 * entries)
        states, starts = self._work(mode, n), lists.zeros("u32", n + 1)
        columns, values = lists.zeros("u32", entries), lists.zeros("f64", entries)
        answer(mode.csr, self._data, *self._terms(mode, g_squared, weights), states, starts, columns, values)
        return RowLists(starts, columns, values)

    def _product(self, mode: Mode, g_squared: float, vector: Floats, weights: Optional[Floats]) -> Any:
        n = answer(mode.n_states, self._data)
        lists.judge_room(f"the product of {n:,} states", "a smaller truncation", n, "f64", self._work_bytes(mode, n))
        states, result = self._work(mode, n), lists.zeros("f64", n)
        answer(mode.matvec, self._data, *self._terms(mode, g_squared, weights), cut(vector, n), states, result)
        return lists.handed(result)

    def _work_bytes(self, mode: Mode, n: int) -> int:
        return n * (4 * len(self.edges) if mode is U1 else 8)

    # Expectations

    def electric_field_sq(self, state: Floats) -> Any:
        """The square of the field on each edge, expected in a state of one amplitude for each basis state.

        >>> print(triangle.electric_field_sq([1, 2, 3]))
        [10.0, 10.0, 10.0]
        """
        n, squares = self.count_states(), lists.zeros("f64", len(self.edges))
        answer("electric_field_sq", self._data, cut(state, n), self._work(U1, n), squares)
        return lists.handed(squares)

    def wilson(self, path: Iterable[Tuple[int, int]], state: Floats) -> float:
        """The Wilson loop along a path, expected in a state. The path has steps of an edge and a direction, 1 or -1.

        >>> triangle.wilson([(0, -1), (1, 1), (2, -1)], [1, 2, 3])
        8.0
        """
        steps = _flat(_ended(path, 2, "path"), 2, ("u8", "i8"), "path")
        n, expectation = self.count_states(), lists.zeros("f64", 1)
        answer("wilson_loop", self._data, cut(state, n), steps[::2], steps[1::2], self._work(U1, n), expectation)
        return float(expectation[0])

    def su2_wilson(self, path: WholeNumbers, state: Floats) -> float:
        """The Z2 loop along a path of edge numbers, expected in a state. An edge that is named several times counts once.

        >>> triangle.su2_wilson([0, 1, 2], [3, 5])
        -16.0
        """
        return self._su2_expectation("su2_wilson_loop", path, state)

    def su2_wilson_passes(self, path: WholeNumbers, state: Floats) -> float:
        """The same, but an edge counts where the path passes it an odd number of times.

        >>> triangle.su2_wilson_passes([0, 0], [3, 5])
        34.0
        """
        return self._su2_expectation("su2_wilson_passes", path, state)

    def _su2_expectation(self, name: str, path: WholeNumbers, state: Floats) -> float:
        n, expectation = self.su2_count_states(), lists.zeros("f64", 1)
        answer(name, self._data, cut(state, n), path, self._work(Z2, n), expectation)
        return float(expectation[0])
