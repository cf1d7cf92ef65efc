"""Pictures: a matrix as a heat map, and the spanning tree of a sheet. They need matplotlib.

    from zibrotka import plots

    plots.plot_matrix(sheet.csr(1.0)).figure.savefig("matrix.png")
    plots.plot_tree(sheet).figure.savefig("tree.png")
"""

from __future__ import annotations

import math
from typing import Any, List, Tuple

from .row_lists import RowLists
from .sheet import Sheet

# A larger matrix is drawn as so many squares each way, each with the sum of the entries in it.
MOST_SQUARES = 512


def _axes(axes: Any) -> Any:
    """The axes that are given, or those of a new figure."""
    if axes is not None:
        return axes
    try:
        from matplotlib import pyplot
    except ImportError:
        raise ImportError("plots need matplotlib, which is not there") from None
    return pyplot.subplots()[1]


def _numpy() -> Any:
    try:
        import numpy
    except ImportError:
        raise ImportError("plots need NumPy, which is not there") from None
    return numpy


def _squares_of_rows(rows: RowLists, side: int) -> Any:
    """The entries of row lists, added up in side times side squares."""
    numpy, n = _numpy(), rows.n
    row = numpy.repeat(numpy.arange(n), numpy.diff(rows.starts.astype("int64")))
    square = row * side // n * side + rows.columns.astype("int64") * side // n
    return numpy.bincount(square, rows.values, side * side).reshape(side, side)


def _squares_of_matrix(matrix: Any, side: int) -> Any:
    """The entries of a dense matrix, added up in side times side squares."""
    numpy = _numpy()
    n = len(matrix)
    # The first row of each square: the smallest that row * side // n takes into it.
    first = -(-numpy.arange(side) * n // side)
    with numpy.errstate(over="ignore", invalid="ignore"):
        return numpy.add.reduceat(numpy.add.reduceat(matrix, first, 0), first, 1)


def _scale(squares: Any) -> Any:
    """The colours of values, 0 in the middle. Where they differ much, by size in powers of ten, so that small ones are seen beside large ones."""
    from matplotlib.colors import Normalize, SymLogNorm

    sizes = _numpy().abs(squares)
    most = float(sizes.max()) or 1.0
    least = float(sizes[sizes > 0].min()) if sizes.any() else most
    if most <= 10 * least:
        return Normalize(-most, most)
    return SymLogNorm(max(least, most / 10000), vmin=-most, vmax=most)


def _judged(matrix: Any) -> Any:
    """A copy of row lists, or a dense matrix as an array, that can be drawn."""
    numpy = _numpy()
    if isinstance(matrix, RowLists):
        if not matrix.n:
            raise ValueError("these row lists have no row")
        return matrix._copied()
    matrix = numpy.asarray(matrix)
    if matrix.ndim != 2 or matrix.shape[0] != matrix.shape[1] or not len(matrix):
        raise ValueError(f"a matrix has as many columns as rows, and at least one; this one has the shape {matrix.shape}")
    if matrix.dtype.kind not in "iuf":
        raise TypeError(f"a matrix that is drawn has real numbers, and this one has the type {matrix.dtype}")
    return matrix.astype("float64", copy=False)


def plot_matrix(matrix: Any, axes: Any = None) -> Any:
    """Draws a square matrix or `RowLists` as a heat map, 0 in white, and returns the axes.

    One with more than 512 rows is drawn as 512 times 512 squares, each with the sum of the entries in it. So row lists of a million states
    can be drawn.

    >>> plot_matrix(triangle.csr(1.0)).get_xlabel()
    'place of the state'
    """
    matrix = _judged(matrix)
    n, side = len(matrix), min(len(matrix), MOST_SQUARES)
    squares = (_squares_of_rows if isinstance(matrix, RowLists) else _squares_of_matrix)(matrix, side)
    if not _numpy().isfinite(squares).all():
        raise ValueError("a matrix that is drawn has finite numbers and sums")
    axes = _axes(axes)
    image = axes.imshow(squares, cmap="RdBu_r", norm=_scale(squares), extent=(-0.5, n - 0.5, n - 0.5, -0.5), interpolation="nearest")
    axes.figure.colorbar(image, ax=axes, label="entry" if side == n else "sum of the entries in a square")
    axes.set_xlabel("place of the state")
    axes.set_ylabel("place of the state")
    return axes


def _points(sheet: Sheet) -> List[Tuple[float, float]]:
    """A place on a circle for each vertex, vertex 0 at the top and the others clockwise."""
    turns = [2 * math.pi * vertex / sheet.n_vertices for vertex in range(sheet.n_vertices)]
    return [(math.sin(turn), math.cos(turn)) for turn in turns]


def _place_of_number(start: Tuple[float, float], end: Tuple[float, float], are_neighbours: bool) -> Tuple[float, float]:
    """Where the number of an edge stands: outside the circle beside neighbours, else a quarter of the way along, for middles meet."""
    (x, y), (to_x, to_y) = start, end
    if not are_neighbours:
        return x + (to_x - x) / 4, y + (to_y - y) / 4
    middle_x, middle_y = (x + to_x) / 2, (y + to_y) / 2
    longer = 1 + 0.08 / (math.hypot(middle_x, middle_y) or 1.0)
    return middle_x * longer, middle_y * longer


def _draw_edges(axes: Any, sheet: Sheet, points: List[Tuple[float, float]], size: float) -> None:
    free_edges = set(sheet.spanning_tree().free_edges)
    white = {"facecolor": "white", "edgecolor": "none", "pad": 1}
    for number, (a, b) in enumerate(sheet.edges):
        (x, y), (to_x, to_y) = points[a], points[b]
        style, color = ("--", "tab:orange") if number in free_edges else ("-", "tab:blue")
        axes.plot([x, to_x], [y, to_y], style, color=color, zorder=1)
        at_x, at_y = _place_of_number(points[a], points[b], b - a in (1, sheet.n_vertices - 1))
        axes.text(at_x, at_y, str(number), fontsize=size, color=color, ha="center", va="center", bbox=white, zorder=2)


def plot_tree(sheet: Sheet, axes: Any = None) -> Any:
    """Draws the vertices of a sheet on a circle, tree edges solid, free edges dashed, each with its number, and returns the axes.

    >>> plot_tree(triangle).get_title()
    'spanning tree solid, free edges dashed'
    """
    axes = _axes(axes)
    points = _points(sheet)
    size, circle = (8, 200) if sheet.n_vertices <= 24 else (5, 50)
    _draw_edges(axes, sheet, points, size)
    axes.scatter([x for x, _ in points], [y for _, y in points], s=circle, color="white", edgecolors="black", zorder=3)
    for vertex, (x, y) in enumerate(points):
        axes.text(x, y, str(vertex), fontsize=size, ha="center", va="center", zorder=4)
    axes.set_aspect("equal")
    axes.set_axis_off()
    axes.set_title("spanning tree solid, free edges dashed")
    return axes
