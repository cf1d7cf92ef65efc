"""Gauge-invariant states of a small lattice, and the Kogut-Susskind Hamiltonian on them, for U(1) and for its two-valued relative Z2.

From a sheet to its matrix:

>>> from zibrotka import Sheet
>>> sheet = Sheet.from_edges(3, [(0, 1), (0, 2), (1, 2)], [(0, 1, 2)], 1)
>>> sheet.write("triangle.gls")
>>> print(sheet.hamiltonian(1.0))
[[1.5, -0.5, 0.0], [-0.5, 0.0, -0.5], [0.0, -0.5, 1.5]]

What the library refuses is raised as `Refused`, with its number and its sentence. `zibrotka.calls` has each exported call with lists that
you lend, and `zibrotka.plots` draws.
"""

from __future__ import annotations

from typing import Any, Tuple

from . import lists
from .calls import __version__, answer, call, refusal_text
from .refusals import BreaksLaw, Finding, NotInBasis, OutsideBand, Refused
from .row_lists import RowLists
from .sheet import Sheet, SpanningTree

__all__ = [
    "BreaksLaw", "Finding", "NotInBasis", "OutsideBand", "Refused", "RowLists", "Sheet", "SpanningTree", "__version__",
    "answer", "call", "refusal_text", "release", "su2_params", "u1_params",
]  # fmt: skip


def release() -> int:
    """The version of the library as one number: 10000 times the first part, plus 100 times the second, plus the third.

    >>> release()
    10000
    """
    return call("release")


def u1_params(g_squared: float) -> Tuple[float, float, float]:
    """The coupling with its electric and its magnetic factor, for U(1).

    >>> u1_params(1.0)
    (1.0, 0.5, -1.0)
    """
    return _params("u1_params", g_squared)


def su2_params(g_squared: float) -> Tuple[float, float, float]:
    """The same for Z2.

    >>> su2_params(1.0)
    (1.0, 0.375, -0.5)
    """
    return _params("su2_params", g_squared)


def _params(name: str, g_squared: float) -> Tuple[float, float, float]:
    params = lists.zeros("f64", 3)
    answer(name, g_squared, params)
    coupling, electric, magnetic = map(float, params)
    return coupling, electric, magnetic


def __getattr__(name: str) -> Any:
    """`zibrotka.plots` is read when it is first asked for."""
    if name == "plots":
        import importlib

        return importlib.import_module(".plots", __name__)
    raise AttributeError(f"module {__name__!r} has no attribute {name!r}")
