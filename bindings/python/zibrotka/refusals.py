"""What is raised where the library refuses, and why a configuration is not in the basis."""

from __future__ import annotations

from typing import NamedTuple, Union


class Refused(ValueError):
    """A refusal of the library: its number, 1 to 17, and its sentence.

    >>> try:
    ...     triangle.hamiltonian(0.0)
    ... except Refused as refused:
    ...     print(refused.number)
    14
    """

    def __init__(self, number: int, sentence: str) -> None:
        super().__init__(number, sentence)
        self.number = number
        self.sentence = sentence

    def __str__(self) -> str:
        return f"refused {self.number}: {self.sentence}"


class BreaksLaw(NamedTuple):
    """The lowest vertex at which a configuration breaks Gauss's law, and what comes in there less what goes out, which is not 0.

    >>> print(BreaksLaw(0, -3))
    vertex 0 breaks the law, its sum is -3
    """

    vertex: int
    excess: int

    def __str__(self) -> str:
        return f"vertex {self.vertex} breaks the law, its sum is {self.excess}"


class OutsideBand(NamedTuple):
    """The lowest edge whose value is outside -L to L, where the configuration obeys the law, and the truncation L.

    >>> print(OutsideBand(0, 1))
    edge 0 is outside -1 to 1
    """

    edge: int
    truncation: int

    def __str__(self) -> str:
        return f"edge {self.edge} is outside -{self.truncation} to {self.truncation}"


Finding = Union[BreaksLaw, OutsideBand]


class NotInBasis(Refused):
    """Refusal 17, with the finding that says why the configuration is not in the basis.

    >>> try:
    ...     triangle.config_to_index([2, -2, 2])
    ... except NotInBasis as refused:
    ...     print(refused)
    refused 17: edge 0 is outside -1 to 1
    """

    def __init__(self, number: int, sentence: str, finding: Finding) -> None:
        super().__init__(number, sentence)
        self.args = (number, sentence, finding)
        self.finding = finding

    def __str__(self) -> str:
        return f"refused {self.number}: {self.finding}"
