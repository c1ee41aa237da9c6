"""Rows of a table that are measured in rounds over all of them, of which the least counts: a machine may be twice as fast a
moment or a minute later."""

from typing import Callable, Generic, Optional, Sequence, TypeVar

from .asked import Broken

Found = TypeVar("Found")


class Row(Generic[Found]):
    """A row: how it is measured, which of two findings is less, what a finding looks like, and the least that was found."""

    def __init__(self, name: str, measure: Callable[[], Found], least: Callable[[Found, Found], Found],
                 text: Callable[[Found], str]) -> None:
        self.name, self.measure, self.least, self.text = name, measure, least, text
        self.found: Optional[Found] = None
        self.broken: Optional[Broken] = None

    def measure_again(self) -> None:
        """Measures it once more."""
        try:
            found = self.measure()
        except Broken as broken:
            self.broken = broken
            return
        self.found = found if self.found is None else self.least(self.found, found)

    def line(self) -> str:
        """What is printed; a row that can't be measured has a star and says why."""
        if self.broken is not None or self.found is None:
            return "%-34s %s *" % (self.name, self.broken)
        return self.text(self.found)


def tell(rows: Sequence[Row[Found]], count: int, after_a_round: Callable[[], None]) -> None:
    """Measures rows in so many rounds, and prints them."""
    for _ in range(count):
        for each in rows:
            each.measure_again()
        after_a_round()
    for each in rows:
        print(each.line(), flush=True)
