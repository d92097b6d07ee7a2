"""The epochs of a complete file."""
from collections.abc import Iterator
from dataclasses import dataclass


@dataclass(frozen=True)
class Completeness:
    """What makes a file complete: epochs at an interval in ms, and the window of its epochs, if one is given."""

    interval: int
    window: tuple[int, int] | None = None

    @property
    def early(self) -> int:
        """How many ms before its time an epoch may be."""
        return min(500, self.interval // 2)

    def has(self, time: int) -> bool:
        """Returns whether the window has an epoch at this time."""
        return self.window is None or self.window[0] - self.early <= time < self.window[1]

    def index(self, time: int, first: int) -> int:
        """Returns the index of an epoch of a file whose first epoch is at a time."""
        origin = self.window[0] if self.window else first
        index = (time - origin + self.early) // self.interval
        return min(index, self.size(time, first) - 1) if self.window else index

    def size(self, last: int, first: int) -> int:
        """Returns the number of epochs of a complete file from its first to its last epoch, or in the window."""
        if self.window:
            return (self.window[1] - self.window[0]) // self.interval
        return self.index(last, first) + 1

    def gaps(self, times: list[int], has_end: bool) -> Iterator[tuple[int, int]]:
        """Yields the times at both ends of each gap, with those of the window, its end if the file has an end."""
        indexed = [(self.index(time, times[0]), time) for time in times]
        if self.window:
            end = [(self.size(0, 0), self.window[1])] if has_end else []
            indexed = [(-1, self.window[0]), *indexed, *end]
        for (before, time), (index, later) in zip(indexed, indexed[1:]):
            if index - before >= 2:
                yield time, later
