#!/usr/bin/env python3
"""A data frame in pages of a node: columns of numbers of 64 bits, each in a range of its own, so a sum reads one column alone.

data_frame.py HOST:PORT
"""
import array
import pathlib
import sys

sys.path.insert(0, str(pathlib.Path(__file__).resolve().parent.parent))
from clio import PAGE_BYTES, Client

NUMBER_BYTES = 8


class Frame:
    """Rows of named columns. The numbers are little-endian, as this program writes them on most machines."""

    def __init__(self, client: Client, names: list[str], most_rows: int):
        pages = -(-most_rows * NUMBER_BYTES // PAGE_BYTES)
        self._client = client
        self._columns = {name: client.alloc(pages) for name in names}
        self.rows = 0

    def append(self, rows: list[tuple[int, ...]]) -> None:
        """Writes rows behind the others, a write for each column, all at once."""
        with self._client.batch() as b:
            for column, numbers in zip(self._columns.values(), zip(*rows)):
                b.write(column, self.rows * NUMBER_BYTES, _swapped(array.array("Q", numbers)).tobytes())
        self.rows += len(rows)

    def column(self, name: str) -> array.array:
        """All numbers of a column."""
        numbers = array.array("Q", self._columns[name].read(0, self.rows * NUMBER_BYTES))
        return _swapped(numbers)

    def free(self) -> None:
        for column in self._columns.values():
            column.free()


def _swapped(numbers: array.array) -> array.array:
    """The numbers with their bytes swapped where this machine is big-endian."""
    if sys.byteorder == "big":
        numbers.byteswap()
    return numbers


host, port = sys.argv[1].split(":")
with Client(host, int(port), client=16, process=16) as c:
    frame = Frame(c, ["day", "amount"], most_rows=50_000)
    for start in range(0, 50_000, 10_000):
        frame.append([(day, day * day) for day in range(start, start + 10_000)])
    print("rows", frame.rows)
    print("amounts", sum(frame.column("amount")))
    print("days on which the amount was even", sum(1 for amount in frame.column("amount") if amount % 2 == 0))
    frame.free()
