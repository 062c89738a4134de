"""The lists of a book as CSV, and back: a header line, then a line for each node with its tag.

A list without nodes is a line with its tag alone, the other cells empty, and no other line has this
tag. The nodes of a list stand in the order of their lines; lines of several lists may be mixed.
"""
import csv
import io
from typing import Callable, Dict, Iterator, List, Mapping, NamedTuple, Optional, Sequence, Tuple

from . import NONE, Node, Words, nodes, words
from ._table import NODE_WORDS

HEADER = ["tag", *Node._fields]

Tell = Callable[[str], None]  # takes what is told of the progress


class CsvFault(Exception):
    """What can't be read in a CSV, its line and, where one cell is meant, its column, from 1."""

    def __init__(self, text: str, line: int, column: Optional[int] = None) -> None:
        super().__init__(text, line, column)
        self.text = text
        self.line = line
        self.column = column


class CsvList(NamedTuple):
    """A list out of a CSV: the first line with its tag, its nodes, and the line of each node."""

    line: int
    nodes: List[Tuple[int, ...]]
    lines: List[int]

    @property
    def words(self) -> Words:
        """Returns the list as the library takes it."""
        return words(self.nodes)


def read_lists(data: bytes, tell: Tell) -> Dict[int, CsvList]:
    """Returns the lists of a CSV by their tags. Raises `CsvFault`."""
    found: Dict[int, CsvList] = {}
    for line, row in _rows(data):
        tag, node = _numbers(line, row)
        if tag in found and not node:
            raise _node_missing(tag, line, found[tag].line)
        if tag in found and not found[tag].nodes:
            raise _node_missing(tag, found[tag].line, line)
        kept = found.setdefault(tag, CsvList(line, [], []))
        if node:
            kept.nodes.append(node)
            kept.lines.append(line)
        tell(f"{line} lines read")
    return found


def write_lists(lists: Mapping[int, memoryview], tell: Tell) -> str:
    """Returns the CSV of some lists, which come by their tags."""
    lines = [",".join(HEADER)]
    for tag, given in lists.items():
        made = [",".join(map(str, (tag, *node))) for node in nodes(given)]
        lines += made or [f"{tag}{',' * NODE_WORDS}"]
        tell(f"{len(lines)} lines made")
    return "\n".join([*lines, ""])


def line_of(lists: Sequence[memoryview], number: int, index: int) -> int:
    """Returns the line that `write_lists` gives a node, by its list's number and its index."""
    before = (max(len(given) // NODE_WORDS, 1) for given in lists[:number])
    return 2 + sum(before) + index


def _rows(data: bytes) -> Iterator[Tuple[int, List[str]]]:
    """Yields the rows after the header that aren't blank, each with its line."""
    rows = csv.reader(io.StringIO(_text(data), newline=""), strict=True)
    try:
        if [cell.strip() for cell in next(rows, [])] != HEADER:
            raise CsvFault(f"the first line must be {','.join(HEADER)}", 1)
        yield from ((rows.line_num, row) for row in rows if row)
    except csv.Error as error:
        raise CsvFault(f"this is no CSV: {error}", rows.line_num) from None


def _text(data: bytes) -> str:
    """Returns the text of a CSV, without the mark that some programs put before it."""
    try:
        return data.decode("utf-8-sig")
    except UnicodeDecodeError as error:
        line = data[:error.start].count(b"\n") + 1
        raise CsvFault(f"byte {error.start} of the file isn't UTF-8", line) from None


def _numbers(line: int, row: Sequence[str]) -> Tuple[int, Tuple[int, ...]]:
    """Returns the tag and the node of a row. If it has a tag alone, the node is empty."""
    if len(row) != len(HEADER):
        raise CsvFault(f"the line has {len(row)} cells, not {len(HEADER)}", line)
    cells = [cell.strip() for cell in row]
    there = cells if any(cells[1:]) else cells[:1]
    tag, *node = (_cell_number(cell, line, column) for column, cell in enumerate(there, 1))
    return tag, tuple(node)


def _node_missing(tag: int, line: int, other: int) -> CsvFault:
    """Returns the fault of a line with its tag alone, where another line has this tag too."""
    text = f"the node is missing; a tag alone means no nodes, but line {other} has tag {tag} too"
    return CsvFault(text, line)


def _cell_number(cell: str, line: int, column: int) -> int:
    """Returns the number of a cell."""
    found = number_of(cell)
    if found is None:
        text = f"the {HEADER[column - 1]} must be a number from 0 to {NONE}, not {cell!r}"
        raise CsvFault(text, line, column)
    return found


def number_of(text: str) -> Optional[int]:
    """Returns the number that a text tells in plain digits, or None if it isn't one of 32 bits."""
    if text.isascii() and text.isdigit() and len(text) <= len(str(NONE)) and int(text) <= NONE:
        return int(text)
    return None
