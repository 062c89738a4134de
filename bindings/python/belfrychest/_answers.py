"""What the archive answers: a verdict, or a refusal that is raised."""
import ctypes
from dataclasses import dataclass
from typing import Optional

from ._archive import VerdictStruct, function, word32
from ._memory import word
from ._table import HINTS, NAME_BYTES, Answer

_name = function("name", None, word32, ctypes.c_void_p)


@dataclass(frozen=True)
class Verdict:
    """The answer of a check, the list that it means and the index of the faulty node in that list.

    LEVEL to DEPTH have both. RAGGED and LONG have a list if two were checked, and READING has the
    index of the sample. Otherwise they are None. Of two lists, the ancestors are list 0 and the
    descendants list 1. A list of a book is given by its place in the book, from 0.
    """

    answer: Answer
    list: Optional[int] = None
    index: Optional[int] = None


class Refused(Exception):
    """A call was refused: the answer's `number` and `name`, a `hint` that says what to do, and
    `list` and `index` as a `Verdict` has them.
    """

    def __init__(self, number: int, list: Optional[int] = None,
                 index: Optional[int] = None) -> None:
        super().__init__(number, list, index)
        self.number = Answer(number)
        self.name = self.number.name
        self.hint = HINTS[self.number]
        self.list = list
        self.index = index

    def __str__(self) -> str:
        in_list = "" if self.list is None else f", list {self.list}"
        at_index = "" if self.index is None else f", index {self.index}"
        return f"{self.number:d} {self.name}{in_list}{at_index}: {self.hint}"


def verdict_of(found: VerdictStruct, two_lists: bool = False) -> Verdict:
    """Returns the verdict of the archive's struct, with the places that its answer has."""
    answer = Answer(found.answer)
    if Answer.LEVEL <= answer <= Answer.DEPTH:
        return Verdict(answer, found.list, found.index)
    if two_lists and answer in (Answer.RAGGED, Answer.LONG):
        return Verdict(answer, found.list)
    if answer == Answer.READING:
        return Verdict(answer, index=found.index)
    return Verdict(answer)


def settle(verdict: Verdict) -> None:
    """Raises a refusal."""
    if verdict.answer != Answer.TAKEN:
        raise Refused(verdict.answer, verdict.list, verdict.index)


def name(answer: int) -> str:
    """Returns the name that the library has for an answer's number, without its padding; an empty
    one for a number above the last.
    """
    row = (ctypes.c_char * NAME_BYTES)()
    _name(word("answer", answer), row)
    return row.raw.decode("ascii").rstrip()
