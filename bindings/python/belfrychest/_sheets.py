"""The zone sheet: for each zone, how many samples it holds and what their readings add up to."""
from array import array
from typing import Iterable, List, Optional, Union

from ._answers import settle
from ._archive import WrittenStruct, function, lent_memory
from ._memory import (
    HUNDREDTHS, NODES, SUBTOTALS, Buffer, Words, keep_apart, lent, memory_of, room_for, word,
)
from ._nodes import Subtotal, subtotals
from ._samples import of_samples, verdict_with
from ._table import NO_HUNDREDTHS, SUBTOTAL_WORDS

_sheet = function(
    "sheet", WrittenStruct, *lent_memory, *lent_memory, *lent_memory, *lent_memory)


def _word(index: int, given: Optional[int]) -> int:
    """Returns the word of a sample. The one for a missing reading has to be given as None, so that
    no number is taken for it.
    """
    if given is None:
        return NO_HUNDREDTHS
    number = word(f"hundredths {index}", given)
    if number == NO_HUNDREDTHS:
        raise ValueError(f"hundredths {index} must be None where the reading is missing, "
                         f"not {NO_HUNDREDTHS}")
    return number


def _words(hundredths: Iterable[Optional[int]]) -> Words:
    """Returns the words of hundredths, one for each."""
    given = of_samples("hundredths", hundredths, "whole numbers or None")
    return array("I", [_word(index, number) for index, number in enumerate(given)])


def sheet_into(zones: Buffer, samples: Buffer, hundredths: Union[Buffer, Iterable[Optional[int]]],
               out: Buffer) -> int:
    """Writes what `sheet` returns into `out`, three words for each zone, and returns the number of
    zones. Where the output is too short, it is refused with ROOM, after all else.
    """
    with lent("zones", zones, NODES) as outer, lent("samples", samples, NODES) as inner, \
            lent("hundredths", memory_of(hundredths, _words), HUNDREDTHS) as read, \
            lent("out", out, SUBTOTALS, writable=True) as room:
        keep_apart(room, outer, inner, read)
        found = _sheet(outer.address, outer.length, inner.address, inner.length, read.address,
                       read.length, room.address, room.length)
        verdict = verdict_with(found.verdict, outer, inner)
    settle(verdict)
    return int(found.count)


def sheet(zones: Buffer, samples: Buffer,
          hundredths: Union[Buffer, Iterable[Optional[int]]]) -> List[Subtotal]:
    """Returns a `Subtotal` for each zone, in list order. It is over the samples inside the zone,
    directly or not. Where none of them has a reading, `present` is 0, and the sum of 0 is no
    reading.

    Each sample has its reading in hundredths of a percent, in the samples' order: a whole number
    from 0 to 10,000, or None where it is missing. Memory of words will do too, one for each sample;
    there NO_HUNDREDTHS says that it is missing.

    What is wrong with the lists is refused first, and then hundredths that aren't as many as the
    samples, as RAGGED. READING with the sample's index comes next, for any sample, in a zone or
    not.
    """
    out = room_for("zones", zones, NODES, SUBTOTAL_WORDS)
    count = sheet_into(zones, samples, hundredths, out)
    return list(subtotals(out[:SUBTOTAL_WORDS * count]))
