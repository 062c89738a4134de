"""Lab readings of organic matter, and their low and high in a zone."""
import ctypes
from array import array
from dataclasses import dataclass
from typing import Iterable, NamedTuple, Optional, Union

from ._answers import settle
from ._archive import RangeStruct, function, lent_memory, word32
from ._memory import NODES, READINGS, Buffer, Words, lent, memory_of, word
from ._samples import of_samples, verdict_with
from ._table import GRAMS, MISSING, PERCENT

_zone_range = function("zone_range", RangeStruct, *lent_memory, *lent_memory, *lent_memory, word32)


@dataclass(frozen=True)
class Percent:
    """A reading in percent, from 0 to 100. Its value is rounded to a 32-bit float."""

    value: float


@dataclass(frozen=True)
class Grams:
    """A reading in grams per kilogram, from 0 to 1,000. Its value is rounded to a 32-bit float."""

    value: float


# The reading of a sample. None says that the lab didn't read it, which is something else than 0.
Reading = Union[Percent, Grams, None]


class Range(NamedTuple):
    """The lowest and the highest of some readings, in percent."""

    low: float
    high: float


def _bits(index: int, value: float) -> int:
    """Returns the bits of a number as a 32-bit float. One that is too great is infinite there."""
    try:
        return ctypes.c_uint32.from_buffer(ctypes.c_float(value)).value
    except TypeError:
        raise TypeError(
            f"reading {index} must have a number, not {type(value).__name__}") from None
    except OverflowError:
        raise ValueError(f"reading {index} has a number that is no float") from None


def reading_words(readings: Iterable[Reading]) -> Words:
    """Returns the words of some readings, two for each: a kind and the bits of its value.

    `zone_range` takes readings as they are. To ask for many zones, make the words once.
    """
    out = array("I")
    given = of_samples("readings", readings, "Percent, Grams or None")
    for index, reading in enumerate(given):
        if reading is None:
            out.extend((MISSING, 0))
        elif isinstance(reading, (Percent, Grams)):
            kind = PERCENT if isinstance(reading, Percent) else GRAMS
            out.extend((kind, _bits(index, reading.value)))
        else:
            raise TypeError(
                f"reading {index} must be Percent, Grams or None, not {type(reading).__name__}")
    return out


def zone_range(zones: Buffer, samples: Buffer, readings: Union[Buffer, Iterable[Reading]],
               zone: int) -> Optional[Range]:
    """Returns the lowest and the highest reading, in percent, that the zone at index `zone` holds.
    A sample counts if it is inside the zone, directly or not, and has a reading. Where none counts,
    it returns None, and never 0.

    Each sample has a reading, in the samples' order: `Percent`, `Grams` per kilogram, or None where
    it is missing. Memory of their words will do too, as `reading_words` returns it. Grams are
    divided by ten, once. Of equal readings the first stays. The thread's floats have to be in their
    default mode: where the smallest ones are taken for zero, a reading below zero may be taken.

    What is wrong with the lists is refused first, and then readings that aren't as many as the
    samples, as RAGGED. READING with the sample's index comes next, for any sample, in the zone or
    not. ABSENT, where no zone has the index, comes last.
    """
    given_zone = word("zone", zone)
    with lent("zones", zones, NODES) as outer, lent("samples", samples, NODES) as inner, \
            lent("readings", memory_of(readings, reading_words), READINGS) as read:
        found = _zone_range(outer.address, outer.length, inner.address, inner.length, read.address,
                            read.length, given_zone)
        verdict = verdict_with(found.verdict, outer, inner)
    settle(verdict)
    return Range(found.low, found.high) if found.present else None
