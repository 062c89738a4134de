"""What is lent beside the samples, one item for each: readings or hundredths."""
from typing import Any, Iterable, Iterator

from ._answers import Verdict, verdict_of
from ._archive import VerdictStruct
from ._memory import Lent, in_order
from ._table import NODE_WORDS, Answer


def of_samples(what: str, items: Iterable[Any], wanted: str) -> Iterator[Any]:
    """Returns an iterator over items that come in the samples' order."""
    return in_order(what, items, wanted, "the samples' order")


def verdict_with(found: VerdictStruct, zones: Lent, samples: Lent) -> Verdict:
    """Returns the verdict. Where both lists are whole, what is lent beside them is RAGGED, and it
    has no list.
    """
    whole = zones.length % NODE_WORDS == 0 and samples.length % NODE_WORDS == 0
    if whole and found.answer == Answer.RAGGED:
        return Verdict(Answer.RAGGED)
    return verdict_of(found, two_lists=True)
