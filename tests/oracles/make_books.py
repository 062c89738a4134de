#!/usr/bin/env python3
"""Makes the sample books, the books that the figures are run on, and what is printed of each.

tests/oracles/make_books.py           writes the files
tests/oracles/make_books.py --check   writes nothing, and fails where a file holds something else

Both fail where crates/figures_books/data has a file that isn't made here.

The books are put together number by number. What they answer comes from scope.py, which calls
nothing of the library. So the stored outputs say what the program has to print, and not what it
printed.
"""
import sys

import stored
from farm import farm_book, farm_csv, farm_text
from figure_books import CASES, FIGURE, report
from scope import book, printed

FIGURE_TEXT = """\
figure.book: the scope's example, 92 bytes.

Document 5 has two zones (tag 2): one from 2 to 10, and inside it one from 3 to 7. It has two
samples (tag 3): one from 4 to 6, which lies in both zones, and one from 8 to 9, which lies in the
outer zone alone. The contents take 28 bytes, so the bodies start at 28 and at 60.

  number of lists                          2
  tag, offset, nodes of the first list     2 28 2
  tag, offset, nodes of the second list    3 60 2
  document, start, end, level: zones       5 2 10 2    5 3 7 3
                               samples     5 4 6 4     5 8 9 3

Each line that the program prints is a document, the start of a zone and the start of a sample
inside it (figure.out).
"""

# A field in which one sample, 180 to 215, was drawn past the end of its zone, 160 to 210.
REFUSED = book(
    (2, [(12, 10, 290, 1), (12, 20, 140, 2), (12, 30, 90, 3), (12, 40, 70, 4), (12, 100, 130, 3),
         (12, 150, 280, 2), (12, 160, 210, 3), (12, 220, 270, 3), (12, 230, 250, 4)]),
    (3, [(12, 22, 28, 3), (12, 45, 50, 5), (12, 55, 65, 5), (12, 75, 85, 4), (12, 105, 125, 4),
         (12, 165, 170, 4), (12, 180, 215, 4), (12, 232, 238, 5), (12, 240, 245, 5),
         (12, 255, 265, 4), (12, 275, 278, 3)]))

FOLDER = "crates/figures_books"

# What crates/figures_books prints of entries that make no whole ones, after all books.
RAGGED = "== entries of three words\nwritten 1 RAGGED list 0 index 0 bytes 0\n"


def sample_files():
    """Returns the files of examples/ and of crates/belfry, by their paths."""
    farm = farm_book()
    out = printed(farm)
    return {
        "examples/figure.book": FIGURE,
        "examples/figure.txt": FIGURE_TEXT,
        "examples/figure.out": printed(FIGURE),
        "examples/farm.book": farm,
        "examples/farm.txt": farm_text(out),
        "examples/farm.out": out,
        "examples/farm.csv": farm_csv(),
        "examples/refused.book": REFUSED,
        "crates/belfry/stdin": farm,
        "crates/belfry/stdout": out,
    }


def figure_files():
    """Returns the files of crates/figures_books, by their paths."""
    reports = [report(f"{name}.book", b) for name, b in CASES.items()]
    return {
        **{f"{FOLDER}/data/{name}.book": b for name, b in CASES.items()},
        f"{FOLDER}/args": "".join(f"{name}.book\n" for name in CASES),
        f"{FOLDER}/stdout": "".join(reports) + RAGGED,
    }


def files():
    """Returns the content of each file, by its path."""
    return stored.as_bytes({**sample_files(), **figure_files()})


def main():
    """Writes or compares the files, and looks for others. Returns the exit status."""
    status = stored.main(files)
    there = {path.name for path in (stored.ROOT / FOLDER / "data").iterdir()}
    extra = sorted(there - {f"{name}.book" for name in CASES})
    for name in extra:
        print(f"FAILED  {FOLDER}/data/{name} isn't made here")
    return status or (1 if extra else 0)


if __name__ == "__main__":
    sys.exit(main())
