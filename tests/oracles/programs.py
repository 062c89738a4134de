#!/usr/bin/env python3
"""Works out what the example programs and crates/figures_run print.

tests/oracles/programs.py           writes the files
tests/oracles/programs.py --check   writes nothing, and fails where a file holds something else

The answers and pairs come from scope.py, and the seed rates from the CSV's parents alone. It calls
nothing of the library.
"""
import csv
import sys

import stored
from figure_books import FIGURE, S, Z
from scope import (
    ANSWER, GRAMS, MISSING, MOST, NO_HUNDREDTHS, ask, bits_of, check_list, check_two, check_words,
    cut, flat, float_of, listing, page, pair_lines, sheet, zone_range,
)

FRESH = ("inside", "descendant", ())


# bindings/c/farm.c, and the same program in Rust and Python.

def farm():
    """Returns the pairs of the scope's figure, and the refusal of its samples in wrong order."""
    answer, number, index = check_two(flat(Z), flat(S[::-1]))
    refusal = f"refused {ANSWER[answer]} {answer} list {number} index {index}\n"
    return pair_lines(listing(Z, S, "inside", "descendant")) + refusal


# bindings/python/first.py, the first program that README shows.

def first():
    """Returns the pairs of the scope's figure in words."""
    pairs = listing(Z, S, "inside", "descendant")
    lines = [f"zone {x[1]}-{x[2]} holds sample {y[1]}-{y[2]}\n" for x, y in pairs]
    return "".join(lines)


# bindings/python/readings.py, the program of a zone without a reading.

def ranges():
    """Returns the ranges of the figure's zones, where the lab has read the second sample alone."""
    readings = [MISSING, 0, GRAMS, bits_of(45.0)]
    lines = []
    for zone in range(len(Z)):
        _, _, _, found = zone_range(flat(Z), flat(S), readings, zone)
        low_high = "Range(low={}, high={})".format(*map(float_of, found)) if found else None
        lines.append(f"zone {zone}: {low_high}\n")
    return "".join(lines)


# bindings/python/sheet.py, the program of a zone sheet.

def subtotals():
    """Returns the sheet of the figure and of a second field, whose zone has two samples."""
    zones, samples = [*Z, (6, 1, 8, 1)], [*S, (6, 2, 3, 2), (6, 5, 6, 2)]
    _, _, _, rows = sheet(flat(zones), flat(samples), [NO_HUNDREDTHS, 450, 380, 420])
    lines = ["field {} zone {}-{}: ".format(*zone)
             + "Subtotal(samples={}, present={}, sum={})\n".format(*row)
             for zone, row in zip(zones, rows)]
    return "".join(lines)


# bindings/python/questions.py, the program of several questions in one call.

def reply_line(name, answer, pairs):
    """Returns the line of a question."""
    if answer != "TAKEN":
        return f"{name}: refused {answer}\n"
    return f"{name}: " + ", ".join(f"{x[1]} holds {y[1]}" for x, y in pairs) + "\n"


def replies():
    """Returns the replies of the figure's book, which has no list under tag 4."""
    questions = {
        "samples": (2, 3, FRESH), "wells": (2, 4, FRESH),
        "samples directly inside": (2, 3, ("directly", *FRESH[1:])),
    }
    _, found = ask(FIGURE, list(questions.values()), MOST)
    lines = [reply_line(name, reply[0], reply[3]) for name, reply in zip(questions, found)]
    return "".join(lines)


# examples/cab.c, a terminal that fetches pages while the lists are edited.

FIELD, STRIPS, STRIP, STRIP_SAMPLES = 101, 50, 1000, 80


def cab_field():
    """Returns the zones and the samples of the field before all edits."""
    zones, samples = [(FIELD, 1, STRIP * (STRIPS + 1), 1)], []
    for start in range(STRIP, STRIP * STRIPS + 1, STRIP):
        zones.append((FIELD, start, start + STRIP - 1, 2))
        half, whole = start + 5 * STRIP_SAMPLES + 5, start + 10 * STRIP_SAMPLES + 5
        zones.append((FIELD, half, whole, 3))
        places = range(start + 10, start + 10 * STRIP_SAMPLES + 1, 10)
        samples += [(FIELD, place, place + 4, 5) for place in places]
    return zones, samples


def cab_page(zones, samples, ticket):
    """Returns the line of a page, whether it is done, and the new ticket."""
    answer, _, _ = check_two(flat(zones), flat(samples))
    if answer != "TAKEN":
        return f"page: {answer}", False, ticket
    pairs, done, ticket = page(listing(zones, samples, *FRESH[:2]), ticket, MOST)
    (first, last) = (f"zone {x[1]} with sample {y[1]}" for x, y in (pairs[0], pairs[-1]))
    line = f"page: TAKEN, {len(pairs)} pairs, from {first} to {last}"
    return line + (", done" if done else ""), done, ticket


def with_end(nodes, start, end):
    return [(d, s, end if s == start else e, level) for d, s, e, level in nodes]


def cab():
    """Returns what the terminal prints, edit by edit."""
    zones, samples = cab_field()
    said = [f"field: {len(zones)} zones, {len(samples)} samples"]
    line, _, ticket = cab_page(zones, samples, FRESH)
    said += [line, "edit: a zone from 30005 to 30205 is inserted"]
    zones = sorted([*zones, (FIELD, 30005, 30205, 3)])
    line, _, ticket = cab_page(zones, samples, ticket)
    said += [line, "edit: the sample at 1010, already fetched, is deleted"]
    samples = [sample for sample in samples if sample[1] != 1010]
    said.append("edit: the zone at 50000 is given the end 5999")
    zones = with_end(zones, 50000, 5999)
    line, _, ticket = cab_page(zones, samples, ticket)
    answer, number, index = check_two(flat(zones), flat(samples))
    _, start, end, _ = (zones, samples)[number][index]
    said += [line, f"repair: {answer} in list {number} at index {index}, from {start} to {end}; "
             "now to 50999"]
    zones, done = with_end(zones, 50000, 50999), False
    while not done:
        line, done, ticket = cab_page(zones, samples, ticket)
        said.append(line)
    return "\n".join([*said, ""])


# examples/model.py: seed rates from a CSV. A sample is under each zone among its parents.

def parents(rows, row):
    """Returns the ids of all that a row is in."""
    found = []
    while row["parent"]:
        found.append(row["parent"])
        row = rows[row["parent"]]
    return found


def below(rows, id_):
    """Returns the ids under a row: each child with all that is under it, in the CSV's order."""
    found = []
    for child, row in rows.items():
        if row["parent"] == id_:
            found += [child, *below(rows, child)]
    return found


def rate_line(rows, field, id_):
    """Returns the line of a zone."""
    texts = [row["organic_matter"] for row in rows.values()
             if row["kind"] == "sample" and id_ in parents(rows, row)]
    present = [float(text) for text in texts if text]
    rate = f"{380 - 20 * min(sum(present) / len(present), 5):.0f}" if present else "none"
    name = rows[id_]["name"]
    return f"{field:<14}{name:<18}{len(texts):>8}{len(present):>6}{rate:>6}\n"


def rates():
    """Returns what the model prints of examples/model.csv."""
    with open(stored.ROOT / "examples/model.csv", newline="", encoding="utf-8") as file:
        rows = {row["id"]: row for row in csv.DictReader(file)}
    lines = [f"{'field':<14}{'zone':<18}{'samples':>8}{'read':>6}{'rate':>6}\n"]
    for id_, row in rows.items():
        if row["kind"] == "field":
            lines += [rate_line(rows, row["name"], inner) for inner in below(rows, id_)
                      if rows[inner]["kind"] == "zone"]
    return "".join(lines)


# crates/figures_run: texts side by side, checked and joined with themselves, and as samples.

def texts_lines(label, count):
    """Returns the two lines of this number of words."""
    words = flat([(5, place, place, 1) for place in range(count // 4)]) + [0] * (count % 4)
    answer, index = check_words(words, 4), 0
    pairs, done = [], False
    if answer == "TAKEN":
        nodes = cut(words, 4)
        answer, index = check_list(nodes)
        pairs, done, _ = page(listing(nodes, nodes, *FRESH[:2]), FRESH, 1)
    verdict = f"{ANSWER[answer]} [{answer:8}] list 0 index {index}"
    return (f"{label}: {verdict}\n{label}, joined: {verdict}, pairs {len(pairs)}, "
            f"{'done' if done else 'not done'}\n")


def sheet_line():
    """Returns the line of a zone's sheet with as many samples as a list may have."""
    texts = flat([(5, place, place, 2) for place in range(1, 4097)])
    answer, list_, index, rows = sheet(flat([(5, 0, 5000, 1)]), texts, [10000] * 4096)
    samples, present, total = rows[0]
    return (f"4096 samples of 10000: {ANSWER[answer]} [{answer:8}] list {list_} index {index}, "
            f"zones {len(rows)}, samples {samples}, present {present}, sum {total}\n")


def lengths():
    counts = {"empty lists": 0, "4096 nodes": 16384, "4097 nodes": 16388, "16385 words": 16385}
    return "".join(texts_lines(label, count) for label, count in counts.items()) + sheet_line()


def files():
    """Returns the files by their paths, as they have to be."""
    return stored.as_bytes({
        "bindings/c/farm.out": farm(),
        "bindings/python/first.out": first(),
        "bindings/python/readings.out": ranges(),
        "bindings/python/sheet.out": subtotals(),
        "bindings/python/questions.out": replies(),
        "examples/cab.out": cab(),
        "examples/model.out": rates(),
        "crates/figures_run/stdout": lengths(),
    })


if __name__ == "__main__":
    sys.exit(stored.main(files))
