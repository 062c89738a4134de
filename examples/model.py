#!/usr/bin/env python3
"""Seed rates for the zones of a farm, from a CSV of fields, zones and samples with their parents.

    PYTHONPATH=bindings/python python3 examples/model.py examples/model.csv

The fields are numbered, their zones and samples paired, and each zone gets a rate from the readings
of the samples under it. A sample without a reading counts as a sample, and its reading is None,
never 0; a zone without any reading gets no rate. It tells of a line that can't be placed, and of a
reading that is no number. It tells of a field that is too large (4,096 marks, and a row takes two).
Then it prints no rate.
"""
import csv
import math
import sys
from array import array

import belfrychest

COLUMNS = ["id", "parent", "kind", "name", "organic_matter"]
TAGS = {"field": 1, "zone": 2, "sample": 3}


class Wrong(Exception):
    """What is wrong with the CSV, and where."""


class Row:
    """A line of the CSV: what it says, and the rows that name it as their parent."""

    def __init__(self, line, values):
        self.line = line
        self.children = []
        self.id, self.parent, self.kind, self.name, text = (value.strip() for value in values)
        if self.kind not in TAGS:
            raise Wrong(f"line {line}: the kind {self.kind!r} is none of {', '.join(TAGS)}")
        self.reading = reading(line, text)


def reading(line, text):
    """Returns the organic matter that was read, in percent, or None if it is missing."""
    try:
        found = float(text) if text else None
    except ValueError:
        found = math.nan
    if found is not None and not math.isfinite(found):
        raise Wrong(f"line {line}: the organic matter {text!r} is no number")
    return found


def read(path):
    """Returns the CSV's rows by their ids."""
    rows = {}
    with open(path, newline="", encoding="utf-8-sig") as file:
        lines = csv.reader(file)
        if next(lines, None) != COLUMNS:
            raise Wrong(f"line 1: the columns must be {','.join(COLUMNS)}")
        for values in lines:
            if len(values) != len(COLUMNS):
                raise Wrong(f"line {lines.line_num}: it has {len(values)} columns")
            row = Row(lines.line_num, values)
            if rows.setdefault(row.id, row) is not row:
                raise Wrong(f"line {row.line}: line {rows[row.id].line} has the id {row.id!r} too")
    return rows


def plant(rows):
    """Gives each row to its parent. Returns the fields, which have none."""
    fields = []
    for row in rows.values():
        parent = rows.get(row.parent)
        if row.kind == "field" and not row.parent:
            fields.append(row)
        elif row.kind == "field" or parent is None or parent.kind == "sample":
            raise Wrong(f"line {row.line}: a {row.kind} can't have the parent {row.parent!r}")
        else:
            parent.children.append(row)
    return fields


def walk(field):
    """Returns a field's marks, and its rows in the order in which they open."""
    marks, opened, waiting = array("I"), [], [field]
    while waiting:
        row = waiting.pop()
        if row is None:
            marks.append(belfrychest.CLOSE)
            continue
        marks.append(TAGS[row.kind])
        opened.append(row)
        waiting += [None, *reversed(row.children)]
    return marks, opened


def number(fields):
    """Returns the list of the zones, that of the samples, and the row of each node by its document
    and start. The first field is document 1.
    """
    zones, samples, row_of = array("I"), array("I"), {}
    for document, field in enumerate(fields, 1):
        marks, opened = walk(field)
        try:
            table = belfrychest.number(document, marks)
        except belfrychest.Refused as refused:
            raise Wrong(f"line {field.line}: a field of {len(opened)} rows: {refused}") from None
        zones += belfrychest.pick(table, TAGS["zone"])
        samples += belfrychest.pick(table, TAGS["sample"])
        row_of.update((node[:2], row) for node, row in zip(belfrychest.rows(table), opened))
    return zones, samples, row_of


def rate(readings):
    """Returns how many seeds to sow on a square metre, or None if there is no reading. The rate is
    for the example only and nothing to sow by.
    """
    present = [found for found in readings if found is not None]
    return 380 - 20 * min(sum(present) / len(present), 5) if present else None


def main(path):
    rows = read(path)
    fields = plant(rows)
    zones, samples, row_of = number(fields)
    placed = set(row_of.values())
    unplaced = [row.line for row in rows.values() if row not in placed]
    if unplaced:
        raise Wrong(f"line {unplaced[0]}: its parents lead round in a circle, and to no field")
    readings = {zone[:2]: [] for zone in belfrychest.nodes(zones)}
    found = belfrychest.Pieces(zones, samples).listing()
    for zone, sample in belfrychest.node_pairs(found):
        readings[zone[:2]].append(row_of[sample[:2]].reading)
    report(fields, row_of, readings)


def report(fields, row_of, readings):
    """Prints a line for each zone."""
    print(f"{'field':<14}{'zone':<18}{'samples':>8}{'read':>6}{'rate':>6}")
    for place, found in readings.items():
        field, zone, sown = fields[place[0] - 1].name, row_of[place].name, rate(found)
        present = len(found) - found.count(None)
        shown = "none" if sown is None else f"{sown:.0f}"
        print(f"{field:<14}{zone:<18}{len(found):>8}{present:>6}{shown:>6}")


if __name__ == "__main__":
    if len(sys.argv) != 2:
        sys.exit("usage: model.py CSV")
    try:
        main(sys.argv[1])
    except Wrong as wrong:
        sys.exit(f"{sys.argv[1]}: {wrong}")
