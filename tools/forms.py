#!/usr/bin/env python3
"""Finds the places in crates/*/src that docs/DESIGN-PASS.md counts, by what they look like.

usage: python3 tools/forms.py [POINT ..]    at the top of a checkout; all points if none is named

A point's line says how many places were found, and then comes a line for each. What is found is
not always an old form: the page says which are, and why a place is kept.
"""

import difflib
import itertools
import pathlib
import re
import sys

ITEM = re.compile(r"^(?:pub(?:\(crate\))? )?(?:extern \"C\" )?"
                  r"(enum|struct|fn|impl|const|trait) ?(.*)$")
ANSWERS = ("RAGGED LONG LEVEL SPAN ORDER CROSS DEPTH JOINT ROOM MARK STRAY DEEP UNCLOSED TABLE "
           "CONTENTS ABSENT READING LINKS").split()
TWIN = 0.8


class Item:
    """A struct, enum, function or other item: its kind, its name, where it is and its lines."""

    def __init__(self, path, line, kind, rest):
        self.kind, self.lines = kind, [rest]
        self.name = re.match(r"[\w<> ]*", rest)[0].strip()
        self.place = f"{path}:{line} {self.name}"

    def clauses(self):
        """Returns the lines between the signature and the body."""
        text = "\n".join(self.lines)
        found = re.search(r"\n    (?:requires|ensures)[\s\S]*?\n\{\n", text)
        return found[0] if found else ""

    def code(self):
        """Returns the lines without comments and clauses."""
        text = "\n".join(self.lines).replace(self.clauses(), "\n{\n")
        return re.sub(r"//.*", "", text)

    def parameters(self):
        """Returns the names and types of the parameters."""
        head = self.code().split("{\n")[0]
        return re.findall(r"(\w+): ([^,()]*(?:\([^)]*\))?)", head)


def items(top):
    """Yields the items of all crates, methods too."""
    for path in sorted(top.glob("crates/*/src/*.rt")):
        item = None
        for number, line in enumerate(path.read_text().splitlines(), 1):
            found = ITEM.match(re.sub("^    (?=(?:pub )?fn )", "", line))
            if found:
                item = Item(path.relative_to(top), number, *found.groups())
                yield item
            elif item:
                item.lines.append(line)


def shapes(all_items):
    """Yields point 1: enums like Option or Result, flags beside values, bare answer numbers."""
    for item in all_items:
        if item.kind == "enum":
            variants = re.findall(r"^    (\w+)(\(.*\))?,$", "\n".join(item.lines), re.M)
            full = [name for name, inside in variants if inside]
            if full and len(variants) - len(full) < 2 and len(variants) < 4:
                yield f"{item.place}: an enum like Option or Result"
        if item.kind == "struct":
            for name in re.findall(r"^    (?:pub )?(\w+): bool,", "\n".join(item.lines), re.M):
                yield f"{item.place}.{name}: a flag in a struct"
        if item.kind == "fn":
            for name, kind in item.parameters():
                if kind == "bool":
                    yield f"{item.place}: the flag {name} beside other parameters"
            body = item.code().split("{\n", 1)[-1]
            named = sorted({name for name in ANSWERS if re.search(rf"\b{name}\b", body)})
            if named:
                yield f"{item.place}: the answers {', '.join(named)} by number"
            tested = re.findall(r"\b(\w+(?:\.\w+)*) [!=]= TAKEN", body)
            if tested:
                yield f"{item.place}: {', '.join(sorted(set(tested)))} compared with TAKEN"


def words(item):
    """Returns the tokens of a function's body."""
    return re.findall(r"\w+|[^\w\s]", item.code().split("{\n", 1)[-1])


def twins(all_items):
    """Yields point 2: functions whose bodies are nearly the same, token by token."""
    found = [(item, words(item)) for item in all_items if item.kind == "fn"]
    found = [(item, its) for item, its in found if ";" in its or "{" in its]
    for (one, mine), (other, its) in itertools.combinations(found, 2):
        if min(len(mine), len(its)) < 24 or not 0.6 < len(mine) / len(its) < 1.7:
            continue
        matcher = difflib.SequenceMatcher(None, mine, its, autojunk=False)
        if matcher.quick_ratio() >= TWIN and matcher.ratio() >= TWIN:
            yield f"{one.place} ~ {other.place}: {matcher.ratio():.2f}"


def loops(all_items):
    """Yields point 3: loops that step a counter by hand."""
    for item in all_items:
        body = item.code()
        for test in re.findall(r"^ +(?:'\w+: )?while (.*) \{$", body, re.M):
            for name in dict.fromkeys(re.findall(r"\b[a-z]\w*\b", test)):
                if re.search(rf"^ +{name} [+-]= (?:1|2|[A-Z_]+);$", body, re.M):
                    yield f"{item.place}: while {test}"
                    break


def by_hand(all_items):
    """Yields point 4: equality, order, conversion and copying that look written by hand."""
    for item in all_items:
        if item.kind != "fn":
            continue
        body, kinds = item.code().split("{\n", 1)[-1], item.parameters()
        fields = re.findall(r"\b(\w+)\.(\w+) [!=<]=? (\w+)\.\2\b", body)
        if len({field for _, field, _ in fields}) > 1:
            yield f"{item.place}: compares fields one by one"
        if re.search(r"(\w+)\[(\w+)[^\]]*\] = \w+\[\2[^\]]*\];", body):
            yield f"{item.place}: copies one by one"
        if len(re.findall(r"\b(256|65536|16777216)\b", body)) > 1:
            yield f"{item.place}: takes a number apart by hand"
        if re.match(r"\s*if (\w+) < (\w+) \{\s*(?:return )?\1;?\s*\}\s*(?:else \{ )?\2", body):
            yield f"{item.place}: the lesser of two by hand"
        if len(kinds) == 1 and re.search(r"-> [A-Z]\w+(?: |\n|$)", item.code().split("{\n")[0]):
            if re.match(r"^[A-Z]\w+$|^u32$|^bool$", kinds[0][1].strip()):
                yield f"{item.place}: a conversion of one value"


def facts(all_items):
    """Yields point 5: a fact in three or more contracts, and parameters that travel together."""
    clauses, together = {}, {}
    for item in all_items:
        if item.kind != "fn":
            continue
        for clause in re.findall(r"requires \{([\s\S]*?)\}\n", item.clauses()):
            for fact in re.split(r" × |;|\n", clause.replace("record {", "")):
                fact = re.sub(r"^\w+ : ", "", fact.strip().strip("()")).strip()
                if len(fact) > 12:
                    clauses.setdefault(fact, []).append(item.place)
        crate = item.place.split("/")[1]
        names = [name for name, _ in item.parameters()]
        for pair in itertools.combinations(sorted(names), 2):
            if not crate.startswith("belfrychest"):
                together.setdefault((crate, *pair), []).append(item.place)
    for fact, places in sorted(clauses.items()):
        if len(places) > 2:
            yield f"{len(places)} contracts: {fact}"
    for (crate, *pair), places in sorted(together.items()):
        if len(places) > 4:
            yield f"{len(places)} functions of {crate}: {', '.join(pair)}"


def buffers(all_items):
    """Yields point 6: arrays of a fixed size with a length or a place beside them."""
    for item in all_items:
        if item.kind == "fn":
            names = [name for name, _ in item.parameters()]
            arrays = [name for name, kind in item.parameters()
                      if re.match(r"&(?:mut )?\[.*;", kind)]
            beside = {"used", "depth", "top", "left", "at", "written", "count"} & set(names)
            if arrays and beside:
                yield f"{item.place}: {', '.join(arrays)} with {', '.join(sorted(beside))}"


def switches(all_items):
    """Yields point 7: a choice of the step by a parameter."""
    for item in all_items:
        names = [name for name, _ in item.parameters()] if item.kind == "fn" else []
        for name in re.findall(r"match (\w+) \{", item.code()):
            if name in names:
                yield f"{item.place}: match {name}"


POINTS = {"1": shapes, "2": twins, "3": loops, "4": by_hand, "5": facts, "6": buffers,
          "7": switches}


def main():
    """Prints the places of the points that the arguments name."""
    found = list(items(pathlib.Path.cwd()))
    for point in sys.argv[1:] or POINTS:
        places = list(POINTS[point](found))
        print(f"point {point}: {len(places)}")
        print("".join(f"  {place}\n" for place in places), end="")


main()
