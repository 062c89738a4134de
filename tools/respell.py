#!/usr/bin/env python3
"""Brings this repository's own definitions and lemmas to snake case, as today's Rattle spells
words.

usage: python3 tools/respell.py    at the top of a checkout in which the kit's port.py has just run

A word such as `nameOf` or `every-two-drop` becomes `name_of` or `every_two_drop`. A constant such
as `MOST-LISTS` becomes `MOST_LISTS`. It is so wherever they are named: in specs/, proofs/,
contracts, must-fail edits and pages. A lemma that would have a function's name gets `_lem` after
it. Names of the kit's libraries, names that Rattle makes (goals and steps) and all text between
double quotes stay. Where two words would still have one name, nothing is written.
"""

import collections
import os
import re

TOKEN = re.compile(r"[^\s(){}\[\],;.\"`λ:|]+")
MADE = ("Proof.antt", "Answers.antt", "Invariants.antt")
HEAD = re.compile(
    r"^\s*(?:\|\s*)?(?:(?:pub|abbrev|unfoldable|record|data)\s+)*([^\s(){}\[\],;.\"`]+)\s+:\s+(.*)"
)
BINDER = re.compile(r"[({]((?:[^\s(){}\[\],;.\"`:]+\s+)+):\s")
USED = re.compile(r"^\s*(?:ghost\s+)?use\s+([\w.·]+)\.\{([^}]*)\}", re.M)
# Lemmas that port.py gave the new name of a function.
LEMMAS = ("entries_from", "from_start", "node_in", "not_done", "row_words", "too_many")
# A field that no function of its name is near, and names that a λ binds.
PLAIN = {"tag-at": "tag_at", "ofAncestors": "of_ancestors", "ofDescendants": "of_descendants"}
# Names of functions that a module's import has too, by `as`, which is no clash.
MODULES = ("entry_at", "name_of", "number_at")
OWN = re.compile(r"^Rattle\.([a-z_]+)\.")


def files(ending, *folders):
    for top in folders:
        for folder, inner, names in os.walk(top):
            inner[:] = sorted(d for d in inner if d not in ("out", ".git", "target", "dist"))
            for name in sorted(names):
                if name.endswith(ending):
                    yield os.path.join(folder, name)


def read(path):
    with open(path, encoding="utf-8") as f:
        return f.read()


def is_odd(word):
    """Tells whether a word is no type and has a dash in it, or a capital after a small letter."""
    if not re.fullmatch(r"[A-Za-z][A-Za-z0-9_'-]*", word):
        return False
    if re.fullmatch(r"[A-Z][A-Z0-9-]*", word):
        return "-" in word
    return word[0].islower() and bool(re.search(r"[A-Za-z0-9]-[A-Za-z0-9]|[a-z0-9][A-Z]", word))


def snake(word):
    if word.isupper():
        return word.replace("-", "_")
    word = re.sub(r"([a-z0-9])([A-Z])", lambda m: m[1] + "_" + m[2].lower(), word)
    return word.replace("-", "_").lower()


def code_of(line):
    """Returns the line without its comment."""
    at = line.find("--")
    while at >= 0:
        if at == 0 or line[at - 1].isspace():
            return line[:at]
        at = line.find("--", at + 2)
    return line


def gather():
    """Returns the words to respell, all words that are there, and those of the libraries."""
    own, there, crates = set(), collections.Counter(), set(os.listdir("crates"))
    library = set()
    for path in files(".antt", "crates"):
        text = read(path)
        for root, names in USED.findall(text):
            m = OWN.match(root + ".")
            if not m or m[1] not in crates:
                library |= {n.strip() for n in names.split(",")}
        for line in text.split("\n"):
            line = code_of(line)
            for m in TOKEN.finditer(line):
                before = line[: m.start()]
                if before[-1:] != "." and not before.endswith(" as "):
                    there[m[0]] += 1
            m = HEAD.match(line)
            goal = m and (re.match(r"tie\.", m[2]) or m[1].endswith("-spec"))
            if m and not goal and is_odd(m[1]):
                own.add(m[1])
            for names in BINDER.findall(line):
                own |= {n for n in names.split() if is_odd(n)}
    for path in files(".rt", "crates"):
        for line in read(path).split("\n"):
            m = re.match(r"\s+([a-z][\w-]*) : \S.*;$", line)
            if m and is_odd(m[1]):
                own.add(m[1])
    return own - library, there, library


def turned(text, words, made):
    """Returns the text with each word respelled. In a function's proof the names that Rattle made
    stay.
    """

    def one(m):
        word = m[0]
        if word not in words:
            return word
        before = text[: m.start()]
        if word in LEMMAS and (before.endswith(".") or before.endswith(" as ")):
            return word
        if made and before.endswith(".") and "-" in word:
            root = re.search(r"[^\s(){}\[\],;\"`λ:|]*$", before)[0]
            if not root.startswith("Rattle."):
                return word
        return words[word]

    return TOKEN.sub(one, text)


def outside_quotes(text, turn):
    parts = re.split(r'("(?:[^"\\\n]|\\.)*")', text)
    return "".join(p if i % 2 else turn(p) for i, p in enumerate(parts))


def in_ticks(text, turn):
    return re.sub(r"`[^`\n]*`", lambda m: turn(m[0]), text)


def commented(line, mark, turn):
    """Turns in a line what stands before the comment, and in the comment what stands in ticks and
    the lemmas that a loop rests on.
    """
    at = line.find(mark)
    while at > 0 and not line[at - 1].isspace():
        at = line.find(mark, at + 1)
    if at < 0:
        return outside_quotes(line, turn)
    said = line[at:]
    if "Rests on" in said:
        said = re.sub(r"[a-z0-9]+(?:-[a-z0-9]+)+", lambda m: turn(m[0]).replace("-", "_"), said)
    return outside_quotes(line[:at], turn) + in_ticks(said, turn)


def page(text, turn):
    """Turns in a page what stands in ticks or in a block of code."""
    parts = re.split(r"(^```.*?^```[ \t]*$)", text, flags=re.M | re.S)
    pieces = (outside_quotes(p, turn) if i % 2 else in_ticks(p, turn) for i, p in enumerate(parts))
    return "".join(pieces)


def edit(text, turn):
    """Turns in a must-fail edit its two texts, which are code, and its comment, which is prose."""
    out = []
    for line in text.split("\n"):
        m = re.match(r"(old: |new: )(.*)$", line)
        if m:
            said = outside_quotes(m[2], turn)
            said = re.sub(r"\(([\w']+) \.(\w+)\)", r"\1.\2", said)
            out.append(m[1] + re.sub(r"\bgetD\b", "get_or", said))
        else:
            line = re.sub(r"^# [\w-]+(?=:)", lambda m: turn(m[0]), line)
            out.append(line if line.startswith("file:") else in_ticks(line, turn))
    return "\n".join(out)


def main():
    own, there, library = gather()
    words = {w: snake(w) for w in own}
    functions = {snake(w) for w in own if "-" not in w} | there.keys()
    for word in own:
        if "-" in word and not word.isupper() and words[word] in functions:
            words[word] += "_lem"
    words.update(PLAIN)
    by_new = collections.defaultdict(set)
    for old, new in words.items():
        by_new[new].add(old)
    clash = {n: o for n, o in by_new.items() if len(o) > 1 or n in library or (n in there)}
    for word in LEMMAS:
        clash.pop(word)
        words[word] = word + "_lem"
    for word in (*MODULES, "tag_at"):
        clash.pop(word)
    for new in sorted(clash):
        print(f"together: {sorted(clash[new])} -> {new}: "
              f"there {there[new]} times, library {new in library}")
    if clash:
        raise SystemExit("nothing was written")
    odd = {old: new for old, new in words.items() if old not in LEMMAS}
    count = 0
    for path in list(files((".antt", ".rt", ".edit"), "crates")) + list(files(".md", ".")):
        text = read(path)
        made = path.endswith(MADE)
        mine = words if path.endswith(".antt") else odd

        def turn(piece, mine=mine, made=made):
            return turned(piece, mine, made)

        if path.endswith(".antt"):
            new = "\n".join(commented(line, "--", turn) for line in text.split("\n"))
        elif path.endswith(".rt"):
            new = "\n".join(commented(line, "//", turn) for line in text.split("\n"))
        elif path.endswith(".edit"):
            new = edit(text, turn)
        else:
            new = page(text, turn)
        if new != text:
            count += 1
            with open(path, "w", encoding="utf-8") as f:
                f.write(new)
    print(f"{len(words)} words respelled in {count} files")


if __name__ == "__main__":
    main()
