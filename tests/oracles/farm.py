"""A farm of four fields, each a tree of zones and samples. A sample's text is its lab number."""
from itertools import chain

from scope import TEXT, book, number

TAGS = {"field": 1, "zone": 2, "sample": 3, "text": TEXT}
KINDS = {tag: kind for kind, tag in TAGS.items()}


def element(kind, name, *contents):
    """Returns the marks of an element, each with its name: opening, contents, close."""
    return [(TAGS[kind], name), *chain.from_iterable(contents), (0, None)]


def within(kind, name, parts):
    """Returns the marks of a field or zone. A text among its parts names a sample."""
    return element(kind, name, *(sample(part) if isinstance(part, str) else part for part in parts))


def sample(name):
    return element("sample", name, [(TEXT, name)])


def zone(name, *parts):
    return within("zone", name, parts)


def field(name, *parts):
    return within("field", name, parts)


FARM = {
    101: field("North Field",
               zone("loam", "N1", zone("clay pocket", "N2", "N3"), "N4"),
               zone("headland", "N5")),
    102: field("River Meadow",
               zone("silt", zone("gravel bar", zone("old ford", "R1"), "R2")),
               "R3"),
    103: field("Chalk Hill",
               zone("chalk"),
               "H1",
               zone("flint cap", zone("quarry fill"))),
    104: field("Orchard",
               zone("terrace", "O1",
                    zone("spring line", "O2", zone("wet hole", "O3"), "O4"),
                    "O5")),
}


def rows():
    """Returns (document, start, end, level, kind, name) of each node, in start order."""
    found = []
    for document, marks in FARM.items():
        _, table = number(document, [mark for mark, _ in marks])
        names = [name for mark, name in marks if mark > 0]
        found += [(*row[:4], KINDS[row[4]], name) for row, name in zip(table, names)]
    return found


def lists():
    """Returns the (tag, nodes) lists of the farm's book."""
    return [(tag, [row[:4] for row in rows() if row[4] == kind])
            for kind, tag in TAGS.items() if kind != "field"]


def farm_book():
    return book(*lists())


def farm_csv():
    """Returns the lists of the farm's book as `python -m belfrychest` unpacks them."""
    lines = ["tag,document,start,end,level"]
    lines += [",".join(map(str, (tag, *node))) for tag, nodes in lists() for node in nodes]
    return "\n".join([*lines, ""])


HEAD = """\
farm.book: a farm of four fields, each a document. It has their zones (tag 2), the samples taken in
them (tag 3) and the samples' lab numbers, which are texts (tag 65536). River Meadow has a sample
outside every zone (R3). Chalk Hill has one too (H1), a zone without a sample, and a zone that holds
only a zone.

  document start  end level

"""


def farm_text(listing):
    """Returns the farm row by row, and what each printed line means."""
    said = [f"  {document:8} {start:5} {end:4} {level:5}  {'  ' * level}{kind} {name}"
            for document, start, end, level, kind, name in rows()]
    said += ["", "The program prints a line for each zone and each sample inside it, however deep "
             "(farm.out):", ""]
    names = {row[:2]: row[5] for row in rows()}
    for line in listing.splitlines()[:-1]:
        document, zone, sample = map(int, line.split())
        said.append(f"  {line:12}  {names[document, zone]}, {names[document, sample]}")
    return HEAD + "\n".join([*said, f"  {listing.splitlines()[-1]}", ""])
