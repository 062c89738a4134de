"""What links bring on big farms with few samples, as Markdown. bench/run prints it among its
tables, and bench/farms by itself."""
from figures import MOST_NODES, instructions, run
from tables import item, progress, say, table

ZONES = {
    "flat": "zones side by side",
    "fields": "64 zones side by side, each of which holds 63 zones side by side",
    "documents": "the same, with each of the 64 in a document of its own",
    "nests": "65 nests of 63 zones",
    "side": "33 nests of 62 zones; in each zone a small zone comes before the next zone",
    "barren": "a nest of 61 zones; in each zone one that holds 63 zones comes before the next "
              "zone, and 64 small zones lie in the innermost",
}
COUNTS = (8, 64, 512)
PLACES = ("first", "last", "spread")
RELATIONS = {"inside": "inside", "directly": "directly inside"}
ORDERS = ("descendant", "ancestor")
ROOMS = {"all": "Whole listings", "late": "Late pages"}
FARMS = [(zones, count, place) for zones in ZONES for count in COUNTS for place in PLACES]


def shape_of(farm):
    return "farm-{}-{}-{}".format(*farm)


def both(farm, listing):
    """Returns the archive's instructions for a listing of a farm, plain and with links."""
    return [instructions("archive", measure, shape_of(farm))
            for measure in (listing, f"linked-{listing}")]


def ratio(farm, listing):
    plain, linked = both(farm, listing)
    return linked / plain


def looked_cells(farm, listing):
    """Returns how many zones the plain call decides about, and the call with links, with those that
    it reads in addition.
    """
    words = run("driver", "looked", listing, shape_of(farm), MOST_NODES).split()
    plain, linked, probed = map(int, words)
    return f"{plain:,}", f"{linked:,} + {probed:,}" if probed else f"{linked:,}"


def order_cells(farm, listing):
    plain, linked = both(farm, listing)
    return *looked_cells(farm, listing), f"{plain:,}", f"{linked:,}", f"{linked / plain:.2f}"


def farm_row(farm, relation, room):
    zones, count, place = farm
    cells = [cell for order in ORDERS
             for cell in order_cells(farm, f"{relation}-{order}-{room}")]
    return zones, count, place, *cells


def print_table(relation, room):
    title = f"{ROOMS[room]}, {RELATIONS[relation]}"
    progress(f"farms: {title}")
    print(f"\n#### {title}")
    heads = [head for order in ORDERS for head in (f"{order} order: plain looks at",
                                                   "linked looks at", "plain", "linked", "ratio")]
    table(("zones", "samples", "in", *heads), [farm_row(farm, relation, room) for farm in FARMS])


def range_cells(zones, order, room):
    """Returns the least and the greatest ratio over farms and relations, and how many are below 1.
    """
    ratios = [ratio(farm, f"{relation}-{order}-{room}")
              for farm in FARMS if farm[0] == zones for relation in RELATIONS]
    fewer = sum(each < 1 for each in ratios)
    return f"{min(ratios):.2f}", f"{max(ratios):.2f}", f"{fewer} of {len(ratios)}"


def print_ranges():
    progress("farms: ranges")
    table(("zones", "order", "whole listing, least", "most", "fewer with links",
           "late page, least", "most", "fewer with links"),
          [(zones, order, *range_cells(zones, order, "all"), *range_cells(zones, order, "late"))
           for zones in ZONES for order in ORDERS])


def print_farms():
    print("\n### Big farms with few samples")
    say(f"{MOST_NODES:,} zones, or as many as make whole groups, of which 8, 64 or 512 have a "
        "sample of their own. These are the first zones of the list, its last ones, or the last of "
        "equal stretches of it. The sample comes first in its zone. The zones lie in six ways:")
    print()
    for zones, words in ZONES.items():
        item(f"{zones}: {words}")
    say("A whole listing is one page. A late page begins after three quarters of the pairs and has "
        "room for the others. The ratio is that of the call with links to the plain one, in "
        "instructions. Both check both lists, and the call with links checks the links too.")
    say("This is the least and the greatest ratio for each way and order, over both relations, and "
        "how many of these listings take fewer instructions with links:")
    print_ranges()
    say("The tables after this one show each listing. The zones that a call looks at are those "
        "that it reads to decide about. In descendant order they stand before the last sample, and "
        "in ancestor order they come from the first on that wasn't served. With links the zones "
        "inside one that is passed aren't among them, nor are those after the last sample. After "
        "the plus are the zones that a jump reads in addition, to confirm how far it may go.")
    for room in ROOMS:
        for relation in RELATIONS:
            print_table(relation, room)


if __name__ == "__main__":
    print_farms()
