"""The same listing in Python: all pairs tested, and a sweep along the sorted lists, timed. Nothing
is checked."""
import time
from statistics import median

MOST_ROUNDS, LEAST_ROUNDS, ENOUGH_NANOSECONDS = 201, 3, 10 ** 9


def all_pairs(zones, samples):
    """Tests every zone against every sample. Returns the pairs in descendant order."""
    return [(z, s) for s in samples for z in zones if z[0] == s[0] and z[1] < s[1] and s[2] <= z[2]]


def sweep_samples(zones, samples):
    """Pairs each sample with the zones that are open at it. Returns the pairs in descendant order.
    """
    pairs, open_zones, i = [], [], 0
    for s in samples:
        while i < len(zones) and zones[i][:2] < s[:2]:
            leave(open_zones, zones[i])
            open_zones.append(zones[i])
            i += 1
        leave(open_zones, s)
        pairs += [(z, s) for z in open_zones]
    return pairs


def leave(open_zones, node):
    """Takes the zones off that ended before a node."""
    while open_zones and (open_zones[-1][0], open_zones[-1][2]) < node[:2]:
        open_zones.pop()


def sweep_zones(zones, samples):
    """Pairs each zone with the run of samples that start in it. Returns the pairs in ancestor
    order.
    """
    pairs, first = [], 0
    for z in zones:
        document, start, end, _ = z
        while first < len(samples) and samples[first][:2] <= (document, start):
            first += 1
        k = first
        while k < len(samples) and samples[k][0] == document and samples[k][1] <= end:
            pairs.append((z, samples[k]))
            k += 1
    return pairs


BY_ORDER = {"descendant": (sweep_samples, all_pairs), "ancestor": (sweep_zones,)}


def timed(join, zones, samples, pairs):
    """Returns the median processor time in nanoseconds of a join that has to find `pairs` pairs. It
    takes a few rounds at least, and more until a second has passed.
    """
    times = []
    while (len(times) < LEAST_ROUNDS
           or (len(times) < MOST_ROUNDS and sum(times) < ENOUGH_NANOSECONDS)):
        before = time.process_time_ns()
        found = len(join(zones, samples))
        times.append(time.process_time_ns() - before)
        if found != pairs:
            raise SystemExit(f"{join.__name__} found {found} pairs, not {pairs}")
    return median(times)
