from belfrychest import Grams, Node, words, zone_range

# The field from above. The lab has read one sample, and not the one inside both zones.
zones = words([Node(5, 2, 10, 2), Node(5, 3, 7, 3)])
samples = words([Node(5, 4, 6, 4), Node(5, 8, 9, 3)])
readings = [None, Grams(45.0)]

for zone in range(2):
    print(f"zone {zone}: {zone_range(zones, samples, readings, zone)}")
