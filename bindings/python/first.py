from belfrychest import Node, pairs, words

# Two zones of field 5, one inside the other, and two samples, by document, start, end and level.
zones = words([Node(5, 2, 10, 2), Node(5, 3, 7, 3)])
samples = words([Node(5, 4, 6, 4), Node(5, 8, 9, 3)])

for zone, sample in pairs(zones, samples):
    print(f"zone {zone.start}-{zone.end} holds sample {sample.start}-{sample.end}")
