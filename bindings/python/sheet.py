from belfrychest import Node, nodes, sheet, words

# A farm of two fields: the one from above, and field 6 with one zone that has two samples.
zones = words([Node(5, 2, 10, 2), Node(5, 3, 7, 3), Node(6, 1, 8, 1)])
samples = words([Node(5, 4, 6, 4), Node(5, 8, 9, 3), Node(6, 2, 3, 2), Node(6, 5, 6, 2)])
hundredths = [None, 450, 380, 420]

for zone, subtotal in zip(nodes(zones), sheet(zones, samples, hundredths)):
    print(f"field {zone.document} zone {zone.start}-{zone.end}: {subtotal}")
