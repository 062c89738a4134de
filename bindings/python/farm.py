"""The farm of docs/SCOPE.md: its marks are numbered, its zones and samples picked and paired; then
two samples change places, which is refused.
"""
from array import array

import belfrychest
from belfrychest import CLOSE, TEXT, Order, Refused, Relation

FIELD, ZONE, SAMPLE = 1, 2, 3
marks = array("I", [FIELD, ZONE, ZONE, SAMPLE, TEXT, CLOSE, CLOSE, SAMPLE, CLOSE, CLOSE, CLOSE])
table = belfrychest.number(5, marks)
zones = belfrychest.pick(table, ZONE)
samples = belfrychest.pick(table, SAMPLE)

count = 0
for zone, sample in belfrychest.pairs(
        zones, samples, relation=Relation.INSIDE, order=Order.DESCENDANT):
    print(zone.document, zone.start, sample.start)
    count += 1
print("pairs", count)

try:
    belfrychest.check_two(zones, samples[4:] + samples[:4])
except Refused as refused:
    place = f"list {refused.list} index {refused.index}"
    print(f"refused {refused.number:d} {refused.name} {place}")
