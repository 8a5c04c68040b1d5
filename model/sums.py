"""What the program `sums` prints for its input, from the definition: python3 model/sums.py < input"""
import sys

from fields import Binary, Prime


def sums(field, marks, places):
    powers = [1]
    while field.mul(powers[-1], field.base) != 1:
        powers.append(field.mul(powers[-1], field.base))
    for place in range(places):
        total = 0
        for block, mark in enumerate(marks):
            weight = powers[place * block % len(powers)]
            total = field.add(total, field.mul(mark % field.size, weight))
        yield place, total


marks = list(sys.stdin.buffer.read()[:65536])
print("blocks", len(marks))
for field in (Prime, Binary):
    for place, total in sums(field, marks, 16):
        print("kind", field.kind, "place", place, "sum", total)
