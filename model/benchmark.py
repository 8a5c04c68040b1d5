"""What the program `benchmark` prints on standard output: python3 model/benchmark.py"""
from fields import Prime
from generators import Inverses, shortest

inverses = Inverses(Prime)
granted = lengths = 0
number = 1
for _ in range(1000):
    stretch = []
    for _ in range(32):
        number = (number * 1664525 + 1013904223) % 2**32
        stretch.append((number >> 8) % Prime.size)
    length, _, _ = shortest(Prime, inverses, stretch)
    if 2 * length <= 32:
        granted += 1
        lengths += length
print("generators stretches 1000 granted", granted, "lengths", lengths)
