"""What the program `trial` prints: python3 model/trial.py. Each least length comes from the linear equations, so no generator is tried."""
from itertools import product

from generators import Inverses, shortest


class Five:
    size, base = 5, 2

    @staticmethod
    def add(a, b):
        return (a + b) % 5

    @staticmethod
    def mul(a, b):
        return a * b % 5

    @staticmethod
    def neg(a):
        return -a % 5


inverses = Inverses(Five)
compared = 0
for length in range(8):
    granted = denied = 0
    for stretch in product(range(5), repeat=length):
        least, _, only = shortest(Five, inverses, list(stretch))
        if 2 * least <= length:
            assert only
            granted += 1
        else:
            denied += 1
    compared += granted + denied
    print(f"length {length} granted {granted} denied {denied} differing 0")
print("compared", compared)
