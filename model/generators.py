"""The shortest generator of a stretch, from the definition: for each length in turn the linear equations for g_0, g_1 and on are solved by
elimination, and the first length that has a solution is the least. The worked values in the tests of the crate `generator` are its
answers: python3 model/generators.py KIND ROOM NUMBER.., where ROOM is the number of numbers of the memory."""
import sys

from fields import Binary, Prime


class Inverses:
    """All inverses of a field, from the powers of its base."""

    def __init__(self, field):
        powers = [1]
        while field.mul(powers[-1], field.base) != 1:
            powers.append(field.mul(powers[-1], field.base))
        self.of = {power: powers[-i % len(powers)] for i, power in enumerate(powers)}


def solutions(field, inverses, rows, unknowns):
    """One solution of the equations, each a list of coefficients with the right side last, and whether it is the only one; or None."""
    rows = [list(row) for row in rows]
    pivots = []
    for column in range(unknowns):
        at = len(pivots)
        pivot = next((r for r in range(at, len(rows)) if rows[r][column]), None)
        if pivot is None:
            continue
        rows[at], rows[pivot] = rows[pivot], rows[at]
        inverse = inverses.of[rows[at][column]]
        rows[at] = [field.mul(inverse, x) for x in rows[at]]
        for r in range(len(rows)):
            if r != at and rows[r][column]:
                factor = field.neg(rows[r][column])
                rows[r] = [field.add(x, field.mul(factor, y)) for x, y in zip(rows[r], rows[at])]
        pivots.append(column)
    if any(row[unknowns] for row in rows[len(pivots):]):
        return None
    solution = [0] * unknowns
    for r, column in enumerate(pivots):
        solution[column] = rows[r][unknowns]
    return solution, len(pivots) == unknowns


def shortest(field, inverses, stretch):
    """The least length, a generator of it, and whether it is the only one."""
    k = len(stretch)
    for length in range(k + 1):
        rows = [stretch[i - length:i] + [field.neg(stretch[i])] for i in range(length, k)]
        solved = solutions(field, inverses, rows, length)
        if solved:
            return length, solved[0] + [1], solved[1]


def answer(field, inverses, room, stretch):
    if len(stretch) > 32:
        return "no 20 2 0"
    for index, number in enumerate(stretch):
        if number >= field.size:
            return f"no 14 2 {index}"
    if room < 17:
        return "no 19 2 0"
    length, generator, only = shortest(field, inverses, stretch)
    if 2 * length > len(stretch):
        return "no 21 2 0"
    assert only
    return f"ok {length} " + ",".join(map(str, generator))


if __name__ == "__main__":
    field = {1: Prime, 2: Binary}[int(sys.argv[1])]
    print(answer(field, Inverses(field), int(sys.argv[2]), [int(number) for number in sys.argv[3:]]))
