"""What the program `pile` prints, from the definitions: python3 model/pile.py"""


class Table:
    def __init__(self, numbers):
        self.numbers = numbers

    def marks(self):
        return self.numbers[:65536]

    def write(self, block, mark):
        if block >= len(self.marks()):
            return False
        self.numbers[block] = mark
        return True


class Joined:
    def __init__(self, first, second):
        self.first, self.second = first, second

    def marks(self):
        return (self.first.marks() + self.second.marks())[:65536]

    def write(self, block, mark):
        if block >= len(self.marks()):
            return False
        seam = len(self.first.marks())
        if block < seam:
            return self.first.write(block, mark)
        return self.second.write(block - seam, mark)


class Held:
    def __init__(self, below):
        self.below, self.held = below, {}

    def marks(self):
        return [self.held.get(block, mark) for block, mark in enumerate(self.below.marks())]

    def write(self, block, mark):
        if block >= len(self.marks()):
            return False
        if block not in self.held and len(self.held) == 32:
            return self.below.write(block, mark)
        self.held[block] = mark
        return True

    def flush(self):
        for block in reversed(self.held):
            assert self.below.write(block, self.held[block])
        self.held = {}


first, second = [1] * 40, [2] * 24
pile = Held(Joined(Held(Table(first)), Table(second)))
print("blocks", len(pile.marks()))
for step in range(100):
    block, mark = step * 5 % 66, 1000 + step
    expected = pile.marks()
    if pile.write(block, mark):
        expected[block] = mark
        print("write", block, mark, "ok")
    else:
        print("write", block, mark, f"denied: number 7, layer 3, place {block}")
    assert pile.marks() == expected
expected = pile.marks()
pile.flush()
assert pile.marks() == expected
print("flush")
for block, mark in enumerate(pile.marks()):
    print("read", block, mark)
print("first", first)
print("second", second)
