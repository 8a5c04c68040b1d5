"""The two fields by their definitions, slowly: whole products of polynomials, then their remainder."""


class Prime:
    kind, size, base = 1, 65537, 3

    @staticmethod
    def add(a, b):
        return (a + b) % 65537

    @staticmethod
    def mul(a, b):
        return (a * b) % 65537

    @staticmethod
    def neg(a):
        return -a % 65537


class Binary:
    kind, size, base = 2, 256, 2

    @staticmethod
    def add(a, b):
        return (a % 256) ^ (b % 256)

    @staticmethod
    def mul(a, b):
        terms = [i + j for i in range(8) for j in range(8) if a >> i & 1 and b >> j & 1]
        coefficients = [terms.count(k) % 2 for k in range(15)]
        modulus = [int(bit) for bit in reversed(format(0x11D, "b"))]
        for k in range(14, 7, -1):
            if coefficients[k]:
                for i, bit in enumerate(modulus):
                    coefficients[k - 8 + i] ^= bit
        return sum(bit << k for k, bit in enumerate(coefficients[:8]))

    @staticmethod
    def neg(a):
        return a % 256


def power(field, a, n):
    result = 1
    for _ in range(n):
        result = field.mul(a % field.size, result)
    return result


def inverse(field, a):
    candidates = [b for b in range(field.size) if field.mul(a % field.size, b) == 1]
    return candidates[0] if candidates else 0
