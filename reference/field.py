"""The field of 2^128 elements.

An element is held as a whole number whose bit k is the coefficient of z^k.
Read from bytes, bit j of byte i is the coefficient of z^(8i+j), so the
lowest byte comes first.
"""

SIZE = 16
Z = 2

_LOW = (1 << 128) - 1


def element(data):
    assert len(data) == SIZE
    return int.from_bytes(data, "little")


def to_bytes(x):
    return x.to_bytes(SIZE, "little")


def total(x, y):
    return x ^ y


def _reduce(polynomial):
    """The remainder modulo z^128 + z^7 + z^2 + z + 1."""
    while polynomial >> 128:
        high = polynomial >> 128
        # z^128 equals z^7 + z^2 + z + 1.
        polynomial = (polynomial & _LOW) ^ high ^ high << 1 ^ high << 2 ^ high << 7
    return polynomial


def product(x, y):
    """Multiply without carries, four bits of y at a time, then reduce."""
    multiples = [0, x]
    for i in range(1, 8):
        twice = multiples[i] << 1
        multiples += [twice, twice ^ x]
    result = shift = 0
    while y:
        result ^= multiples[y & 15] << shift
        y >>= 4
        shift += 4
    return _reduce(result)
