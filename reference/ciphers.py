"""The two block ciphers: AES-128 (FIPS 197) and Speck128/128.

Each has a key length in bytes and two functions on blocks of 16 bytes,
`encrypt` and `decrypt`, that undo each other.
"""

import struct

from refusals import Refusal, decline_if

BLOCK = 16


# --- The byte field of AES: products modulo x^8 + x^4 + x^3 + x + 1 ---

def _double(x):
    return x << 1 ^ (0x11B if x & 0x80 else 0)


def _byte_product(x, y):
    result = 0
    while y:
        if y & 1:
            result ^= x
        x = _double(x)
        y >>= 1
    return result


def _byte_inverse(x):
    """x^254, that is x^2 x^4 ... x^128; it sends zero to zero."""
    result, power = 1, x
    for _ in range(7):
        power = _byte_product(power, power)
        result = _byte_product(result, power)
    return result


def _affine(x):
    turned = x | x << 8
    return x ^ 0x63 ^ (turned >> 4 ^ turned >> 5 ^ turned >> 6 ^ turned >> 7) & 0xFF


SUBSTITUTE = [_affine(_byte_inverse(x)) for x in range(256)]
BACK_SUBSTITUTE = [SUBSTITUTE.index(x) for x in range(256)]


# --- Mixing a column. A column is a 32-bit number, its row 0 highest. ---

def _column(rows):
    return int.from_bytes(bytes(rows), "big")


def _mixed(coefficients, row):
    """For each byte, what it adds to the mixed column when it stands in `row`."""
    return [
        _column(_byte_product(x, coefficients[(row - i) % 4]) for i in range(4))
        for x in range(256)
    ]


_MIX = [_mixed((2, 3, 1, 1), row) for row in range(4)]
_UNMIX = [_mixed((14, 11, 13, 9), row) for row in range(4)]
# Substituting and mixing in one look-up.
_SUBSTITUTE_MIX = [[table[SUBSTITUTE[x]] for x in range(256)] for table in _MIX]


def _substitute_word(word):
    return _column(SUBSTITUTE[x] for x in word.to_bytes(4, "big"))


def _expand_key(key, key_words, rounds):
    words = list(struct.unpack(">%dI" % key_words, key))
    constant = 1
    for i in range(key_words, 4 * (rounds + 1)):
        word = words[i - 1]
        if i % key_words == 0:
            turned = (word << 8 | word >> 24) & 0xFFFFFFFF
            word = _substitute_word(turned) ^ constant << 24
            constant = _double(constant)
        elif key_words > 6 and i % key_words == 4:
            word = _substitute_word(word)
        words.append(words[i - key_words] ^ word)
    return [words[4 * i:4 * i + 4] for i in range(rounds + 1)]


def _add(columns, round_key):
    return [column ^ word for column, word in zip(columns, round_key)]


class Aes:
    """AES over any number of key words; a kind of it sets the key length."""

    key_length = None

    def __init__(self, key):
        decline_if(len(key) != self.key_length, Refusal.WrongKeyLength)
        key_words = self.key_length // 4
        self._round_keys = _expand_key(key, key_words, key_words + 6)

    def encrypt(self, block):
        first, *middle, last = self._round_keys
        row0, row1, row2, row3 = _SUBSTITUTE_MIX
        a, b, c, d = _add(struct.unpack(">4I", block), first)
        # Row r of a new column comes from the column r places further on.
        for k0, k1, k2, k3 in middle:
            a, b, c, d = (
                row0[a >> 24] ^ row1[b >> 16 & 255] ^ row2[c >> 8 & 255] ^ row3[d & 255] ^ k0,
                row0[b >> 24] ^ row1[c >> 16 & 255] ^ row2[d >> 8 & 255] ^ row3[a & 255] ^ k1,
                row0[c >> 24] ^ row1[d >> 16 & 255] ^ row2[a >> 8 & 255] ^ row3[b & 255] ^ k2,
                row0[d >> 24] ^ row1[a >> 16 & 255] ^ row2[b >> 8 & 255] ^ row3[c & 255] ^ k3,
            )
        # The last round does not mix.
        state = struct.pack(">4I", a, b, c, d)
        shifted = [SUBSTITUTE[state[5 * i % 16]] for i in range(16)]
        return struct.pack(">4I", *_add(struct.unpack(">4I", bytes(shifted)), last))

    def decrypt(self, block):
        first, *middle, last = self._round_keys
        row0, row1, row2, row3 = _UNMIX
        columns = _add(struct.unpack(">4I", block), last)
        for round_key in reversed(middle):
            columns = _add(_back_shift_substitute(columns), round_key)
            columns = [
                row0[x >> 24] ^ row1[x >> 16 & 255] ^ row2[x >> 8 & 255] ^ row3[x & 255]
                for x in columns
            ]
        return struct.pack(">4I", *_add(_back_shift_substitute(columns), first))


def _back_shift_substitute(columns):
    """Row r goes back r columns to the right, and every byte is put back."""
    state = struct.pack(">4I", *columns)
    # 13 undoes the stride of 5, as 5 times 13 is 1 modulo 16.
    return struct.unpack(">4I", bytes([BACK_SUBSTITUTE[state[13 * i % 16]] for i in range(16)]))


class Aes128(Aes):
    key_length = 16


# --- Speck128/128: words of 64 bits, lowest byte first ---

_WORD = (1 << 64) - 1


def _left(x, n):
    return (x << n | x >> (64 - n)) & _WORD


def _right(x, n):
    return _left(x, 64 - n)


def _speck_round(a, b, k):
    a = (_right(a, 8) + b & _WORD) ^ k
    b = _left(b, 3) ^ a
    return a, b


def _speck_round_back(a, b, k):
    b = _right(a ^ b, 3)
    a = _left((a ^ k) - b & _WORD, 8)
    return a, b


class Speck128:
    key_length = 16
    ROUNDS = 32

    def __init__(self, key):
        decline_if(len(key) != self.key_length, Refusal.WrongKeyLength)
        k, m = struct.unpack("<2Q", key)
        self._round_keys = [k]
        # The key schedule is the round itself, keyed with the round's number.
        for i in range(self.ROUNDS - 1):
            m, k = _speck_round(m, k, i)
            self._round_keys.append(k)

    def encrypt(self, block):
        b, a = struct.unpack("<2Q", block)
        for k in self._round_keys:
            a, b = _speck_round(a, b, k)
        return struct.pack("<2Q", b, a)

    def decrypt(self, block):
        b, a = struct.unpack("<2Q", block)
        for k in reversed(self._round_keys):
            a, b = _speck_round_back(a, b, k)
        return struct.pack("<2Q", b, a)


KINDS = {"aes128": Aes128, "speck128": Speck128}
