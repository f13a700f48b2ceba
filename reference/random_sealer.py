"""Random sessions for the sealer."""

import random
from dataclasses import dataclass

import ciphers
import mode
import sealer
from sessions import Deck, Session, chance, dressed, hex_word, passed_over, spoilt

WORDS = tuple(sealer.COMMANDS)
_WEIGHTS = {"seal": 3, "open": 3, "seal-proof": 2, "open-proof": 2, "hash": 2}

# Lengths around the longest message: few, as they are slow here.
_LONG = [
    ("seal", 65536), ("seal", 65535), ("seal", 65537),
    ("open", 65536), ("open", 65521), ("open", 65537),
    ("seal-proof", 65536), ("seal-proof", 65537),
    ("open-proof", 65536), ("open-proof", 65537),
    ("cmac", 65536), ("cmac", 65537),
    ("hash", 65536), ("hash", 65535), ("hash", 65537),
]


@dataclass(frozen=True)
class _Shape:
    """How many commands a session has, and the lengths of their messages."""

    size: int = 100
    lengths: range = range(16, 301)
    spoilt_percent: int = 8

    @classmethod
    def drawn(cls, rng):
        """Mostly many commands on short messages, at times few on long ones."""
        kind = rng.choices(("short", "middle", "long", "spoilt"), (60, 20, 12, 8))[0]
        if kind == "short":
            return cls(rng.randint(0, 80))
        if kind == "spoilt":
            return cls(rng.randint(1, 60), spoilt_percent=60)
        size = rng.randint(4, 30) if kind == "middle" else rng.randint(1, 4)
        if kind == "long" and chance(rng, 25):
            return cls(size, range(mode.LONGEST_MESSAGE - 2, mode.LONGEST_MESSAGE + 2))
        # Lengths beside two multiples of sixteen that follow each other.
        blocks = rng.randint(2, 130 if kind == "middle" else mode.LONGEST_MESSAGE // 16)
        return cls(size, range(16 * blocks - 17, 16 * blocks + 2))


class _Maker:
    def __init__(self, rng, words=WORDS, shape=_Shape()):
        self.rng = rng
        self.words = words
        self.shape = shape
        self.decks = {word: Deck(rng, shape.lengths) for word in WORDS}
        if shape.lengths.start <= 16:
            # CMAC takes messages that are shorter than a block.
            self.decks["cmac"] = Deck(rng, range(shape.lengths.stop))

    def fill(self, size):
        session = Session(sealer.Reader())
        while len(session.commands) < size:
            session.say(self.line())
        return session

    def line(self):
        rng = self.rng
        if chance(rng, 2):
            return passed_over(rng)
        word = rng.choices(self.words, [_WEIGHTS.get(word, 1) for word in self.words])[0]
        if chance(rng, self.shape.spoilt_percent):
            return spoilt(rng, self.command(word, rng.randint(16, 48), ()))
        if chance(rng, 20):
            words = self.command(word, rng.randint(16, 300), self._wrong_parts())
        elif chance(rng, 8):
            words = self.command(word, rng.choice((16, 16, 17, 31, 32, 33)), ())
        else:
            words = self.command(word, self.decks[word].deal(), ())
        return dressed(rng, words)

    def _wrong_parts(self):
        """What is to have a wrong length: at times more than one part, so that
        the order of the checks shows."""
        return self.rng.sample(("key", "context", "message"), self.rng.choice((1, 1, 2, 3)))

    def command(self, word, length, wrong):
        if word in ("encrypt", "decrypt"):
            return self._block_command(word, wrong)
        if word == "cmac":
            return self._cmac_command(length, wrong)
        if word == "hash":
            return self._hash_command(length, wrong)
        return self._mode_command(word, length, wrong)

    def _hex(self, data):
        return hex_word(self.rng, data)

    def _cipher(self):
        return self.rng.choice(list(ciphers.KINDS))

    def _bytes(self, length):
        """Mostly random, now and then all zero or all ones."""
        if chance(self.rng, 5):
            return self.rng.choice((b"\x00", b"\xff")) * length
        return self.rng.randbytes(length)

    def _key(self, right, wrong):
        if not wrong:
            return self._bytes(right)
        near = [0, 15, 16, 17, 24, 32, 47, 48, 49, 64, 80]
        return self._bytes(self.rng.choice([n for n in near if n != right]))

    def _block_command(self, word, wrong):
        key = self._key(16, "key" in wrong)
        length = self.rng.choice((0, 1, 15, 17, 32)) if "message" in wrong else 16
        return [word, self._cipher(), self._hex(key), self._hex(self._bytes(length))]

    def _cmac_command(self, length, wrong):
        key = self._key(16, "key" in wrong)
        return ["cmac", self._cipher(), self._hex(key), self._hex(self._bytes(length))]

    def _hash_command(self, length, wrong):
        tau = self._key(16, "key" in wrong)
        if not wrong and chance(self.rng, 10):
            tau = bytes([self.rng.randrange(3)]) + bytes(15)
        if "message" in wrong:
            length = self.rng.randrange(16)
        return ["hash", self._hex(tau), self._hex(self._bytes(length))]

    def _context(self, wrong):
        """Nonce and associated data, one or both too long if wrong."""
        rng = self.rng
        lengths = [
            rng.choice((0, 0, 12, 15, 16, 16, 17, rng.randrange(65), rng.randrange(1025), 1024))
            for _ in range(2)
        ]
        if wrong:
            for at in rng.choice(((0,), (1,), (0, 1))):
                lengths[at] = rng.choice((1025, 1026, 1040, 2048))
        return [self._bytes(length) for length in lengths]

    def _mode_command(self, word, length, wrong):
        rng = self.rng
        name = self._cipher()
        bundle = self._key(48, "key" in wrong)
        if "key" not in wrong and chance(rng, 5):
            bundle = bytes(16) + bundle[16:]
        context = self._context("context" in wrong)
        if "message" in wrong:
            length = rng.randrange(16)
        # Lengths count the sixteen proof bytes.
        body = length - 16 if word == "seal-proof" and length >= 16 else length
        message = self._bytes(body)
        sealable = not wrong and 16 <= length <= mode.LONGEST_MESSAGE
        if word in ("open", "open-proof") and sealable:
            bundle, context, message = self._sealed(word, name, bundle, context, message)
        strings = [bundle, *context, message]
        return [word, name] + [self._hex(data) for data in strings]

    def _sealed(self, word, name, bundle, context, message):
        """Seal the message for opening, at times damaging it afterwards."""
        rng = self.rng
        if chance(rng, 20):
            return bundle, context, message
        if word == "open-proof":
            message = message[:-16] + mode.PROOF
        sealed = mode.seal(ciphers.KINDS[name], bundle, *context, message)
        if not chance(rng, 35):
            return bundle, context, sealed
        strings = [bundle, *context, sealed]
        at = rng.choice((0, 1, 2, 3, 3, 3, 3))
        strings[at] = self._damaged(strings[at])
        if len(strings[3]) > mode.LONGEST_MESSAGE:
            strings[3] = strings[3][:-1]
        return strings[0], strings[1:3], strings[3]

    def _damaged(self, data):
        rng = self.rng
        if not data or chance(rng, 15):
            return data + b"\0"
        if chance(rng, 15):
            return data[:-1]
        changed = bytearray(data)
        changed[rng.randrange(len(data))] ^= 1 << rng.randrange(8)
        return bytes(changed)


def sessions(seed, count, words=()):
    """Sessions of `count` commands in all, the long messages first.

    Only commands of the given words are made, of every word if none is given.
    """
    words = words or WORDS
    rng = random.Random("sealer %s" % seed)
    maker = _Maker(rng, words)
    long = [case for case in _LONG if case[0] in words]
    if count >= 10 * len(long):
        session = Session(sealer.Reader())
        for case in long:
            session.say(" ".join(maker.command(*case, ())))
        count -= len(session.commands)
        yield session
    while count > 0:
        session = maker.fill(min(count, maker.shape.size))
        count -= len(session.commands)
        yield session


def drawn(rng, number):
    """One session of any shape; the number does not matter."""
    shape = _Shape.drawn(rng)
    return _Maker(rng, shape=shape).fill(shape.size)


def follow_up(session, got):
    """The sealer keeps nothing, so nothing follows a session."""
    return None
