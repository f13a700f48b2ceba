"""Random sessions for the two screens."""

import itertools
import random
from dataclasses import dataclass

import screens
from ciphers import KINDS as CIPHERS
from devices import Chain
from sessions import Deck, Session, chance, dressed, hex_word, passed_over, spoilt, walk

# Sessions in which a screen or the cipher is missing are short.
INCOMPLETE_SIZE = 15

_FLIGHTS = (b"SVA113 B772 FL350 ", b"SVA114 A333 FL370 ", b"KLM7 ", b"KLM70 B789 ", b"AFR", b"\0")
_HUGE = (2**16 + 16, 2**32, 2**32 + 16, 2**64 - 1)
_BUNDLE_LENGTH = 48
# How the set-up goes: mostly well.
_SET_UPS = ("good",) * 7 + ("missing", "late", "declined")


@dataclass(frozen=True)
class _Shape:
    """How many lines a session has, on what devices, and of what calls."""

    size: int = 70
    # The numbers of slots and the longest rows to choose from, but in a few
    # sessions the largest of both.
    slots: tuple = (1, 2, 4, 6, 9, 12)
    longest: tuple = (16, 17, 31, 45, 64, 100)
    largest_percent: int = 4
    # Rows: how many are common to both screens, how many slots a plan fills,
    # and the weight of lengths that are at no edge.
    flights: int = 5
    planned_slots: int = 12
    inner_length_weight: int = 1
    # Lengths of the planned rows, on devices that have room for all of them.
    lengths: range = ()
    # A plan that is done is followed by another.
    replans: bool = False
    planned_weight: int = 30
    shut_weight: int = 5
    out_of_turn_weight: int = 3
    # In how many openings bundle or label are others; one of these is taken.
    strange_percents: tuple = (0, 0, 25)
    spoilt_percent: int = 5

    @classmethod
    def drawn(cls, rng, lengths):
        if lengths:
            return cls(rng.randint(100, 160), range(1, 8), (1000,), 0, lengths=lengths,
                       planned_weight=60)
        kinds = "short", "any", "restless", "long", "full", "spoilt"
        kind = rng.choices(kinds, (46, 25, 12, 6, 3, 8))[0]
        if kind == "short":
            return cls(rng.randint(5, 70))
        if kind == "spoilt":
            return cls(rng.randint(5, 70), spoilt_percent=60)
        if kind == "restless":
            return cls(rng.randint(30, 120), shut_weight=25, out_of_turn_weight=15,
                       strange_percents=(30, 60, 90))
        if kind == "any":
            return cls(rng.randint(30, 120), (rng.randint(1, 64),), (1000, rng.randint(16, 1000)),
                       flights=20, planned_slots=64, inner_length_weight=40, replans=True,
                       planned_weight=50)
        if kind == "long":
            return cls(rng.randint(250, 600), longest=(31, 64, 100, 200, 300), largest_percent=10,
                       inner_length_weight=5, replans=True)
        return cls(rng.randint(150, 250), (60, 63, 64), (500, 999, 1000), flights=40,
                   planned_slots=64, inner_length_weight=40, replans=True, planned_weight=150,
                   shut_weight=2)


class _Maker:
    """Makes one session; looks at the screens it has led to so far."""

    def __init__(self, rng, mix, set_up, shape=_Shape()):
        self.rng = rng
        self.set_up = set_up
        self.shape = shape
        self.cipher, self.kinds = mix[0], dict(zip(screens.SCREENS, mix[1:]))
        self.session = Session(screens.Reader())
        self.slots, self.longest = rng.choice(shape.slots), rng.choice(shape.longest)
        if chance(rng, shape.largest_percent):
            self.slots, self.longest = 64, 1000
        self.home = rng.randbytes(_BUNDLE_LENGTH), rng.randbytes(rng.choice((0, 3, 11, 12, 12)))
        # In some sessions other bundles and labels open the boards too.
        self.strange_percent = rng.choice(shape.strange_percents)
        self.flights = [self._row(self._good_length()) for _ in range(shape.flights)]
        planned = range(min(self.slots, shape.planned_slots))
        self.common = {slot: rng.choice(self.flights) for slot in planned}
        self.plans = {number: self._plan() for number in screens.SCREENS}

    def _plan(self):
        """Writes one shift has to make: the common ones and a few of its own."""
        rng = self.rng
        if self.shape.lengths:
            rows = [self._row(length) for length in self.shape.lengths]
            rng.shuffle(rows)
            return [(rng.randrange(self.slots), row) for row in rows]
        plan = dict(self.common)
        for slot in plan:
            if chance(rng, 25):
                plan[slot] = rng.choice((None, self._row(self._good_length())))
        writes = [(slot, row) for slot, row in plan.items() if row]
        rng.shuffle(writes)
        return writes

    def fill(self, size):
        self._set_up()
        if not self.session.reader.complete():
            size = min(size, INCOMPLETE_SIZE)
        while len(self.session.commands) < size:
            self._step(self.rng.choice(screens.SCREENS))
        self.session.end()
        return self.session

    def _screen(self, number):
        return self.session.reader.screens.get(number)

    def _say(self, words):
        self.session.say(dressed(self.rng, words))

    # --- Set-up ---

    def _set_up(self):
        rng = self.rng
        lines = [["cipher", self.cipher]] + [self._screen_line(n) for n in screens.SCREENS]
        rng.shuffle(lines)
        if self.set_up != "good":
            lines = self._spoilt(lines)
        for words in lines:
            while chance(rng, 15):
                self._say(self._bad_set_up())
            self._say(words)
            if chance(rng, 10) and self.session.commands[-1][1].text == "ok 0":
                self._say(words)

    def _screen_line(self, number):
        rng = self.rng
        slots = self.slots if chance(rng, 70) else min(64, self.slots + rng.randint(1, 3))
        dimensions = [slots, self.longest]
        if self.kinds[number] == "chain":
            # Mostly too tight for all that is to be written.
            needed = sum(Chain.units(len(row)) for _, row in self.plans[number])
            tight = max(1, min(255, rng.randint(needed // 3, needed + 1)))
            dimensions.append(255 if self.shape.lengths else tight)
        return ["screen", number, self.kinds[number], *map(str, dimensions)]

    def _spoilt(self, lines):
        """A set-up that is never complete: a line is missing, late or declined."""
        rng = self.rng
        call = [rng.choice(screens.SCREENS), "shut"]
        if self.set_up == "declined":
            words = rng.choice([words for words in lines if words[0] == "screen"])
            limits = ("0", "65"), ("15", "1001"), ("0", "256")
            which = rng.randrange(len(words) - 3)
            words[3 + which] = rng.choice((*limits[which], str(2**64 - 1)))
            return lines + [call]
        words = lines.pop()
        return lines + ([call, words] if self.set_up == "late" else [call])

    def _bad_set_up(self):
        return self.rng.choice((
            ["screen"], ["screen", "1"], ["screen", "3", "tray", "4", "64"],
            ["screen", "1", "tray", "4"], ["screen", "2", "tray", "4", "64", "9"],
            ["screen", "1", "chain", "4", "64"], ["screen", "2", "roll", "4", "64"],
            ["screen", "1", "tray", "-", "64"], ["screen", "2", "tray", "4", "0x40"],
            ["cipher"], ["cipher", "aes"], ["cipher", "aes128", "1"], ["Cipher", "aes128"],
            ["1"], ["1", "write", "0"], ["2", "read", "0", "70001"], ["0", "shut"],
        ))

    # --- Calls ---

    def _step(self, number):
        rng = self.rng
        if chance(rng, 2):
            self.session.say(passed_over(rng))
        elif chance(rng, 1):
            self._say(rng.choice((["cipher", self.cipher], ["screen", number, "tray", "4", "64"])))
        else:
            words = [number] + self._call(number)
            if chance(rng, self.shape.spoilt_percent):
                self.session.say(spoilt(rng, words))
            else:
                self._say(words)

    def _call(self, number):
        rng, screen = self.rng, self._screen(number)
        is_open = screen is not None and screen.board is not None
        # Few calls are out of turn.
        if not is_open and chance(rng, 85):
            return self._open()
        shape = self.shape
        makers = {
            self._planned: shape.planned_weight, self._write: 12, self._read: 14, self._clear: 3,
            self._length: 6, self._fits: 8, self._find: 12, self._shut: shape.shut_weight,
            self._out_of_turn: shape.out_of_turn_weight,
        }
        return rng.choices(list(makers), list(makers.values()))[0](number)

    def _open(self):
        rng = self.rng
        bundle, label = self.home
        if chance(rng, 12):
            length = rng.choice((0, 16, 32, 47, 49, 64, 80))
            bundle = (bundle + bytes(80))[:length]
        if chance(rng, 12):
            label = rng.randbytes(rng.choice((13, 14, 16, 1025)))
        if chance(rng, self.strange_percent):
            bundle, label = rng.choice((
                (rng.randbytes(len(bundle)), label),
                (bundle[:16] + bytes(len(bundle[16:])), label),
                (bundle, label[:-1]), (bundle, label + b"\0"), (bundle, b"x" + label),
            ))
        return ["open", hex_word(rng, bundle), hex_word(rng, label)]

    def _out_of_turn(self, number):
        return self._open()

    def _shut(self, number):
        return ["shut"]

    def _planned(self, number):
        """The next write of the shift's plan."""
        if self.shape.replans and not self.plans[number]:
            self.plans[number] = self._plan()
        if not self.plans[number]:
            return self._read(number)
        slot, row = self.plans[number].pop()
        return ["write", str(slot), hex_word(self.rng, row)]

    def _write(self, number):
        """Another write, mostly one that is declined."""
        rng = self.rng
        slot, row = self._slot(number), rng.choice(self.flights)
        if chance(rng, 60):
            row = self._row(rng.choice((0, 1, 15, self.longest + 1, self.longest + 30)))
        elif chance(rng, 60):
            slot = rng.choice((64, 65, 255, 256, *_HUGE))
        return ["write", str(slot), hex_word(rng, row)]

    def _good_length(self):
        rng, longest = self.rng, self.longest
        edges = [n for n in (16, 17, 30, 31, 32, 33, 60, 61, longest - 1) if 16 <= n < longest]
        weight = self.shape.inner_length_weight
        most = longest if weight > 1 else min(longest, 120)
        return rng.choice(edges + [longest, longest] + [rng.randint(16, most)] * weight)

    def _row(self, length):
        return (self.rng.choice(_FLIGHTS) + self.rng.randbytes(length))[:length]

    def _rows(self, number):
        """The clear rows the screen's board keeps, as far as there are any."""
        screen = self._screen(number)
        return screen.plain.rows() if screen is not None and screen.plain else [b""] * self.slots

    def _slot(self, number):
        rng, count = self.rng, len(self._rows(number))
        if chance(rng, 92):
            return rng.randrange(count)
        return rng.choice((count, count + 1, 64, 256, *_HUGE, 2**64))

    def _held_slot(self, number):
        """A slot that holds a row, if there is one."""
        held = [slot for slot, row in enumerate(self._rows(number)) if row]
        return self.rng.choice(held) if held and chance(self.rng, 75) else self._slot(number)

    def _buffer(self, near):
        rng = self.rng
        if chance(rng, 60):
            return str(near + rng.randrange(50))
        return str(rng.choice((max(near - 1, 0), near, near, 0, 15, 16, 70000, 70001, 2**64)))

    def _read(self, number):
        slot, rows = self._held_slot(number), self._rows(number)
        return ["read", str(slot), self._buffer(len(rows[slot]) if slot < len(rows) else 0)]

    def _clear(self, number):
        return ["clear", str(self._held_slot(number))]

    def _length(self, number):
        return ["length", str(self._held_slot(number))]

    def _fits(self, number):
        rng = self.rng
        wrong = (0, 15, self.longest + 1, *_HUGE, 2**64)
        length = rng.choice(wrong) if chance(rng, 25) else self._good_length()
        shown = str(length) if chance(rng, 95) else "00%d" % length
        return ["fits", str(self._slot(number)), shown]

    def _find(self, number):
        rng = self.rng
        held = [row for row in self._rows(number) if row]
        start = rng.choice(held) if held and chance(rng, 70) else rng.choice(_FLIGHTS)
        how = rng.randrange(6)
        if how < 3:
            start = start[:rng.randint(0, len(start))]
        elif how == 3:
            start += rng.choice((b"\0", b" " * 16))
        elif how == 4:
            start = start[:-1] + bytes([start[-1] ^ 1])
        return ["find", hex_word(rng, start), self._buffer(self.longest)]


_MIXES = tuple(itertools.product(CIPHERS, screens.DEVICES, screens.DEVICES))


def sessions(seed, count, words=()):
    """Sessions of `count` commands in all, always of every call."""
    rng = random.Random("screens %s" % seed)
    mixes, set_ups = Deck(rng, _MIXES), Deck(rng, _SET_UPS)
    while count > 0:
        session = _Maker(rng, mixes.deal(), set_ups.deal()).fill(min(count, _Shape.size))
        count -= len(session.commands)
        yield session


def drawn(rng, number):
    """One session of any shape; by the number, some walk through the lengths of rows."""
    shape = _Shape.drawn(rng, walk(number))
    set_up = rng.choice(_SET_UPS) if chance(rng, 40) else "good"
    return _Maker(rng, rng.choice(_MIXES), set_up, shape).fill(shape.size)


def follow_up(session, got):
    """The table of slots shows all that is left, so nothing follows."""
    return None
