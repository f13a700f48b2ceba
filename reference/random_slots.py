"""Random sessions for the slot devices."""

import itertools
import random
from dataclasses import dataclass

import slots
from commands import parse_hex, show_hex
from devices import Chain
from sessions import Deck, Session, chance, dressed, hex_word, passed_over, spoilt, walk

_KIND_NAMES = ("tray", "chain")
_STARTS = (b"SVA113", b"SVA114", b"KLM7", b"KLM70", b"AFR", b"\x00", b"\xff\xff")
_HUGE = (2**16, 2**16 + 16, 2**32, 2**32 + 16, 2**63, 2**64 - 1)


@dataclass(frozen=True)
class _Shape:
    """How many commands a session has, and on what devices."""

    size: int = 60
    # How many devices are small, of a middle size, large, and of any size.
    device_weights: tuple = (65, 30, 5, 0)
    spoilt_percent: int = 6
    write_weight: int = 32
    # Lengths of rows to write, on devices that have room for all of them.
    lengths: range = ()

    @classmethod
    def drawn(cls, rng, lengths):
        if lengths:
            return cls(rng.randint(60, 90), write_weight=80, lengths=lengths)
        kind = rng.choices(("short", "any", "long", "spoilt"), (50, 35, 7, 8))[0]
        if kind == "short":
            return cls(rng.randint(0, 60))
        if kind == "spoilt":
            return cls(rng.randint(1, 60), spoilt_percent=60)
        if kind == "any":
            return cls(rng.randint(10, 60), (0, 0, 10, 90))
        return cls(rng.randint(200, 400), (20, 30, 25, 25))


class _Maker:
    """Makes one session; looks at the device it has led to so far."""

    def __init__(self, rng, edges, shape=_Shape()):
        self.rng = rng
        self.edges = edges
        self.shape = shape
        self.plans = Deck(rng, ("own", "scattered", "odd row", "damaged", "damaged", "damaged"))
        self.damages = Deck(rng, range(6))
        self.lengths = Deck(rng, shape.lengths)
        self.session = Session(slots.Reader())
        # Where the session asks for memory: command, device name, dimensions.
        self.session.dumps = []
        # Some sessions are mostly about judging memory.
        self.attach_weight = rng.choice((4, 4, 150))

    @property
    def device(self):
        return self.session.reader.device

    def fill(self, size):
        rng = self.rng
        while chance(rng, 20):
            self._say(rng.choice((["length", "0"], ["memory"], ["find", "-", "1000"])))
        if chance(rng, 70) and not self.shape.lengths:
            self._say(self._edge_line())
        while self.device is None and self._short_of(size):
            self._say(self._device_line())
        while self._short_of(size):
            self._step()
        return self.session

    def _short_of(self, size):
        return len(self.session.commands) < size

    def _say(self, words):
        if self.device is not None and words == ["memory"]:
            dump = (len(self.session.commands), _name(self.device), self.device.dimensions)
            self.session.dumps.append(dump)
        self.session.say(dressed(self.rng, words))

    def _step(self):
        rng = self.rng
        if chance(rng, 2):
            self.session.say(passed_over(rng))
            return
        makers = {
            self._write: self.shape.write_weight, self._read: 14, self._clear: 5, self._length: 7, self._fits: 12,
            self._find: 12, self._memory: 5, self._device_line: 1, self._edge_line: 2,
            self._attach_line: self.attach_weight,
        }
        words = rng.choices(list(makers), list(makers.values()))[0]()
        if chance(rng, self.shape.spoilt_percent):
            self.session.say(spoilt(rng, words))
        else:
            self._say(words)

    # --- New devices ---

    def _dimensions(self, name):
        rng = self.rng
        if self.shape.lengths:
            return [rng.randint(1, 7), 1000, 255][:3 if name == "chain" else 2]
        small = (rng.randint(1, 6), rng.randint(16, 120), rng.randint(1, 6))
        middle = (rng.randint(1, 20), rng.randint(16, 300), rng.randint(1, 60))
        large = (rng.randint(40, 64), rng.randint(500, 1000), rng.randint(100, 255))
        any_size = (rng.randint(1, 64), rng.randint(16, 1000), rng.randint(1, 255))
        sizes = small, middle, large, any_size
        chosen = rng.choices(sizes, self.shape.device_weights)[0]
        return list(chosen[:3 if name == "chain" else 2])

    def _device_line(self):
        name = self.rng.choice(_KIND_NAMES)
        return ["device", name] + [str(n) for n in self._dimensions(name)]

    def _edge_line(self):
        """A device with dimensions at their limits, just beyond or far beyond."""
        words = list(self.edges.deal())
        if chance(self.rng, 15):
            words[self.rng.randrange(2, len(words))] = str(self.rng.choice(_HUGE))
        return words

    def _attach_line(self):
        rng = self.rng
        device = self.device
        name, dimensions, memory = _name(device), list(device.dimensions), bytearray(device.memory)
        plan = self.plans.deal()
        if name == "chain" and plan != "own" and chance(rng, 75):
            memory = self._scattered(device, odd_row=plan == "odd row")
        if plan == "damaged":
            self._damage(device, memory)
        if chance(rng, 8):
            memory = memory[:-1] if chance(rng, 50) else memory + b"\0"
        if chance(rng, 8):
            dimensions[rng.randrange(len(dimensions))] += rng.choice((-1, 1))
        return ["attach", name] + [str(n) for n in dimensions] + [hex_word(rng, memory)]

    def _scattered(self, device, odd_row):
        """Memory with rows in cells at random, one of a wrong length if asked."""
        rng = self.rng
        chain = Chain.set_out(*device.dimensions)
        free = list(range(1, chain.cells + 1))
        rng.shuffle(free)
        for slot in rng.sample(range(chain.slots), chain.slots):
            length = rng.randint(16, chain.longest)
            if odd_row:
                length = rng.choice((15, chain.longest + 1))
            needed = chain.units(length)
            if (odd_row or chance(rng, 70)) and needed <= len(free):
                chain.lay(slot, self._row(length), free)
                del free[:needed]
                odd_row = False
        return chain.memory

    def _damage(self, device, memory):
        if chance(self.rng, 20):
            memory[self.rng.randrange(len(memory))] ^= 1 << self.rng.randrange(8)
        elif isinstance(device, Chain):
            self._damage_chain(device, memory)
        else:
            self._damage_tray(device, memory)

    def _damage_tray(self, device, memory):
        """A wrong length, or a stray byte behind a row."""
        rng, longest = self.rng, device.longest
        start = rng.randrange(device.slots) * (2 + longest)
        length = int.from_bytes(memory[start:start + 2], "little")
        if chance(rng, 30) and length < longest:
            memory[start + 2 + rng.randrange(length, longest)] = rng.randint(1, 255)
            return
        length = rng.choice((0, 1, 15, 16, longest, longest + 1, 256, 65535))
        memory[start:start + 2] = length.to_bytes(2, "little")

    def _damage_chain(self, device, memory):
        """Rings, shared cells, wild numbers, wrong counts, stray bytes."""
        rng, heads = self.rng, device.slots
        starts = [heads + number * device.CELL for number in range(device.cells)]
        used = [start for start in starts if memory[start + 1]]
        start = rng.choice(used if used and chance(rng, 80) else starts)
        count = memory[start + 1]
        own = starts.index(start) + 1
        some_cell = rng.choice((0, own, rng.randint(1, device.cells), device.cells + 1, 255)) & 255
        how = self.damages.deal()
        if how == 0:
            memory[rng.randrange(heads)] = some_cell
        elif how == 1:
            # An empty slot, if there is one, gets the chain of another.
            empty = [slot for slot in range(heads) if not memory[slot]]
            memory[rng.choice(empty or range(heads))] = max(memory[:heads])
        elif how == 2:
            memory[start] = some_cell
        elif how == 3:
            memory[start + 1] = rng.choice((0, 1, 15, 16, 29, 30, 31, 255))
        elif how == 4 and 0 < count <= device.ROOM:
            # One byte less, cleanly: right in a last cell, wrong before it.
            memory[start + 1 + count] = 0
            memory[start + 1] = count - 1
        else:
            at = rng.randrange(count, device.ROOM) if count < device.ROOM else 0
            memory[start + 2 + at] = rng.randint(1, 255)

    # --- Calls ---

    def _slot(self):
        rng, count = self.rng, self.device.slots
        if chance(rng, 90):
            return str(rng.randrange(count))
        return str(rng.choice((count, count + 1, 64, 255, 256, *_HUGE, 2**64)))

    def _held_slot(self):
        """A slot that holds a row, if there is one."""
        held = [slot for slot, row in enumerate(self.device.rows()) if row]
        if held and chance(self.rng, 70):
            return str(self.rng.choice(held))
        return self._slot()

    def _row_length(self):
        rng, longest = self.rng, self.device.longest
        if self.shape.lengths and chance(rng, 85):
            return self.lengths.deal()
        if chance(rng, 50):
            return rng.randint(16, longest)
        return rng.choice((0, 1, 15, 16, 17, 29, 30, 31, 60, 61,
                           longest - 1, longest, longest, longest + 1, longest + 30))

    def _row(self, length):
        start = self.rng.choice(_STARTS)
        return (start + self.rng.randbytes(length))[:length]

    def _write(self):
        return ["write", self._slot(), hex_word(self.rng, self._row(self._row_length()))]

    def _buffer(self, near):
        rng = self.rng
        if chance(rng, 60):
            return str(near + rng.randrange(50))
        return str(rng.choice((max(near - 1, 0), near, 0, 15, 16, 69999, 70000, 70001, 2**64 - 1)))

    def _read(self):
        slot = self._held_slot()
        row = self.device.rows()[int(slot)] if int(slot) < self.device.slots else b""
        return ["read", slot, self._buffer(len(row))]

    def _clear(self):
        return ["clear", self._held_slot()]

    def _length(self):
        return ["length", self._held_slot()]

    def _fits(self):
        length = self.rng.choice(_HUGE) if chance(self.rng, 5) else self._row_length()
        return ["fits", self._slot(), str(length) if chance(self.rng, 95) else "00%d" % length]

    def _find(self):
        rng = self.rng
        held = [row for row in self.device.rows() if row]
        start = rng.choice(held) if held and chance(rng, 70) else rng.choice(_STARTS)
        how = rng.randrange(6)
        if how < 3:
            start = start[:rng.randint(0, len(start))]
        elif how == 3:
            start += rng.choice((b"\0", b" " * 16, bytes(1000)))
        elif how == 4 and start:
            start = start[:-1] + bytes([start[-1] ^ 1])
        return ["find", hex_word(rng, start), self._buffer(self.device.longest)]

    def _memory(self):
        return ["memory"]


def _edge_devices():
    """Device lines with every mix of dimensions at their limits and beyond."""
    limits = ("0", "1", "64", "65"), ("15", "16", "1000", "1001"), ("0", "1", "255", "256")
    for name, count in ("tray", 2), ("chain", 3):
        for dimensions in itertools.product(*limits[:count]):
            yield ["device", name, *dimensions]


def _name(device):
    return "chain" if isinstance(device, Chain) else "tray"


def sessions(seed, count, words=()):
    """Sessions of `count` commands in all, always of every command word."""
    rng = random.Random("slots %s" % seed)
    edges = Deck(rng, _edge_devices())
    while count > 0:
        session = _Maker(rng, edges).fill(min(count, _Shape.size))
        count -= len(session.commands)
        yield session


def drawn(rng, number):
    """One session of any shape; by the number, some walk through the lengths of rows."""
    shape = _Shape.drawn(rng, walk(number))
    return _Maker(rng, Deck(rng, _edge_devices()), shape).fill(shape.size)


def follow_up(session, got):
    """Attaches every memory the program showed, and looks at what it holds."""
    again = Session(slots.Reader())
    for at, name, dimensions in session.dumps:
        if not session.commands[at][1].accepts(got[at]):
            continue
        memory = show_hex(parse_hex(got[at].split(" ")[1]))
        again.say(" ".join(["attach", name, *map(str, dimensions), memory]))
        for slot in range(dimensions[0]):
            again.say("read %d 1000" % slot)
        again.say("memory")
    return again if again.commands else None
