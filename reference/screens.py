"""Command reader for two lists of calls on two screens.

A screen is a device and the board open over it, or none. Every call also goes
to a plain board, and the two must agree. The lists do not touch each other
and all set-up stands before the first call, so each call is answered as it
is read. A find accepts every matching slot.
"""

import commands
from boards import Board, Keys, PlainBoard, mapped_rows
from ciphers import KINDS as CIPHERS
from commands import Answer, NoCommand, parse_buffer_length, parse_hex, parse_number, show_hex
from devices import Chain, Tray
from refusals import Declined

SCREENS = ("1", "2")

# Each kind of device with its number of dimensions.
DEVICES = {"tray": (Tray, 2), "chain": (Chain, 3)}

# Each call with how its words are read.
CALLS = {
    "open": (parse_hex, parse_hex),
    "write": (parse_number, parse_hex),
    "read": (parse_number, parse_buffer_length),
    "clear": (parse_number,),
    "length": (parse_number,),
    "fits": (parse_number, parse_number),
    "find": (parse_hex, parse_buffer_length),
    "shut": (),
}


class Disagreement(Exception):
    """A board and its plain board do not agree."""


class Screen:
    """A device, the board open over it or none, and its plain board."""

    def __init__(self, device):
        self.device = device
        self.board = None
        self.plain = None
        self._keys = None

    def call(self, cipher, name, arguments):
        """All right answers to one call, the own answer first."""
        if (name == "open") == (self.board is not None):
            return ["out of turn"]
        if name == "open":
            return _texts(name, _outcome(self._open, cipher, *arguments))
        if name == "shut":
            return _texts(name, _outcome(self._shut))
        real = _outcome(getattr(self.board, name), *arguments)
        plain = _outcome(getattr(self.plain, name), *arguments)
        if real != plain:
            raise Disagreement("%s: board %s, plain board %s" % (name, real, plain))
        return _texts(name, real)

    def _open(self, cipher, bundle, label):
        keys = Keys(cipher, bundle, label)
        self.check()
        self.board = Board(keys, self.device)
        # Other keys see other rows: a new plain board starts on those.
        if keys != self._keys:
            self.plain = PlainBoard(self.device, self.board.rows())
            self._keys = keys

    def _shut(self):
        self.device = self.board.shut()
        self.board = None

    def check(self):
        """Every slot holds the sealed form of the plain board's row."""
        right = [b""] * self.device.slots
        if self.plain:
            right = mapped_rows(self._keys.sealed, self.plain.rows())
        if self.device.rows() != right:
            raise Disagreement("the device does not hold the plain board's rows sealed")


def _outcome(call, *arguments):
    try:
        return "ok", call(*arguments)
    except Declined as declined:
        return "declined", declined.refusal


def _texts(name, outcome):
    """All right answers for the outcome of a call."""
    word, value = outcome
    if word == "declined":
        return ["declined %d %s" % (value, value.name)]
    if name == "find":
        return ["ok %d" % slot for slot in value] or ["ok none"]
    if name == "read":
        return ["ok %d %s" % (len(value), show_hex(value))]
    return ["ok %d" % (value or 0)]


class Reader:
    """Takes the set-up and then runs the calls."""

    def __init__(self):
        self.screens = {}
        self.cipher = None
        self._calling = False

    def obey(self, words):
        if words[0] == "screen":
            return self._set_screen(*_dimensions(words))
        if words[0] == "cipher":
            return self._set_cipher(words)
        if words[0] not in SCREENS:
            raise NoCommand("unknown command")
        name, arguments = _call(words)
        self._calling = True
        if not self.complete():
            raise NoCommand("a screen or the cipher is missing")
        right = self.screens[words[0]].call(self.cipher, name, arguments)
        lines = ["%s : %s" % (" ".join(words), text) for text in right]
        return Answer(lines[0], also=lines.__contains__)

    def complete(self):
        return len(self.screens) == len(SCREENS) and self.cipher is not None

    def _set_screen(self, number, kind, dimensions):
        self._may_set_up(number in self.screens)
        self.screens[number] = Screen(kind.set_out(*dimensions))
        return Answer("ok 0")

    def _set_cipher(self, words):
        kind = CIPHERS.get(commands.take(words, 1)[0])
        if kind is None:
            raise NoCommand("unknown cipher")
        self._may_set_up(self.cipher is not None)
        self.cipher = kind
        return Answer("ok 0")

    def _may_set_up(self, already):
        if already:
            raise NoCommand("set up already")
        if self._calling:
            raise NoCommand("set-up after a call")

    def ending(self):
        """The table of slots, after a last look at both screens."""
        if not self.complete():
            return []
        for screen in self.screens.values():
            screen.check()
        return [Answer(line) for line in self._table()]

    def _table(self):
        one, two = (self.screens[number].device.rows() for number in SCREENS)
        for slot in range(max(len(one), len(two))):
            shown = _shown(one, slot), _shown(two, slot)
            verdict = "same" if shown[0] == shown[1] else "different"
            if "-" in shown:
                verdict = "-"
            yield "slot %d %s %s %s" % (slot, *shown, verdict)


def _shown(rows, slot):
    if slot >= len(rows):
        return "-"
    return rows[slot].hex() or "nothing"


def _dimensions(words):
    """Number, kind and dimensions of a line `screen NUMBER KIND DIMENSIONS`."""
    number, name = (words + ["", ""])[1:3]
    if number not in SCREENS:
        raise NoCommand("unknown screen")
    if name not in DEVICES:
        raise NoCommand("unknown device")
    kind, count = DEVICES[name]
    return number, kind, [parse_number(word) for word in commands.take(words[2:], count)]


def _call(words):
    """Name and arguments of a line `NUMBER NAME ARGUMENTS`."""
    name = words[1] if len(words) > 1 else ""
    if name not in CALLS:
        raise NoCommand("unknown call")
    parsers = CALLS[name]
    arguments = commands.take(words[1:], len(parsers))
    return name, [parse(word) for parse, word in zip(parsers, arguments)]


def answers(lines):
    return commands.texts(Reader(), lines)


if __name__ == "__main__":
    commands.main(answers)
