"""Command reader for the slot devices.

Two choices are a device's own: which of several matching slots a find
answers, and which free cells a write on a chain takes. Answers to `find` and
to `memory` on a chain therefore accept every right line.
"""

import commands
import devices
from commands import (
    Answer, NoCommand, parse_buffer_length, parse_hex, parse_number, show_hex, take
)
from refusals import Declined


class Reader:
    """Holds the device of the last device line that was accepted."""

    def __init__(self):
        self.device = None

    def obey(self, words):
        if words[0] in ("device", "attach"):
            return self._new_device(words)
        if words[0] not in _CALLS:
            raise NoCommand("unknown command")
        count, call = _CALLS[words[0]]
        arguments = take(words, count)
        if self.device is None:
            raise NoCommand("no device")
        return call(self.device, *arguments)

    def _new_device(self, words):
        kind = devices.KINDS.get(words[1] if len(words) > 1 else "")
        if kind is None:
            raise NoCommand("unknown device")
        dimension_count = 3 if kind is devices.Chain else 2
        attaching = words[0] == "attach"
        arguments = take(words[1:], dimension_count + attaching)
        dimensions = [parse_number(word) for word in arguments[:dimension_count]]
        if attaching:
            memory = parse_hex(arguments[-1])
            self.device = kind.attach(*dimensions, memory=memory)
        else:
            self.device = kind.set_out(*dimensions)
        return Answer("ok 0")


def _write(device, slot, row):
    device.write(parse_number(slot), parse_hex(row))
    return Answer("ok 0")


def _read(device, slot, buffer_length):
    row = device.read(parse_number(slot), parse_buffer_length(buffer_length))
    return Answer("ok %d %s" % (len(row), show_hex(row)))


def _clear(device, slot):
    device.clear(parse_number(slot))
    return Answer("ok 0")


def _length(device, slot):
    return Answer("ok %d" % device.length(parse_number(slot)))


def _fits(device, slot, length):
    device.fits(parse_number(slot), parse_number(length))
    return Answer("ok 0")


def _find(device, start, buffer_length):
    matches = device.find(parse_hex(start), parse_buffer_length(buffer_length))
    if not matches:
        return Answer("ok none")
    right = ["ok %d" % slot for slot in matches]
    return Answer(right[0], also=right.__contains__)


def _memory(device):
    text = "ok " + show_hex(device.memory)
    if isinstance(device, devices.Tray):
        return Answer(text)
    rows, dimensions = device.rows(), device.dimensions
    return Answer(text, also=lambda line: _holds(line, dimensions, rows))


def _holds(line, dimensions, rows):
    """Whether the line shows well-formed chain memory with these very rows."""
    word, _, shown = line.partition(" ")
    try:
        memory = parse_hex(shown)
        same = devices.Chain.attach(*dimensions, memory=memory).rows() == rows
    except (NoCommand, Declined):
        return False
    return word == "ok" and shown == show_hex(memory) and same


# Each command word with its number of further words.
_CALLS = {
    "write": (2, _write),
    "read": (2, _read),
    "clear": (1, _clear),
    "length": (1, _length),
    "fits": (2, _fits),
    "find": (2, _find),
    "memory": (0, _memory),
}


def answers(lines):
    return commands.texts(Reader(), lines)


if __name__ == "__main__":
    commands.main(answers)
