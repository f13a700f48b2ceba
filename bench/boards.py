"""Times the calls of a board through the program `screens`.

  python3 bench/boards.py [--runs R] [--calls N] [--table NAME]

A script with N calls on an open board is run, and the same script where every
call is out of turn and passed over, so that reading, printing and starting
cancel out. Each script is also run without its calls, so that filling the
slots cancels out too. A script's time is the least processor time of R runs.
The answer of a read is spelled out only where the board is open; what that
costs is timed by `slots` showing a device's memory, and taken off. Every script
is first run to see that its calls are answered as they should be.
"""

import argparse
import os
import subprocess
import sys
import tempfile
from dataclasses import dataclass
from pathlib import Path

PROGRAMS = Path(__file__).resolve().parent.parent / "target" / "bin"
CIPHERS = "aes128", "speck128"
BUNDLE = bytes(range(7, 55)).hex()
OPEN = "1 open %s 766563746f72" % BUNDLE
CELL_ROOM = 30


@dataclass(frozen=True)
class Device:
    """A device whose first slots are filled with its longest row."""

    kind: str
    slots: int
    longest: int
    cells: int = 0

    @property
    def dimensions(self):
        return " ".join(str(n) for n in (self.slots, self.longest, self.cells) if n)

    @property
    def filled(self):
        """How many slots can hold such a row at once."""
        if self.kind == "tray":
            return self.slots
        return min(self.slots, self.cells // -(-self.longest // CELL_ROOM))

    def row(self, number):
        """One of 255 rows, none of which begins with the byte 255."""
        return (bytes([number % 255]) * self.longest).hex()

    def fill(self):
        return ["1 write %d %s" % (slot, self.row(slot)) for slot in range(self.filled)]


# --- The calls, each a list of lines for `count` calls on a filled board ---

def _write(device, count):
    return ["1 write %d %s" % (i % device.filled, device.row(i)) for i in range(count)]


def _read(device, count):
    return ["1 read %d %d" % (i % device.filled, device.longest) for i in range(count)]


def _clear_and_write(device, count):
    lines = []
    for i in range(count):
        slot = i % device.filled
        lines += ["1 clear %d" % slot, "1 write %d %s" % (slot, device.row(i))]
    return lines


def _length(device, count):
    return ["1 length %d" % (i % device.filled) for i in range(count)]


def _fits(device, count):
    return ["1 fits %d %d" % (i % device.filled, device.longest) for i in range(count)]


def _find_none(device, count):
    """No row begins so, and every row has to be opened to see that."""
    return ["1 find ff %d" % device.longest] * count


CALLS = {
    "write": _write, "read": _read, "clear and write": _clear_and_write, "length": _length,
    "fits": _fits, "find": _find_none,
}


# Calls that take so little time that more of them are timed.
QUICK = 5


class Timer:
    """Times scripts; keeps what one byte of an answer costs."""

    def __init__(self, runs, calls):
        self.runs = runs
        self.calls = calls
        self._spelling = None

    def call(self, cipher, device, name):
        """Seconds for one call on an open board over the filled device."""
        count = self._count(device, name)
        lines, ready = CALLS[name](device, count), _ready(cipher, device)
        board, none = ready + [OPEN] + device.fill(), ready + device.fill()
        _expect(" : ok ", board + lines, len(ready))
        _expect(" : out of turn", none + lines, len(ready))
        on_board = self._least("screens", board + lines) - self._least("screens", board)
        passed_over = self._least("screens", none + lines) - self._least("screens", none)
        seconds = (on_board - passed_over) / count
        return seconds - self.spelling() * device.longest if name == "read" else seconds

    def opening(self, cipher, device):
        """Seconds for shutting a board and opening one again."""
        count = self.calls * QUICK
        ready = _ready(cipher, device) + [OPEN] + device.fill()
        in_turn = ready + ["1 shut", OPEN] * count
        # The same lines, but all except one are out of turn.
        out_of_turn = ready + [OPEN] * count + ["1 shut"] * count
        _expect(" : ok ", in_turn, len(ready))
        return (self._least("screens", in_turn) - self._least("screens", out_of_turn)) / count

    def spelling(self):
        """Seconds for showing one byte in hexadecimal."""
        if self._spelling is None:
            size, count = 64 * 1002, 100
            device = ["device tray 64 1000"]
            shown = self._least("slots", device + ["memory"] * count)
            self._spelling = (shown - self._least("slots", device)) / (size * count)
        return self._spelling

    def _count(self, device, name):
        if name == "find":
            # It opens every row.
            return max(20, self.calls // device.filled)
        return self.calls * QUICK if name in ("length", "fits") else self.calls

    def _least(self, program, lines):
        with _script(lines) as script:
            return min(_run(program, script) for _ in range(self.runs))


def _script(lines):
    script = tempfile.TemporaryFile()
    script.write("".join(line + "\n" for line in lines).encode())
    script.flush()
    return script


def _expect(answer, lines, before):
    """See that each line after the first few is answered so."""
    with _script(lines) as script:
        script.seek(0)
        done = subprocess.run([PROGRAMS / "screens"], stdin=script, capture_output=True, check=True)
    answers = done.stdout.decode().split("\n")[before:len(lines)]
    wrong = [line for line in answers if answer not in line]
    if wrong or len(answers) != len(lines) - before:
        sys.exit("a call was answered otherwise: %s" % "".join(wrong[:1])[-200:])


def _ready(cipher, device):
    return ["screen 1 %s %s" % (device.kind, device.dimensions), "screen 2 tray 1 16",
            "cipher " + cipher]


def _run(program, script):
    """Processor seconds of one run."""
    script.seek(0)
    child = subprocess.Popen([PROGRAMS / program], stdin=script, stdout=subprocess.DEVNULL)
    _, status, used = os.wait4(child.pid, 0)
    child.returncode = os.waitstatus_to_exitcode(status)
    if child.returncode:
        sys.exit("%s ended with status %d" % (program, child.returncode))
    return used.ru_utime + used.ru_stime


def _print_row(cells, widths):
    print("| " + " | ".join(str(cell).ljust(width) for cell, width in zip(cells, widths)) + " |",
          flush=True)


def _micro(seconds):
    return "%.*f" % (1 if seconds > 1e-6 else 2, seconds * 1e6)


def show_calls(timer):
    """Writes and reads on full devices, under both ciphers."""
    devices = (Device("tray", 64, 1000), Device("chain", 7, 1000, 255),
               Device("tray", 60, 100), Device("chain", 60, 100, 255))
    print("Microseconds for one call:\n")
    widths = 8, 6, 12, 9, 6, 6
    _print_row(("cipher", "device", "slots filled", "row bytes", "write", "read"), widths)
    _print_row(["-" * width for width in widths], widths)
    for cipher in CIPHERS:
        for device in devices:
            times = [_micro(timer.call(cipher, device, name)) for name in ("write", "read")]
            _print_row((cipher, device.kind, device.filled, device.longest, *times), widths)
    print("\nSpelling a row of 1,000 bytes, taken off the reads: %s microseconds.\n"
          % _micro(1000 * timer.spelling()))


# What grows from one device to the next, and the devices.
SERIES = {
    "slots": [Device("tray", n, 1000) for n in (8, 16, 32, 64)],
    "cells": [Device("chain", 64, 100, n) for n in (32, 64, 128, 255)],
    "longest": [Device("tray", 64, n) for n in (100, 200, 500, 1000)],
    "longest, chain": [Device("chain", 64, n, 255) for n in (100, 200, 500, 1000)],
}


def show_growth(timer, cipher="speck128"):
    """Every call at several sizes of device."""
    print("Microseconds for one call under %s, by size of the device:\n" % cipher)
    names = [*CALLS, "shut and open"]
    widths = [6, 5, 5, 7, 6] + [max(6, len(name)) for name in names]
    _print_row(["device", "slots", "cells", "longest", "filled", *names], widths)
    _print_row(["-" * width for width in widths], widths)
    grown = []
    for growing, devices in SERIES.items():
        table = [_all_calls(timer, cipher, device) for device in devices]
        for device, times in zip(devices, table):
            _print_row([device.kind, device.slots, device.cells or "", device.longest,
                        device.filled, *map(_micro, times)], widths)
        size = growing.split(",")[0]
        factor = getattr(devices[-1], size) / getattr(devices[0], size)
        most, name = max((last / first, name)
                         for first, last, name in zip(table[0], table[-1], names))
        grown.append("%s of a %s grown %.1f times: the time of a call grew at most %.1f times (%s)"
                     % (size, devices[0].kind, factor, most, name))
    print("\n" + "\n".join(grown))


def _all_calls(timer, cipher, device):
    times = [timer.call(cipher, device, name) for name in CALLS]
    return times + [timer.opening(cipher, device)]


TABLES = {"calls": show_calls, "growth": show_growth}


def main():
    parser = argparse.ArgumentParser(description=__doc__.split("\n")[0])
    parser.add_argument("--runs", type=int, default=5, help="runs of each script")
    parser.add_argument("--calls", type=int, default=4000, help="calls in a script")
    parser.add_argument("--table", choices=TABLES, help="this table alone")
    options = parser.parse_args()
    timer = Timer(options.runs, options.calls)
    for name in [options.table] if options.table else TABLES:
        TABLES[name](timer)


if __name__ == "__main__":
    main()
