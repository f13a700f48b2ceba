"""The board over any slot device, and the plain board that models it.

A board seals each row before it goes into the slot below. It is itself a
device, so that boards pile.
"""

from dataclasses import dataclass
from functools import lru_cache

import mode
from devices import SlotDevice
from refusals import Refusal, decline_if

LONGEST_LABEL = 12


def nonce(slot, label):
    return slot.to_bytes(4, "little") + label.ljust(LONGEST_LABEL, b"\0")


# Sealing and opening depend on nothing but what is passed, and rows come up
# again and again, so what was worked out is kept for a while.
_seal = lru_cache(1024)(mode.seal)
_open_sealed = lru_cache(1024)(mode.open_sealed)


@dataclass(frozen=True)
class Keys:
    """Cipher, bundle and label, found good for opening a board."""

    kind: type
    bundle: bytes
    label: bytes

    def __post_init__(self):
        mode.check_bundle(self.kind, self.bundle)
        decline_if(len(self.label) > LONGEST_LABEL, Refusal.ContextTooLong)

    def sealed(self, slot, row):
        return _seal(self.kind, self.bundle, nonce(slot, self.label), b"", row)

    def opened(self, slot, row):
        return _open_sealed(self.kind, self.bundle, nonce(slot, self.label), b"", row)


class Board:
    """Keeps sealed rows in the device below, and shows them opened."""

    def __init__(self, keys, device):
        self._keys = keys
        self._device = device
        self.slots, self.longest = device.slots, device.longest

    def shut(self):
        """Gives back the device; the board must not be used again."""
        device = self._device
        del self._keys, self._device
        return device

    def units(self, length):
        return self._device.units(length)

    def total_units(self):
        return self._device.total_units()

    def write(self, slot, row):
        self._device.fits(slot, len(row))
        self._device.write(slot, self._keys.sealed(slot, row))

    def read(self, slot, buffer_length):
        return self._keys.opened(slot, self._device.read(slot, buffer_length))

    def clear(self, slot):
        self._device.clear(slot)

    def length(self, slot):
        return self._device.length(slot)

    def fits(self, slot, length):
        self._device.fits(slot, length)

    def find(self, start, buffer_length):
        """All slots whose opened row begins so."""
        decline_if(buffer_length < self.longest, Refusal.BufferTooShort)
        return [slot for slot, row in enumerate(self.rows()) if row and row.startswith(start)]

    def rows(self):
        """The opened row of each slot, empty where the slot holds nothing."""
        return mapped_rows(self._keys.opened, self._device.rows())


class PlainBoard(SlotDevice):
    """The model of a board: its memory is the clear rows themselves."""

    def __init__(self, device, rows):
        super().__init__((device.slots, device.longest), list(rows))
        self.units = device.units
        self._total = device.total_units()

    def total_units(self):
        return self._total

    def _row(self, slot):
        return self.memory[slot]

    def _put(self, slot, row):
        self.memory[slot] = row


def mapped_rows(change, rows):
    """Each row sealed or opened for its slot; nothing stays nothing."""
    return [change(slot, row) if row else b"" for slot, row in enumerate(rows)]
