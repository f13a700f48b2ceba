"""Slot devices over raw memory: the tray and the chain.

A device has S slots, each with nothing or a row of 16 to M bytes. A row costs
units by its length, and the units of all rows together never exceed a total.
"""

from refusals import Refusal, decline_if

SHORTEST_ROW = 16


class SlotDevice:
    """What every device keeps; a kind adds its layout, units and total."""

    def __init__(self, dimensions, memory):
        self.dimensions = dimensions
        self.slots, self.longest = dimensions[:2]
        self.memory = memory

    @classmethod
    def set_out(cls, *dimensions):
        cls._check_dimensions(*dimensions)
        return cls(dimensions, bytearray(cls.layout_length(*dimensions)))

    @classmethod
    def attach(cls, *dimensions, memory):
        cls._check_dimensions(*dimensions)
        decline_if(len(memory) != cls.layout_length(*dimensions), Refusal.BadDimensions)
        device = cls(dimensions, bytearray(memory))
        decline_if(not device._well_formed(), Refusal.MalformedMemory)
        return device

    @classmethod
    def _check_dimensions(cls, slots, longest):
        decline_if(not 1 <= slots <= 64, Refusal.BadDimensions)
        decline_if(not 16 <= longest <= 1000, Refusal.BadDimensions)

    def write(self, slot, row):
        self.fits(slot, len(row))
        self._put(slot, row)

    def read(self, slot, buffer_length):
        row = self._held(slot)
        decline_if(buffer_length < len(row), Refusal.BufferTooShort)
        return row

    def clear(self, slot):
        self._held(slot)
        self._put(slot, b"")

    def length(self, slot):
        return len(self._held(slot))

    def fits(self, slot, length):
        """Answers as a write of a row so long would."""
        self._check_slot(slot)
        decline_if(not self._row_length_allowed(length), Refusal.WrongLength)
        others = sum(
            self.units(len(row)) for other, row in enumerate(self.rows()) if other != slot
        )
        decline_if(others + self.units(length) > self.total_units(), Refusal.NoRoom)

    def find(self, start, buffer_length):
        """All slots whose row begins so; a device may answer any one of them."""
        decline_if(buffer_length < self.longest, Refusal.BufferTooShort)
        return [slot for slot, row in enumerate(self.rows()) if row and row.startswith(start)]

    def rows(self):
        """The row of each slot, empty where the slot holds nothing."""
        return [self._row(slot) for slot in range(self.slots)]

    def _check_slot(self, slot):
        decline_if(slot >= self.slots, Refusal.NoSuchSlot)

    def _held(self, slot):
        self._check_slot(slot)
        row = self._row(slot)
        decline_if(not row, Refusal.EmptySlot)
        return row

    def _row_length_allowed(self, length):
        return SHORTEST_ROW <= length <= self.longest


class Tray(SlotDevice):
    """Per slot: a length in two bytes, lowest first, the row, then zeros."""

    @staticmethod
    def layout_length(slots, longest):
        return slots * (2 + longest)

    @staticmethod
    def units(length):
        return 0

    def total_units(self):
        return 0

    def _start(self, slot):
        return slot * (2 + self.longest)

    def _stored_length(self, slot):
        start = self._start(slot)
        return int.from_bytes(self.memory[start:start + 2], "little")

    def _row(self, slot):
        start = self._start(slot) + 2
        return bytes(self.memory[start:start + self._stored_length(slot)])

    def _put(self, slot, row):
        start = self._start(slot)
        stored = len(row).to_bytes(2, "little") + row
        self.memory[start:start + 2 + self.longest] = stored.ljust(2 + self.longest, b"\0")

    def _well_formed(self):
        return all(self._slot_well_formed(slot) for slot in range(self.slots))

    def _slot_well_formed(self, slot):
        length = self._stored_length(slot)
        if length and not self._row_length_allowed(length):
            return False
        start = self._start(slot)
        return not any(self.memory[start + 2 + length:start + 2 + self.longest])


class Chain(SlotDevice):
    """S head bytes, then cells of 32 bytes numbered from 1.

    A cell is the number of the next cell, its count of used bytes, and 30
    bytes of row; number zero ends a chain. Every cell of a chain but the last
    is full, and a cell on no chain is all zero.
    """

    CELL = 32
    ROOM = 30

    def __init__(self, dimensions, memory):
        super().__init__(dimensions, memory)
        self.cells = dimensions[2]

    @classmethod
    def _check_dimensions(cls, slots, longest, cells):
        super()._check_dimensions(slots, longest)
        decline_if(not 1 <= cells <= 255, Refusal.BadDimensions)

    @classmethod
    def layout_length(cls, slots, longest, cells):
        return slots + cells * cls.CELL

    @classmethod
    def units(cls, length):
        return -(-length // cls.ROOM)

    def total_units(self):
        return self.cells

    def _cell(self, number):
        start = self.slots + (number - 1) * self.CELL
        return self.memory[start:start + self.CELL]

    def _set_cell(self, number, content):
        start = self.slots + (number - 1) * self.CELL
        self.memory[start:start + self.CELL] = content.ljust(self.CELL, b"\0")

    def _path(self, slot):
        """The numbers of the slot's cells, or None if the chain is not sound."""
        path, number = [], self.memory[slot]
        while number:
            if number > self.cells or number in path:
                return None
            path.append(number)
            number = self._cell(number)[0]
        return path

    def _row(self, slot):
        cells = [self._cell(number) for number in self._path(slot)]
        return b"".join(bytes(cell[2:2 + cell[1]]) for cell in cells)

    def _put(self, slot, row):
        for number in self._path(slot):
            self._set_cell(number, b"")
        self.memory[slot] = 0
        taken = {number for other in range(self.slots) for number in self._path(other)}
        free = [number for number in range(1, self.cells + 1) if number not in taken]
        self.lay(slot, row, free)

    def lay(self, slot, row, numbers):
        """Put a row into the first of these free cells, as many as it needs."""
        parts = [row[i:i + self.ROOM] for i in range(0, len(row), self.ROOM)]
        path = list(numbers[:len(parts)]) + [0]
        self.memory[slot] = path[0]
        for number, following, part in zip(path, path[1:], parts):
            self._set_cell(number, bytes([following, len(part)]) + part)

    def _well_formed(self):
        paths = [self._path(slot) for slot in range(self.slots)]
        if None in paths:
            return False
        taken = [number for path in paths for number in path]
        if len(taken) != len(set(taken)):
            return False
        free = set(range(1, self.cells + 1)) - set(taken)
        return (
            not any(any(self._cell(number)) for number in free)
            and all(self._path_well_formed(path) for path in paths)
        )

    def _path_well_formed(self, path):
        counts = [self._cell(number)[1] for number in path]
        for number, count in zip(path, counts):
            full_enough = 1 <= count <= self.ROOM if number == path[-1] else count == self.ROOM
            if not full_enough or any(self._cell(number)[2 + count:]):
                return False
        return not path or self._row_length_allowed(sum(counts))


KINDS = {"tray": Tray, "chain": Chain}
