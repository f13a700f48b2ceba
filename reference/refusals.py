"""The ten ways a call is declined."""

from enum import IntEnum


class Refusal(IntEnum):
    BadDimensions = 1
    MalformedMemory = 2
    WrongKeyLength = 3
    ContextTooLong = 4
    NoSuchSlot = 5
    WrongLength = 6
    EmptySlot = 7
    BufferTooShort = 8
    NoRoom = 9
    NotGenuine = 10


class Declined(Exception):
    """A call was declined; nothing has changed."""

    def __init__(self, refusal):
        super().__init__(refusal.name)
        self.refusal = refusal


def decline_if(hit, refusal):
    if hit:
        raise Declined(refusal)
