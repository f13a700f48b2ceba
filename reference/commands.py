"""Lines of words in, answers out: what the command readers share."""

import re
import sys

from refusals import Declined

# The characters with Unicode's property White_Space.
WHITE_SPACE = (
    "\t\n\v\f\r \x85\xa0\u1680\u2000\u2001\u2002\u2003\u2004\u2005\u2006\u2007\u2008\u2009\u200a"
    "\u2028\u2029\u202f\u205f\u3000"
)
_SPACES = re.compile("[%s]+" % WHITE_SPACE)
_HEX = re.compile(r"(?:[0-9a-fA-F]{2})+")
_NUMBER = re.compile(r"[0-9]+")
_LARGEST_NUMBER = 2**64 - 1
LONGEST_BUFFER = 70000


class NoCommand(Exception):
    """The line is no command; the text says why."""


class Answer:
    """The line to print, and which lines of another program are as good."""

    def __init__(self, text, also=None):
        self.text = text
        self._also = also

    def accepts(self, line):
        if is_error(self.text):
            return is_error(line)
        return line == self.text or bool(self._also and self._also(line))


def is_error(line):
    return line.split(" ")[0] == "error"


def words_of(line):
    """The words of a line; none for an empty line or a comment.

    A line comes with one character for each byte.
    """
    try:
        text = line.encode("latin-1").decode("utf-8")
    except UnicodeDecodeError:
        raise NoCommand("not text in UTF-8") from None
    words = [word for word in _SPACES.split(text) if word]
    return [] if not words or words[0].startswith("#") else words


def parse_hex(word):
    if word == "-":
        return b""
    if not _HEX.fullmatch(word):
        raise NoCommand("not a string of bytes")
    return bytes.fromhex(word)


def show_hex(data):
    return data.hex() or "-"


def parse_number(word):
    if not _NUMBER.fullmatch(word):
        raise NoCommand("not a number")
    digits = word.lstrip("0") or "0"
    if len(digits) > 20 or int(digits) > _LARGEST_NUMBER:
        raise NoCommand("number too large")
    return int(digits)


def parse_buffer_length(word):
    length = parse_number(word)
    if length > LONGEST_BUFFER:
        raise NoCommand("buffer too long")
    return length


def take(words, count):
    """The words after the first, which must be so many."""
    if len(words) != count + 1:
        raise NoCommand("wrong number of words")
    return words[1:]


def answer(reader, line):
    """The answer to one line, or None for a line that is passed over."""
    try:
        words = words_of(line)
        return reader.obey(words) if words else None
    except Declined as declined:
        return Answer("declined %d %s" % (declined.refusal, declined.refusal.name))
    except NoCommand as reason:
        return Answer("error %s" % reason)


def last_answers(reader):
    """What a reader has to say at the end of the input, mostly nothing."""
    return reader.ending() if hasattr(reader, "ending") else []


def full_answers(reader, lines):
    found = [answer(reader, line) for line in lines]
    return [one for one in found if one is not None] + last_answers(reader)


def texts(reader, lines):
    return [one.text for one in full_answers(reader, lines)]


def main(answers):
    lines = sys.stdin.buffer.read().decode("latin-1").split("\n")
    for text in answers(lines):
        print(text)
