"""Sessions of commands with the answers this implementation gives, and what
the makers of random sessions share."""

import commands


class Session:
    """Lines for a program, and each command among them with its answer.

    A line has one character for each byte.
    """

    def __init__(self, reader):
        self.reader = reader
        self.lines = []
        self.commands = []
        self.line_break = "\n"
        # Whether the last line ends with a line break like the others.
        self.finished = True

    def say(self, line):
        """Add a line; gives back its answer, None if it is passed over."""
        answer = commands.answer(self.reader, line)
        self.lines.append(line)
        if answer is not None:
            self.commands.append((line, answer))
        return answer

    def end(self):
        """End the input, after which some programs print more lines."""
        for answer in commands.last_answers(self.reader):
            self.commands.append(("(end of input)", answer))

    def input(self):
        """The bytes that a program is to read."""
        text = "".join(line + self.line_break for line in self.lines)
        if text and not self.finished:
            text = text[:-len(self.line_break)]
        return text.encode("latin-1")


class Deck:
    """Deals values in random order, each once before any comes again."""

    def __init__(self, rng, values):
        self._rng = rng
        self._values = list(values)
        self._left = []

    def deal(self):
        if not self._left:
            self._left = self._values[:]
            self._rng.shuffle(self._left)
        return self._left.pop()


# The lengths that a row can have on some device.
ROW_LENGTHS = range(16, 1001)
_WALK_STEP = 30


def walk(number):
    """Lengths of rows for the session of this number, in every fourth one: such
    sessions walk through all lengths, and overlap. Else none."""
    turn, rest = divmod(number, 4)
    if rest:
        return ()
    start = turn * (_WALK_STEP - 1) % len(ROW_LENGTHS)
    return ROW_LENGTHS[start:start + _WALK_STEP]


def chance(rng, percent):
    return rng.randrange(100) < percent


def hex_word(rng, data):
    """The bytes as a word, now and then in upper or mixed case."""
    word = commands.show_hex(data)
    if chance(rng, 10):
        return word.upper()
    if chance(rng, 3):
        return "".join(rng.choice((c, c.upper())) for c in word)
    return word


def _as_bytes(text):
    """The text in UTF-8, with one character for each byte."""
    return text.encode("utf-8").decode("latin-1")


_ODD_SPACES = [_as_bytes(space) for space in commands.WHITE_SPACE if space != "\n"]
# Characters of a text that no command has; the first looks like a space, but is none.
_ODD_TEXT = [_as_bytes(c) for c in "\u200b\ufeff\0\x1c\x1f\x7f\xe9\u0663\uff10\uff41\U0001f6eb"]
# No text in UTF-8: a stray byte, a character cut short or written too long,
# half a pair, and numbers too large.
_NO_TEXT = (
    "\xff", "\x80", "\xa0", "\xc3", "\xe2\x80", "\xc0\xa0", "\xe0\x80\xa0", "\xed\xa0\x80",
    "\xf4\x90\x80\x80", "\xf8\x88\x80\x80\x80",
)


def dressed(rng, words):
    """The words as a line, now and then with odd spacing."""
    if not chance(rng, 10):
        return " ".join(words)
    spaces = (" ", "  ", "\t", " \t ", rng.choice(_ODD_SPACES))
    line = words[0]
    for word in words[1:]:
        line += rng.choice(spaces) + word
    return rng.choice(("", *spaces)) + line + rng.choice(("", " \r", "\r", *spaces))


def _garbled(rng, line):
    """The line with something put in that is no text or belongs in no command."""
    at = rng.choice((0, len(line), rng.randint(0, len(line))))
    return line[:at] + rng.choice(rng.choice((_NO_TEXT, _NO_TEXT, _ODD_TEXT))) + line[at:]


def passed_over(rng):
    """A line that gets no answer."""
    return rng.choice(("", "# a remark", "#", "#seal 00", "  ", "\r", rng.choice(_ODD_SPACES)))


def _broken(rng, words):
    """Words of a good command with one thing spoilt, mostly beyond repair."""
    words = list(words)
    at = rng.randrange(len(words))
    how = rng.randrange(9)
    if how == 0 and len(words) > 1:
        del words[at]
    elif how == 1:
        words.insert(at + 1, rng.choice(("00", "-", "0", "x")))
    elif how == 2:
        words[-1] = words[-1][:-1] or "0"
    elif how == 3:
        words[at] += rng.choice("gzG.:-+")
    elif how == 4:
        words[at] = rng.choice(("--", "0x00", "+1", "-1", "1.0", "nothing"))
    elif how == 5:
        words[0] = rng.choice(("sea1", "Seal", "OPEN", "sealing", "writ", "peek", "quit"))
    elif how == 6:
        words[min(1, len(words) - 1)] = rng.choice(("aes", "AES128", "aes129", "speck", "Tray"))
    elif how == 7:
        # Where this is a number it stays the same one.
        words[at] = "0" * rng.choice((1, 2, 18, 20, 21, 300)) + words[at]
    else:
        words[-1] += "0"
    return words


def spoilt(rng, words):
    """A line of a good command with one thing spoilt."""
    if chance(rng, 30):
        return _garbled(rng, dressed(rng, words))
    return dressed(rng, _broken(rng, words))
