"""Counts what random sessions came to, so that one can see what was compared."""

import collections

from commands import parse_hex, words_of
from devices import Chain
from sessions import ROW_LENGTHS


class Coverage:
    """What the sessions had, by program."""

    def __init__(self):
        self.refusals = collections.defaultdict(collections.Counter)
        self.counts = collections.Counter()
        # Lengths of messages by cipher, of rows by program, cipher and device.
        self.messages = collections.defaultdict(collections.Counter)
        self.rows = collections.defaultdict(collections.Counter)
        self.longest_list = 0

    def see(self, name, session):
        look = {"sealer": self._sealer, "slots": self._slots, "screens": self._screens}[name]
        said = [(line, answer.text) for line, answer in session.commands]
        self.counts["no text"] += sum(not _is_text(line) for line in session.lines)
        for _, text in said:
            words = text.rpartition(" : ")[2].split(" ")
            if words[0] == "declined":
                self.refusals[name][words[2]] += 1
        look(session, [(words_of(line), text) for line, text in said if not _other(text)])

    def _sealer(self, session, said):
        for words, text in said:
            if text.startswith("ok ") and words[0] in ("seal", "open", "seal-proof", "open-proof"):
                self.messages[words[1]][len(parse_hex(words[-1]))] += 1
            if words[0] == "open-proof" and text.startswith("ok "):
                self.counts["genuine"] += 1

    def _slots(self, session, said):
        kind = None
        for words, text in said:
            if not text.startswith("ok "):
                continue
            if words[0] in ("device", "attach"):
                kind = words[1]
                self.counts[words[0]] += 1
            elif words[0] == "write":
                self.rows["slots, " + kind][len(parse_hex(words[2]))] += 1

    def _screens(self, session, said):
        calls = [(words, text.rpartition(" : ")[2]) for words, text in said if " : " in text]
        lists = collections.Counter(words[0] for words, _ in calls)
        self.longest_list = max([self.longest_list, *lists.values()])
        opened_with = {}
        for (number, name, *arguments), text in calls:
            if text == "out of turn":
                self.counts["out of turn"] += 1
            elif text.startswith("ok ") and name == "write":
                screen = session.reader.screens[number]
                device = "chain" if isinstance(screen.device, Chain) else "tray"
                kind = "screens, %s on a %s" % (session.reader.cipher.__name__, device)
                self.rows[kind][len(parse_hex(arguments[1]))] += 1
            elif text.startswith("ok ") and name in ("open", "shut"):
                self.counts[name] += 1
                if name == "open":
                    keys = tuple(map(parse_hex, arguments))
                    self.counts["other keys"] += opened_with.get(number, keys) != keys
                    opened_with[number] = keys

    def report(self):
        """Lines that say what was seen."""
        for cipher, lengths in sorted(self.messages.items()):
            yield "sealer, %s: %d messages sealed or opened, of %d lengths, %d to %d" % (
                cipher, lengths.total(), len(lengths), min(lengths), max(lengths))
        if self.messages:
            yield "sealer: %d proofs genuine" % self.counts["genuine"]
        for kind, lengths in sorted(self.rows.items()):
            yield "%s: %d rows written, of %d of the %d lengths" % (
                kind, lengths.total(), len(lengths), len(ROW_LENGTHS))
        if self.counts["device"]:
            yield "slots: %d devices set out, %d memories attached" % (
                self.counts["device"], self.counts["attach"])
        if self.longest_list:
            yield ("screens: %d openings, %d of them under another bundle or label than before, "
                   "%d shuttings, %d calls out of turn, longest list %d calls" % (
                       self.counts["open"], self.counts["other keys"], self.counts["shut"],
                       self.counts["out of turn"], self.longest_list))
        yield "%d lines that are no text in UTF-8" % self.counts["no text"]
        for name, refusals in self.refusals.items():
            counts = ", ".join("%s %d" % item for item in sorted(refusals.items()))
            yield "%s declined: %s" % (name, counts)


def _is_text(line):
    try:
        line.encode("latin-1").decode("utf-8")
    except UnicodeDecodeError:
        return False
    return True


def _other(text):
    """Whether an answer is to no command, or a line of the table at the end."""
    return text.split(" ")[0] in ("error", "slot")
