"""Compares the built programs with this second implementation.

  python3 reference/check.py [--programs DIR] [--random N] [--seed S]
                             [--only NAME] [--commands WORD,WORD]

Prints what differs and a count for each part; the exit status is 1 if
anything differs, is missing, or was not compared at all.
"""

import argparse
import collections
import subprocess
import sys
from pathlib import Path

# Leave no compiled files in the folder.
sys.dont_write_bytecode = True

import random_sealer
import random_screens
import random_slots
import screens
import sealer
import slots
import vectors
from sessions import Session

ROOT = Path(__file__).resolve().parent.parent
PROGRAMS = {
    "sealer": (sealer, random_sealer),
    "slots": (slots, random_slots),
    "screens": (screens, random_screens),
}
TIME_LIMIT = 120
SHOWN_DIFFERENCES = 10
SHOWN_LENGTH = 400


class Part:
    """Counts the comparisons of one part and prints what is wrong."""

    def __init__(self, name):
        self.name = name
        self.compared = 0
        self.wrong = 0
        self.kinds = collections.Counter()
        self.note = ""

    def fail(self, what, **details):
        self.wrong += 1
        if self.wrong > SHOWN_DIFFERENCES:
            return
        print("%s: %s" % (self.name, what))
        for label, text in details.items():
            print("  %-9s %s" % (label + ":", _shortened(text)))

    def compare(self, where, session, got):
        """Compare a program's lines with the answers of a session."""
        expected = session.commands
        if len(expected) != len(got):
            self.fail("%s: different number of lines" % where,
                      expected=str(len(expected)), got=str(len(got)))
        for number, ((line, answer), got_line) in enumerate(zip(expected, got), 1):
            self.compared += 1
            self.kinds[_kind(answer.text)] += 1
            if not answer.accepts(got_line):
                self.fail("%s, command %d differs" % (where, number),
                          command=line, expected=answer.text, got=got_line)

    def finish(self):
        """Print the count; gives back whether all is well."""
        if self.wrong > SHOWN_DIFFERENCES:
            print("%s: %d more not shown" % (self.name, self.wrong - SHOWN_DIFFERENCES))
        if not self.compared:
            print("%s: nothing was compared" % self.name)
        kinds = ", ".join("%s %d" % item for item in sorted(self.kinds.items()))
        print("%s: %d compared%s%s, %d wrong" % (
            self.name, self.compared, " (%s)" % kinds if kinds else "", self.note, self.wrong))
        return self.compared > 0 and self.wrong == 0


def _kind(text):
    """The word an answer is counted under; a repeated call is left out."""
    text = text.rpartition(" : ")[2]
    return text if text == "out of turn" else text.split(" ")[0]


def _shortened(text):
    text = text.encode("unicode_escape").decode("ascii")
    if len(text) <= SHOWN_LENGTH:
        return text
    return "%s... (%d characters)" % (text[:SHOWN_LENGTH], len(text))


def _lines(data):
    """The lines of a file or an output; a last line break ends a line."""
    lines = data.decode("latin-1").split("\n")
    if lines[-1] == "":
        lines.pop()
    return lines


def check_vectors():
    part = Part("vectors")
    part.compared, failed = vectors.failures()
    for name, got, right in failed:
        part.fail(name, expected=str(right), got=str(got))
    return part


def check_stored(name):
    """The stored session against this implementation."""
    part = Part("%s stored" % name)
    stored = [ROOT / "crates" / name / file for file in ("stdin", "stdout")]
    missing = [path for path in stored if not path.is_file()]
    for path in missing:
        part.fail("missing file", path=str(path.relative_to(ROOT)))
    if missing:
        return part
    commands, output = (_lines(path.read_bytes()) for path in stored)
    session = Session(PROGRAMS[name][0].Reader())
    for line in commands:
        session.say(line)
    session.end()
    part.compare("stored session", session, output)
    return part


def _run(part, where, command, session, time_limit):
    """The program's lines for a session, None if it did not run to its end."""
    try:
        done = subprocess.run([str(word) for word in command], input=session.input(),
                              capture_output=True, timeout=time_limit)
    except (OSError, subprocess.TimeoutExpired) as trouble:
        part.fail("%s: the program did not run" % where, reason=str(trouble))
        return None
    if done.returncode != 0 or done.stderr:
        part.fail("%s: the program ended with status %d" % (where, done.returncode),
                  stderr=done.stderr.decode("latin-1").strip())
    return _lines(done.stdout)


def compare_session(part, where, command, maker, session, time_limit=TIME_LIMIT):
    """Run a session through a program and compare, and then what follows it.

    Gives back how many sessions followed, None if the program did not run.
    """
    got = _run(part, where, command, session, time_limit)
    if got is None:
        return None
    part.compare(where, session, got)
    again = maker.follow_up(session, got) if len(got) == len(session.commands) else None
    if not again:
        return 0
    where += ", its memories attached again"
    part.compare(where, again, _run(part, where, command, again, time_limit) or [])
    return 1


def check_random(name, program, options):
    """Random sessions through the program against this implementation."""
    part = Part("%s random" % name)
    if not program.is_file():
        part.fail("missing program", path=str(program))
        return part
    maker = PROGRAMS[name][1]
    sessions = maker.sessions(options.seed, options.random, options.commands)
    made = followed = 0
    for made, session in enumerate(sessions, 1):
        where = "session %d of seed %s" % (made, options.seed)
        more = compare_session(part, where, [program], maker, session)
        if more is None:
            break
        followed += more
    part.note = " in %d sessions" % made
    if followed:
        part.note += " and %d more on the memories they showed" % followed
    return part


def _options():
    parser = argparse.ArgumentParser(description=__doc__.split("\n")[0])
    parser.add_argument("--programs", type=Path, default=ROOT / "target" / "bin",
                        help="folder of the built programs")
    parser.add_argument("--random", type=int, default=2000,
                        help="random commands for each program")
    parser.add_argument("--seed", default="1", help="seed of the random sessions")
    parser.add_argument("--only", choices=["vectors", *PROGRAMS],
                        help="the vectors and this program alone")
    parser.add_argument("--commands", type=lambda text: text.split(","), default=[],
                        help="command words of the random sealer sessions, all if not given")
    options = parser.parse_args()
    if options.random < 1:
        parser.error("--random must be at least 1")
    unknown = set(options.commands) - set(random_sealer.WORDS)
    if unknown:
        parser.error("unknown command words: %s" % ", ".join(sorted(unknown)))
    return options


def _chosen(options):
    """The programs to compare: those with a folder, or the one asked for."""
    if options.only:
        return [name for name in PROGRAMS if name == options.only]
    return [name for name in PROGRAMS if (ROOT / "crates" / name).is_dir()]


def main():
    options = _options()
    parts = [check_vectors()]
    for name in _chosen(options):
        parts.append(check_stored(name))
        parts.append(check_random(name, options.programs / name, options))
    results = [part.finish() for part in parts]
    if len(parts) == 1 and options.only != "vectors":
        print("no program has a folder in crates, so none was compared")
        results.append(False)
    return 0 if all(results) else 1


if __name__ == "__main__":
    sys.exit(main())
