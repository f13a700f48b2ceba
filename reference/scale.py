"""Compares the built programs with this second implementation at scale.

  python3 reference/scale.py [--sessions N] [--seed S] [--first K] [--only NAME]
                             [--valgrind] [--programs DIR]

Runs N random sessions (10,000 if not said), each through a program of its own
and through this implementation, and compares every line. Session K of a seed
is always the same one, so that it can be run alone. The exit status is 1 if
anything differs or nothing was compared; a session that differs is kept in
target/scale. With --valgrind the programs run under valgrind, which has to find no
error and no memory that is not given back (300 sessions if not said).
"""

import argparse
import os
import random
import sys
import time
from pathlib import Path

# Leave no compiled files in the folder.
sys.dont_write_bytecode = True

import check
from coverage import Coverage
from screens import Disagreement
from sessions import chance

KEPT = check.ROOT / "target" / "scale"
VALGRIND = ["valgrind", "-q", "--error-exitcode=99", "--leak-check=full",
            "--show-leak-kinds=all", "--errors-for-leak-kinds=all"]
TIME_LIMIT = 600
PROGRESS_LINES = 20


def _made(name, seed, number):
    """Session `number` of a seed, with line breaks as files may have them."""
    rng = random.Random("%s %s %d" % (name, seed, number))
    session = check.PROGRAMS[name][1].drawn(rng, number // len(check.PROGRAMS))
    if chance(rng, 5):
        session.line_break = "\r\n"
    session.finished = not chance(rng, 20)
    return session


class Comparison:
    """Makes sessions one after the other, compares, and keeps what differs."""

    def __init__(self, options):
        self.options = options
        names = [options.only] if options.only else list(check.PROGRAMS)
        self.parts = {name: check.Part(name) for name in names}
        self.counts = dict.fromkeys(names, 0)
        self.coverage = Coverage()
        self.began = time.monotonic()

    @property
    def compared(self):
        return sum(part.compared for part in self.parts.values())

    @property
    def wrong(self):
        return sum(part.wrong for part in self.parts.values())

    def run(self):
        names, total = list(self.parts), self.options.sessions
        for done in range(1, total + 1):
            number = self.options.first + done - 1
            self._compare(names[number % len(names)], number)
            if done % max(1, total // PROGRESS_LINES) == 0:
                self._say(done)

    def _compare(self, name, number):
        part, wrong_before = self.parts[name], self.parts[name].wrong
        where = "session %d of seed %s" % (number, self.options.seed)
        command = [*(VALGRIND if self.options.valgrind else []), self.options.programs / name]
        self.counts[name] += 1
        try:
            session = _made(name, self.options.seed, number)
        except Disagreement as trouble:
            part.fail("%s: this implementation disagrees with itself" % where, reason=str(trouble))
            return
        maker = check.PROGRAMS[name][1]
        more = check.compare_session(part, where, command, maker, session, TIME_LIMIT)
        self.counts[name] += more or 0
        self.coverage.see(name, session)
        if part.wrong > wrong_before:
            self._keep(name, number, session)

    def _keep(self, name, number, session):
        KEPT.mkdir(parents=True, exist_ok=True)
        path = KEPT / ("%s-%s-%d.txt" % (name, self.options.seed, number))
        path.write_bytes(session.input())
        print("%s: session %d is kept in %s; it comes again with --only %s --seed %s --first %d "
              "--sessions 1" % (name, number, path, name, self.options.seed, number), flush=True)

    def _say(self, done):
        # Of this process and of the programs it ran.
        processor = sum(os.times()[:4])
        print("%d sessions, %d lines compared, %d differences, %.0f s, %.0f s of them at work" % (
            done, self.compared, self.wrong, time.monotonic() - self.began, processor), flush=True)

    def finish(self):
        """Print what was compared; gives back whether all is well."""
        for name, part in self.parts.items():
            part.note = " in %d runs of the program" % self.counts[name]
        results = [part.finish() for part in self.parts.values() if self.counts[part.name]]
        for line in self.coverage.report():
            print("  " + line)
        print("seed %s, sessions %d to %d%s" % (
            self.options.seed, self.options.first, self.options.first + self.options.sessions - 1,
            " under valgrind" if self.options.valgrind else ""))
        self._say(self.options.sessions)
        return all(results)


def _options():
    parser = argparse.ArgumentParser(description=__doc__.split("\n")[0])
    parser.add_argument("--sessions", type=int, help="how many sessions")
    parser.add_argument("--seed", default="1", help="seed of the random sessions")
    parser.add_argument("--first", type=int, default=0, help="number of the first session")
    parser.add_argument("--only", choices=check.PROGRAMS, help="this program alone")
    parser.add_argument("--valgrind", action="store_true", help="run the programs under valgrind")
    parser.add_argument("--programs", type=Path, default=check.ROOT / "target" / "bin",
                        help="folder of the built programs")
    options = parser.parse_args()
    if options.sessions is None:
        options.sessions = 300 if options.valgrind else 10000
    if options.sessions < 1 or options.first < 0:
        parser.error("--sessions must be at least 1, --first at least 0")
    return options


def main():
    options = _options()
    comparison = Comparison(options)
    missing = [name for name in comparison.parts if not (options.programs / name).is_file()]
    if missing:
        print("not built: %s" % ", ".join(missing))
        return 1
    comparison.run()
    return 0 if comparison.finish() else 1


if __name__ == "__main__":
    sys.exit(main())
