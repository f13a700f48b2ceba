#!/usr/bin/env python3
"""Brings the repository's own names to the library's spelling, in place: functions, lemmas, fields and constructors of
specs/ and proofs/, and ghost members and fields of src/, are words in snake case. Types, facts and modules keep their
capitals, names of the code and goals keep theirs. Run once at the top, after the kit's own script.

With --list it only prints the names, old and new."""
import collections
import pathlib
import re
import sys

TOKEN = re.compile(r"[A-Za-z_][\w'-]*")
# a declaration at the margin or, in a record or a data type, below it
DECLARED = re.compile(r"^(?P<in>  )?(?:(?:abbrev|unfoldable) )?(?:(?:pub|data|record|axiom) )*(?P<name>[A-Za-z_][\w'-]*)(?= [:({]| :)", re.M)
GHOST = re.compile(r"\bghost (?!use\b)([A-Za-z_]\w*)")
# lemmas that would fall together with a definition or a function: they are called NAME_lem
APART = {name: name.replace("-", "_") + "_lem" for name in (
    "same_bytes",
    "same-bytes",
    "rows-opened",
    "sealed-by",
    "row-by",
    "block-of",
    "empty-slot",
    "prf-key",
    "blk-key",
    "cell-formed",
    "eight-up",
    "four-up",
    "inv-shift-sub",
    "sub-shift",
)} | {"getD-from": "get_or_from", "getD-through": "get_or_through"}


def snake(name):
    if not name[:1].islower():
        return name
    name = re.sub(r"([a-z0-9₀-₉])([A-Z])", lambda m: m[1] + "_" + m[2].lower(), name)
    return name.replace("-", "_")


def brought_in(text, own):
    """The names that a file takes from other repositories' modules, or from what is made of the code: they stay."""
    names = set()
    for module, listed in re.findall(r"\buse ([\w.·'-]+)\.\{([^}]*)\}", text):
        parts = module.split(".")
        if not (parts[0] == "Rattle" and parts[1] in own) or {"declared", "Goals", "Given"} & set(parts):
            names |= {n.split(" as ")[0].strip() for n in listed.split(",")}
    return names


def goals(text):
    return set(re.findall(r"^(?:abbrev )?pub ([\w'-]+) : goal\.", text, re.M))


def files(top, *kinds):
    for kind in kinds:
        yield from sorted(p for p in top.glob(kind) if "out" not in p.parts and p.is_file())


def own_names(top):
    """The names that the repository's definitions, lemmas and ghost items have."""
    names = collections.defaultdict(set)
    for p in files(top, "crates/*/specs/**/*.antt", "crates/*/proofs/**/*.antt"):
        text = p.read_text()
        skip = goals(text)
        for m in DECLARED.finditer(text):
            if m["name"] not in skip and m["name"] not in ("use", "mod", "pub", "where", "unfolding"):
                names[m["name"]].add(str(p))
    for p in files(top, "crates/*/src/**/*.rt"):
        for name in GHOST.findall(p.read_text()):
            names[name].add(str(p))
    return names


def respelled(names):
    """Old name to new, and the new names that another definition or lemma has."""
    new, fall = {}, []
    for name in sorted(names):
        to = APART.get(name, snake(name))
        if to == name:
            continue
        if to in names or to in new.values():
            fall.append((name, to))
        new[name] = to
    return new, fall


def turn(text, new, comment, stay=frozenset()):
    out, last = [], 0
    quiet = [m.span() for m in re.finditer(r'"(?:\\.|[^"\\\n])*"', text)]
    remarks = [m.span() for m in re.finditer(comment + r".*", text)]
    inside = lambda at, spans: any(a <= at < b for a, b in spans)
    for m in TOKEN.finditer(text):
        to = new.get(m[0])
        if to is None or inside(m.start(), quiet) or text[: m.start()].endswith("goal."):
            continue
        # behind a dot it is a module's own name or a field, and not what the file brought in
        if m[0] in stay and text[m.start() - 1 : m.start()] != ".":
            continue
        # a word with a dash in a remark is plain English
        if "-" in m[0] and inside(m.start(), remarks):
            continue
        out += [text[last : m.start()], to]
        last = m.end()
    return "".join(out) + text[last:]


def main():
    top = pathlib.Path(".")
    names = own_names(top)
    new, fall = respelled(names)
    if "--list" in sys.argv:
        for name in sorted(new):
            print(name, new[name], *sorted(names[name])[:2])
        print("falls together:")
        for name, to in fall:
            print(" ", name, to, *sorted(names[name])[:3])
        return
    crates = {p.name for p in (top / "crates").iterdir()}
    for p in files(top, "crates/*/specs/**/*.antt", "crates/*/proofs/**/*.antt"):
        text = p.read_text()
        stay = goals(text) | brought_in(text, crates)
        p.write_text(turn(text, new, "--", stay))
    for p in files(top, "crates/*/src/**/*.rt", "crates/*/must-fail/*.edit"):
        text = p.read_text()
        p.write_text(turn(text, new, "//"))


if __name__ == "__main__":
    main()
