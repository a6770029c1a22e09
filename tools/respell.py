#!/usr/bin/env python3
"""Gives the definitions and lemmas of this repository one spelling: snake case for all but types, records and sets of rules.

usage: python3 tools/respell.py [--list]        at the top of the repository; --list prints the names alone

A name is taken from the crates' specs/*.antt and proofs/*.antt, where it is declared. It is turned there, in the folders of the functions' proofs, in
clauses, in edits that must be refused and in the pages, everywhere but where a file has brought in the same name from elsewhere. Two names of
one file that would fall together stop the script before anything is written. A file that has the new spelling stays as it is.
"""
import re
import sys
from pathlib import Path

ROOT = Path.cwd()
CUT = r"\s(){}\[\];,.λ→×⊎`'\"≡≤<>∷⌜⌝/"
TOKEN = re.compile(rf"[^{CUT}]+'*")
DECLARED = re.compile(r"^\s*(?:(?:abbrev|unfoldable|pub) )*(?:(data|record|ruleset) )?([^\s(){}\[\];,.:]+)(?: [^:]*)? :(?: |$)")
OURS = sorted(p.name for p in (ROOT / "crates").iterdir())
# a name that is all of this form is respelled
OLD = re.compile(r"^[a-z][A-Za-z0-9]*(?:[-_][A-Za-z0-9]+)*\??$")
# the spelling of this one would be that of a definition
OTHER = {"first-bad": "verdict_breaks"}
USED = re.compile(r"use (Rattle\.(\w+)\.\S*|[A-Za-z]\S*)\.\{([^}]*)\}", re.S)


def snake(name):
    if not OLD.match(name):
        return name
    return re.sub(r"(?<=[a-z0-9])([A-Z])", lambda m: "_" + m.group(1).lower(), name.replace("-", "_"))


def declared():
    names = {}
    for crate in OURS:
        for folder in ("specs", "proofs"):
            for path in sorted((ROOT / "crates" / crate / folder).glob("*.antt")):
                for line in path.read_text().splitlines():
                    m = DECLARED.match(line)
                    if m and not line.lstrip().startswith(("use ", "--")):
                        names.setdefault(m.group(2), set()).add(path)
    return names


def aliases():
    """Other names that a crate gives an import, in clauses and in proofs."""
    found = set()
    for path in (ROOT / "crates").rglob("*"):
        if path.suffix in (".rt", ".antt") and "out" not in path.parts:
            for m in USED.finditer(path.read_text()):
                if m.group(2) in OURS:
                    found |= set(re.findall(r"\bas ([^\s,}]+)", m.group(3)))
    return found


def foreign(text):
    """The names that a file brings in from outside the repository."""
    out = set()
    for m in USED.finditer(text):
        if m.group(2) not in OURS:
            out |= {w for part in m.group(3).split(",") for w in part.strip().split(" as ")}
    return out


def main():
    names = declared()
    every = set(names) | aliases()
    table = {n: OTHER.get(n, snake(n)) for n in every if snake(n) != n}
    here = set(table.values()) | every

    def named(token):
        """In edits and pages a name may still have the spelling that it had before the files of its crate were turned."""
        t = OTHER.get(token, snake(token))
        return t if t in here else token

    clash = [(n, t) for n, t in table.items() if t in every and n != t and n in names and t in names and names[n] & names[t]]
    if "--list" in sys.argv:
        for n in sorted(table):
            print(n, table[n])
    for n, t in sorted(clash):
        print(f"these fall together in one file: {n} {t}", file=sys.stderr)
    if clash or "--list" in sys.argv:
        return bool(clash)
    files = [p for p in (ROOT / "crates").rglob("*") if p.suffix in (".rt", ".antt", ".edit") and "out" not in p.parts]
    files += [*(ROOT / "docs").glob("*.md"), ROOT / "README.md"]
    changed = 0
    for path in files:
        text = path.read_text()
        if path.suffix == ".md":
            # only what stands between backticks is a name
            new = re.sub(r"`[^`\n]+`", lambda m: TOKEN.sub(lambda t: named(t.group(0)), m.group(0)), text)
        elif path.suffix == ".edit":
            new = TOKEN.sub(lambda t: named(t.group(0)), text)
        else:
            out = foreign(text)
            new = TOKEN.sub(lambda t: t.group(0) if t.group(0) in out else table.get(t.group(0), t.group(0)), text)
        if new != text:
            path.write_text(new)
            changed += 1
    print(f"{len(table)} names respelled, {changed} files changed")
    return 0


if __name__ == "__main__":
    sys.exit(main())
