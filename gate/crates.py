#!/usr/bin/env python3
"""Prints docs/CRATES.md: what each crate stands on, and whose lemmas it cites.

A crate stands on those of its line in crates.txt; the page leaves out what it reaches by another. It cites lemmas of a
crate where a file of its proofs names one of that crate's proof files.
"""

import re
import sys
from pathlib import Path

ROOT = Path(__file__).resolve().parent.parent
CITED = re.compile(r"\bRattle\.(\w+)\.proofs\.")


def crates_of(root: Path) -> dict[str, list[str]]:
    """The crates in the order of crates.txt, each with what it stands on."""
    lines = re.findall(r"^(\w+)(?: \w+)?: (.*)$", (root / "crates.txt").read_text(), re.M)
    return {name: below.split() for name, below in lines}


def reached_from(crates: dict[str, list[str]], name: str) -> set[str]:
    """What a crate stands on, and what that stands on, and so on."""
    return set().union(*({below} | reached_from(crates, below) for below in crates.get(name, [])))


def next_below(crates: dict[str, list[str]], name: str) -> list[str]:
    """What a crate stands on and does not reach by another."""
    by_others = set().union(*(reached_from(crates, below) for below in crates[name]))
    return [below for below in crates[name] if below not in by_others]


def cited_by(folder: Path, crates: dict[str, list[str]]) -> list[str]:
    """The other crates whose lemmas a crate's proofs cite, in the order of crates.txt."""
    named = {name for path in folder.glob("proofs/**/*.antt") for name in CITED.findall(path.read_text())}
    return [name for name in crates if name in named and name != folder.name]


def page(root: Path) -> str:
    """docs/CRATES.md."""
    crates = crates_of(root)
    rows = [("crate", "stands on", "cites lemmas of")]
    rows += [(name, " ".join(next_below(crates, name)), " ".join(cited_by(root / "crates" / name, crates))) for name in crates]
    wide = [max(len(row[column]) for row in rows) + 2 for column in (0, 1)]
    text = "".join(f"{name:{wide[0]}}{below:{wide[1]}}{cited}".rstrip() + "\n" for name, below, cited in rows)
    return f"{INTRODUCTION}\n```\n{text}```\n"


INTRODUCTION = """# Crates

`gate/crates.py` makes this page. A crate stands on the public contracts of others: the second column names them but for
those that it reaches by another; `crates.txt` has all. The third column names the crates whose lemmas its proofs cite.
"""

if __name__ == "__main__":
    sys.stdout.write(page(ROOT))
