#!/usr/bin/env python3
"""Prints docs/BELIEVED.md: the definitions that the proved claims rest on.

A claim is the contract of `top`, or a law that docs/PROVED.md names: a public function without a body. What its clauses
name is looked up in the crates' specs, and so on, until nothing new is named. A proof file is never among them: what the
prover has checked need not be believed. Names of the toolchain's library are left out.
"""

import re
import sys
from dataclasses import dataclass, field
from pathlib import Path

ROOT = Path(__file__).resolve().parent.parent
WORD = re.compile(r"[^\W\d][\w'-]*(?:\.[^\W\d][\w'-]*)*")
USE = re.compile(r"^\s*(?:pub |ghost )*use (?:Rattle|crate)\.?(?:::)?([\w.:]+?)(?:\.\{(.*?)\}| as (\w+))?;?\s*$", re.M)
DECLARES = re.compile(r"(?:abbrev |unfoldable )*(?:pub )?(?:(record|data) )?([^\W\d][\w'-]*)\s*(?=[:({]|$)")


@dataclass
class Item:
    """A definition, or a type or a trait of the code, with the lines that it takes."""

    name: str
    first: int
    last: int
    text: str


@dataclass
class Source:
    """A file with its items and what its names mean: a module and the name there."""

    path: Path
    subject: str
    items: dict[str, Item] = field(default_factory=dict)
    names: dict[str, tuple[str, str]] = field(default_factory=dict)
    modules: dict[str, str] = field(default_factory=dict)


def without_comments(text: str) -> str:
    """The text, with each comment gone and each line where it was."""
    return re.sub(r"(--|//).*", "", text)


def subject_of(text: str) -> str:
    """The first comment of a file, as one sentence."""
    lines = []
    for line in text.splitlines():
        found = re.match(r"(?:--|//!?)\s?(.*)", line)
        if not found or not found[1]:
            break
        lines.append(found[1])
    return " ".join(lines)


def take_uses(source: Source, text: str) -> None:
    """Notes what the file's `use` lines bring in."""
    for module, names, alias in USE.findall(text):
        if alias:
            source.modules[alias] = module
        for name in filter(None, (part.strip() for part in names.split(","))):
            known, _, other = name.partition(" as ")
            source.names[other.strip() or known] = (module, known)


def read_definitions(path: Path) -> Source:
    """The definitions of a file of specs/. Those of a `module` take its head with them."""
    text = path.read_text()
    source = Source(path, subject_of(text))
    take_uses(source, text)
    lines = without_comments(text).splitlines()
    heads: list[tuple[int, str]] = []
    current: tuple[Item, int] | None = None
    for number, line in enumerate(lines, 1):
        if not line.strip() or re.match(r"\s*(pub )?(use|mod) ", line):
            continue
        indent = len(line) - len(line.lstrip())
        if current and indent > current[1]:
            current[0].text += line + "\n"
            current[0].last = number
            continue
        heads = [head for head in heads if head[0] < indent]
        if line.strip().startswith("module"):
            heads.append((indent, line))
            current = None
            continue
        item = item_at(source, line, number, "".join(head[1] for head in heads))
        current = (item, indent) if item else None
    return source


def item_at(source: Source, line: str, number: int, head: str) -> Item | None:
    """The item that a line begins or goes on with."""
    found = DECLARES.match(line.strip())
    name = found[2] if found else WORD.match(line.strip()) and WORD.match(line.strip())[0]
    if not name:
        return None
    item = source.items.setdefault(name, Item(name, number, number, head + "\n"))
    item.text += line + "\n"
    item.last = number
    return item


def read_code(path: Path) -> Source:
    """The types and traits of a file of src/, with what contracts see of them, and its functions' contracts."""
    text = path.read_text()
    source = Source(path, subject_of(text))
    take_uses(source, text)
    for crate, names in re.findall(r"^use (hd_\w+)::\{?([^;}]*)\}?;", text, re.M):
        source.names |= {name.strip(): (crate, name.strip()) for name in names.split(",") if name.strip()}
    lines = without_comments(text).splitlines()
    for number, line in enumerate(lines, 1):
        kind = re.match(r"\s*pub (?:struct|enum|trait|fn) (\w+)", line)
        if kind and kind[1] not in source.items:
            last = end_of_item(lines, number)
            source.items[kind[1]] = Item(kind[1], number, last, "\n".join(lines[number - 1:last]))
    for found in re.finditer(r"^impl.*?Model for (\w+).*?^}", without_comments(text), re.M | re.S):
        if found[1] in source.items:
            source.items[found[1]].text += found[0]
    return source


def end_of_item(lines: list[str], first: int) -> int:
    """The last line of a type or a trait, or of a function's contract."""
    is_function = " fn " in lines[first - 1]
    indent = re.match(r"\s*", lines[first - 1])[0]
    for number in range(first, len(lines) + 1):
        line = lines[number - 1]
        if is_function and line.rstrip() in (indent + "{", indent + "{}"):
            return number - 1
        if line.rstrip() == indent + "}" or (number == first and line.rstrip().endswith((";", "}"))):
            return number
    return len(lines)


class Tree:
    """All definitions and all code of the repository."""

    def __init__(self, root: Path) -> None:
        crates = root / "crates"
        self.definitions = {
            ".".join(path.with_suffix("").relative_to(crates).parts): read_definitions(path)
            for path in sorted(crates.glob("*/specs/**/*.antt"))
            if path.name != "Lib.antt"
        }
        self.code: dict[str, list[Source]] = {}
        for path in sorted(crates.glob("*/src/**/*.rt")):
            if "tests" not in path.relative_to(crates).parts[2:-1]:
                self.code.setdefault(path.relative_to(crates).parts[0], []).append(read_code(path))

    def find(self, module: str, name: str) -> tuple[Source, Item] | None:
        """The definition of a name of a module, or the type of the code that it is of."""
        crate, *rest = module.replace("::", ".").split(".")
        if rest[:1] != ["specs"] or rest[1:2] == ["declared"]:
            wanted = rest[-2] if rest[-1:] == ["TheVariants"] else name
            return self.find_code(crate, wanted)
        source = self.definitions.get(module)
        if source is None:
            return None
        if name in source.items:
            return source, source.items[name]
        if name in source.names:
            return self.find(*source.names[name])
        made = re.compile(rf"^\s+(?:pub )?{re.escape(name)} :", re.M)
        return next(((source, item) for item in source.items.values() if made.search(item.text)), None)

    def find_code(self, crate: str, name: str) -> tuple[Source, Item] | None:
        """A type, a trait or a function of a crate's code."""
        sources = self.code.get(crate, [])
        return next(((source, source.items[name]) for source in sources if name in source.items), None)

    def named_in(self, source: Source, item: Item) -> list[tuple[Source, Item]]:
        """The items that an item's text names."""
        found = []
        for word in sorted(set(WORD.findall(item.text))):
            first, _, rest = word.partition(".")
            if first in source.modules and rest:
                named = self.find(source.modules[first], rest.partition(".")[0])
            elif first in source.items:
                named = (source, source.items[first])
            elif first in source.names:
                named = self.find(*source.names[first])
            else:
                named = self.find_beside(source, first)
            if named:
                found.append(named)
        return found

    def find_beside(self, source: Source, name: str) -> tuple[Source, Item] | None:
        """A type that the code of the same crate brings in by a path of its own."""
        crate = source.path.relative_to(ROOT / "crates").parts[0]
        return self.find_code(crate, name) if source.path.suffix == ".rt" and name[0].isupper() else None

    def reached_from(self, roots: list[tuple[Source, Item]]) -> dict[Path, tuple[Source, dict[str, Item]]]:
        """All items that these name, and those that these name in turn, by file."""
        reached: dict[Path, tuple[Source, dict[str, Item]]] = {}
        waiting = list(roots)
        while waiting:
            source, item = waiting.pop()
            items = reached.setdefault(source.path, (source, {}))[1]
            if item.name not in items:
                items[item.name] = item
                waiting += self.named_in(source, item)
        return reached


def claims(tree: Tree, root: Path) -> list[tuple[Source, Item]]:
    """`top`, and each public function without a body that docs/PROVED.md names."""
    named = set(re.findall(r"`(\w+)`", (root / "docs" / "PROVED.md").read_text()))
    found = []
    for sources in tree.code.values():
        for source in sources:
            lines = source.path.read_text().splitlines() + [""]
            laws = {name for name, item in source.items.items() if name in named and lines[item.last] == "{}"}
            found += [(source, item) for name, item in source.items.items() if name == "top" or name in laws]
    return found


def spans(items: dict[str, Item]) -> str:
    """The items of a file in its order, each with the lines that it takes."""
    ordered = sorted(items.values(), key=lambda item: item.first)
    return ", ".join(f"`{item.name}` {item.first}" + (f"–{item.last}" if item.last > item.first else "") for item in ordered)


def page(tree: Tree, root: Path) -> str:
    """docs/BELIEVED.md."""
    roots = claims(tree, root)
    reached = tree.reached_from(roots)
    crates = re.findall(r"^(\w+)", (root / "crates.txt").read_text(), re.M)
    kinds = {".antt": "Definitions", ".rt": "Types, traits and claims of the code"}
    lines = {kind: sum(item.last - item.first + 1 for path, (_, items) in reached.items() if path.suffix == kind for item in items.values()) for kind in kinds}
    files = {kind: sum(path.suffix == kind for path in reached) for kind in kinds}
    text = INTRODUCTION.format(laws=len(roots) - 1, files=files[".antt"], lines=lines[".antt"], all=len(tree.definitions), types=lines[".rt"])
    for kind, title in kinds.items():
        text += f"\n## {title}\n\n| File | What it is about | Names, each with its lines |\n|---|---|---|\n"
        for path in sorted((path for path in reached if path.suffix == kind), key=lambda path: (crates.index(path.relative_to(root / "crates").parts[0]), path)):
            source, items = reached[path]
            text += f"| `{path.relative_to(root / 'crates')}` | {source.subject} | {spans(items)} |\n"
    return text


INTRODUCTION = """# What a reader must believe

The prover shows that the code does what its clauses say. It can't show that the clauses say what the standard means: that
is for a reader to judge. These are the definitions to read for it, as `gate/believed.py` finds them: those that the clauses
of `top` and of {laws} laws name, and what these name in turn. They are {lines} lines in {files} of {all} files of `specs/`, and
{types} lines of types and traits in the code. All else helps the prover, and nobody needs to read it. The toolchain's own
words (`Contains`, `All`, `length` ..) are not listed.
"""

if __name__ == "__main__":
    sys.stdout.write(page(Tree(ROOT), ROOT))
