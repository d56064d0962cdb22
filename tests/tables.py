"""Follows the tables of documents: every file that a row names is there, and so is every wrong program; and each definition or theorem of a row
occurs in one of its files, and each of its files has one of them.

A file that is named without its folder stands in that of the one before it. A contract may also use definitions of other crates, such as `Puts`.
A wrong program `text/gap_of_1000` is crates/text/must-fail/gap_of_1000.edit. Usage: tables.py FILE..
"""
import pathlib
import re
import sys

FILES = ("where", "its file", "file")
NAMES = ("the definition", "theorem")
CONTRACTS = ("its contract is an equation with",)
WRONG = ("rules out", "wrong programs that the contract rules out")
DRAWN = ("refused because",)  # the table of the refusals, which tools/refusals.py --check holds to its source


def rows(path):
    """The rows of a document's tables: the line's number, and the cells by their heads."""
    heads = None
    for number, line in enumerate(path.read_text(encoding="utf-8").split("\n"), 1):
        if not line.startswith("|"):
            heads = None
            continue
        cells = [cell.strip() for cell in line.strip().strip("|").split("|")]
        if heads is None:
            heads = cells
        elif not re.fullmatch(r"[|\-: ]+", line):
            if len(cells) != len(heads):
                sys.exit(f"{path}:{number} has {len(cells)} cells below {len(heads)} heads")
            yield number, dict(zip(heads, cells))


def cell(row, heads):
    """The cell of a row below one of some heads, if it has one."""
    return next((row[head] for head in heads if head in row), None)


def files(where, words):
    """The files and folders that a cell names."""
    found = []
    for name in words.split(", "):
        path = pathlib.Path(name)
        if "/" not in name and found:
            path = found[-1].parent / name
        if not path.exists():
            sys.exit(f"{where}: there is no {path}")
        found.append(path)
    return found


def has(path, name):
    """Whether a name occurs in a file, or in one of a folder."""
    parts = path.rglob("*") if path.is_dir() else [path]
    word = re.compile(rf"(?<![\w-]){re.escape(name)}(?![\w-])")
    return any(word.search(part.read_text(encoding="utf-8")) for part in parts if part.is_file())


def names(where, words, paths, others=()):
    """The number of names in a cell, each of which must occur in one of the files, or in others; and each file must have one."""
    found = re.findall(r"`([^`]+)`", words)
    holds = {path: [name for name in found if has(path, name)] for path in paths}
    for name in found:
        if not any(name in held for held in holds.values()) and not any(has(other, name) for other in others):
            sys.exit(f"{where}: {name} does not occur in {', '.join(map(str, paths))}")
    for path, held in holds.items():
        if found and not held:
            sys.exit(f"{where}: {path} has none of {', '.join(found)}")
    return len(found)


def wrong_programs(where, words):
    """The number of wrong programs in a cell that are files."""
    found = re.findall(r"`(\w+)/(\w+)`", words)
    for crate, label in found:
        if not pathlib.Path("crates", crate, "must-fail", label + ".edit").is_file():
            sys.exit(f"{where}: there is no wrong program {crate}/{label}")
    return len(found)


def main():
    specs = list(pathlib.Path("crates").glob("*/specs"))
    for path in map(pathlib.Path, sys.argv[1:]):
        counts = [0, 0, 0]
        for number, row in rows(path):
            where, named = f"{path}:{number}", cell(row, FILES)
            if cell(row, DRAWN) is not None:
                continue
            if named is None:
                sys.exit(f"{where}: a table that names no files, by its head")
            paths = files(where, named)
            counts[0] += len(paths)
            counts[1] += names(where, cell(row, NAMES) or "", paths) + names(where, cell(row, CONTRACTS) or "", paths, specs)
            counts[2] += wrong_programs(where, cell(row, WRONG) or "")
        if not counts[0]:
            sys.exit(f"{path} has no table")
        print(f"ok {path}: its tables name {counts[0]} files, {counts[1]} definitions and theorems in them, {counts[2]} wrong programs")


main()
