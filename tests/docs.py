"""Runs the commands of the documents and compares what they print, and follows their links within the repository.

A block that starts with ```console holds commands, each behind `$ `, and after each what it prints. A command must end with status 0 and write
nothing to standard error. Usage: docs.py FILE..
"""
import pathlib
import re
import subprocess
import sys


def blocks(path):
    """The commands of a document with their line numbers and expected lines."""
    inside, command, expected, start = False, None, [], 0
    for number, row in enumerate(open(path, encoding="utf-8").read().split("\n"), 1):
        if row == "```console":
            inside = True
        elif inside and (row == "```" or row.startswith("$ ")):
            if command is not None:
                yield start, command, expected
            command, expected, start = None, [], number
            if row == "```":
                inside = False
            else:
                command = row[2:]
        elif inside:
            expected.append(row)


def anchors(path):
    """The names by which a document's headings are linked to."""
    headings = re.findall(r"^#+ (.*)$", path.read_text(encoding="utf-8"), re.MULTILINE)
    return {re.sub(r"[^\w\- ]", "", heading.lower()).replace(" ", "-") for heading in headings}


def links(path):
    """The number of a document's links, each of which must lead to a file, and to a heading if it names one."""
    targets = re.findall(r"\]\(([^)]+)\)", path.read_text(encoding="utf-8"))
    for target in targets:
        name, _, anchor = target.partition("#")
        file = path.parent / name if name else path
        if not file.exists() or (anchor and anchor not in anchors(file)):
            sys.exit(f"{path}: the link {target} leads nowhere")
    return len(targets)


def commands(path):
    """Runs the commands of a document."""
    for number, command, expected in blocks(path):
        run = subprocess.run(["bash", "-o", "pipefail", "-c", command], stdin=subprocess.DEVNULL, capture_output=True, text=True)
        printed = run.stdout.rstrip("\n").split("\n") if run.stdout else []
        if printed != expected:
            sys.exit(f"{path}:{number}: {command}\n expected {expected}\n printed  {printed}\n{run.stderr}")
        if run.stderr or run.returncode != 0:
            sys.exit(f"{path}:{number}: {command}\n ends with status {run.returncode}, and writes to standard error: {run.stderr}")
        yield f"ok {path}:{number} prints what it shows"


def main():
    for path in map(pathlib.Path, sys.argv[1:]):
        said = list(commands(path))
        if not said:
            sys.exit(f"{path} has no command to run")
        print(*said, sep="\n")
        count = links(path)
        if count:
            print(f"ok {path}: its {count} links lead somewhere")


main()
