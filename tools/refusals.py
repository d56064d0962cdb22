#!/usr/bin/env python3
"""Draws the refusals from tools/refusals.txt into every place that names them.

tools/refusals.py          writes them
tools/refusals.py --check  says which place differs from the table, and then ends with 1

The places: crates/refusals (code and definitions), include/leap.h, rust/leap/src/refusal.rs, the help of leapsec and README.md. The second program
(rust/second) and the law that the numbers are the papers' own (crates/refusals/proofs/Numbers.antt) are kept by hand, so that they can disagree."""
import re
import sys
from pathlib import Path

root = Path(__file__).resolve().parent.parent


class Refusal:
    def __init__(self, number, name):
        self.number, self.name, self.uses = number, name, []

    def meaning(self, by=None):
        """What it means, or what it means there, if it is given there."""
        return ", or ".join(text for who, text in self.uses if by is None or who in ("both", by))

    def camel(self):
        return "".join(word.capitalize() for word in self.name.split("_"))

    def snake(self):
        return re.sub(r"_(?=\d)", "", self.name.lower())


def table():
    refusals = {}
    for line in (root / "tools/refusals.txt").read_text().splitlines():
        if line.startswith("#"):
            continue
        number, name, who, text = (part.strip() for part in line.split("|"))
        if who not in ("calls", "program", "both"):
            sys.exit(f"tools/refusals.txt: {who} is none of calls, program, both")
        refusal = refusals.setdefault(int(number), Refusal(int(number), name))
        if refusal.name != name:
            sys.exit(f"tools/refusals.txt: {number} has two names")
        refusal.uses.append((who, text))
    return [refusals[number] for number in sorted(refusals)]


def sentence(text):
    return text[0].upper() + text[1:]


def wrapped(text, width):
    lines = [""]
    for word in text.split():
        if lines[-1] and len(lines[-1]) + 1 + len(word) > width:
            lines.append("")
        lines[-1] = f"{lines[-1]} {word}".strip()
    return lines


def code(refusals):
    out = [
        "// The refusals by name, each with its number. An accepted answer carries 0.",
        "#![tactic(auto)]",
        "",
        "ghost use Rattle.std.specs.Prelude.{◌≡◌};",
        "ghost use Rattle.refusals.specs.Refusals.{number_of};",
        "",
        "// Why an answer is refused.",
        "#[derive(Clone, Copy, Debug, PartialEq, Eq)]",
        "pub enum Refusal {",
    ]
    for r in refusals:
        out += [f"    // {sentence(r.meaning())}.", f"    {r.camel()} = {r.number},"] + ([""] if r is not refusals[-1] else [])
    out += [
        "}",
        "",
        "impl Refusal {",
        "    // Its number in the paper.",
        "    pub fn number(self) -> u8",
        "        ensures { result ≡ number_of self }",
        "    {",
        "        self as u8",
        "    }",
        "}",
    ]
    return "\n".join(out) + "\n"


def definitions(refusals):
    names = ", ".join(r.camel() for r in refusals)
    out = [
        "-- The numbers of the refusals by name, 01's and those that the change requests add. An accepted answer carries 0.",
        "-- Assumes nothing: these are definitions.",
        "use Rattle.std.specs.Prelude.{ℕ}",
        "use Rattle.refusals.specs.declared.Refusal.{Refusal}",
        f"use Rattle.refusals.specs.declared.Refusal.TheVariants.{{{names}}}",
    ]
    for r in refusals:
        out += ["", f"-- {r.number}: {r.meaning()}", f"abbrev pub {r.snake()} : ℕ", f"{r.snake()} = {r.number}"]
    out += ["", "-- the number of a refusal", "abbrev pub number_of : Refusal → ℕ"]
    out += [f"number_of {r.camel()} = {r.snake()}" for r in refusals]
    return "\n".join(out) + "\n"


def header(refusals):
    width = max(len(f"LEAP_{r.name} = {r.number},") for r in refusals)
    out = [f"    {'LEAP_OK = 0,':{width}} /* an answer */"]
    for r in refusals:
        lines = wrapped(r.meaning("calls") or r.meaning() + " (printed, returned by no call)", 45)
        entry = f"LEAP_{r.name} = {r.number}" + ("," if r is not refusals[-1] else "")
        out.append(f"    {entry:{width}} /* " + f"\n    {'':{width}}    ".join(lines) + " */")
    return "\n".join(out) + "\n"


def variants(refusals):
    out = []
    for r in refusals:
        text = r.meaning("calls") or r.meaning() + "; it is printed, and returned by no call"
        for line in wrapped(sentence(text) + ".", 70):
            out.append(f"    /// {line}")
        out.append(f"    {r.camel()} = {r.number},")
    return "\n".join(out) + "\n"


def all_variants(refusals):
    return (
        f"    pub const ALL: [Refusal; {len(refusals)}] = [\n"
        + "".join(f"        {r.camel()},\n" for r in refusals)
        + "    ];\n"
    )


def displayed(refusals):
    lines = []
    for r in refusals:
        text = r.meaning("calls") or r.meaning()
        arm = f'            {r.camel()} => "{text}",\n'
        if len(arm) > 101:
            arm = f'            {r.camel()} => {{\n                "{text}"\n            }}\n'
        lines.append(arm)
    return "".join(lines)


def helped(refusals):
    out = []
    for r in refusals:
        if r.meaning("program"):
            out.append(f"{r.number:<3} {r.meaning('program')}\\n\\\n")
    # the last line ends the text
    out[-1] = out[-1].removesuffix("\\\n") + '";\n'
    return "".join(out)


def listed(refusals):
    out = ["| number | refused because |\n", "|---|---|\n"]
    out += [f"| {r.number} | {r.meaning()} |\n" for r in refusals]
    return "".join(out)


def between(file, start, end, text):
    """The file with what stands between two of its lines drawn anew."""
    whole = (root / file).read_text()
    parts = re.split(f"(^{re.escape(start)}\n)", whole, maxsplit=1, flags=re.M)
    if len(parts) != 3:
        sys.exit(f"{file} has no line {start!r}")
    rest = re.split(f"(^{re.escape(end)}\n)", parts[2], maxsplit=1, flags=re.M)
    if len(rest) != 3:
        sys.exit(f"{file} has no line {end!r} after {start!r}")
    return file, parts[0] + parts[1] + text + rest[1] + rest[2]


def drawn(refusals):
    yield "crates/refusals/src/lib.rt", code(refusals)
    yield "crates/refusals/specs/Refusals.antt", definitions(refusals)
    yield between("include/leap.h", "enum { /* the refusals */", "};", header(refusals))
    rust = "rust/leap/src/refusal.rs"
    yield between(rust, "pub enum Refusal {", "}", variants(refusals))
    yield between(rust, "    /// All of them, by number.", "", all_variants(refusals))
    yield between(rust, "        f.write_str(match self {", "        })", displayed(refusals))
    yield between("crates/shell/src/help.rt", "The numbers:\\n\\", "", helped(refusals))
    yield between("README.md", "<!-- the refusals, drawn by tools/refusals.py -->", "<!-- end -->", listed(refusals))


def main():
    if sys.argv[1:] not in ([], ["--check"]):
        sys.exit(__doc__)
    check = sys.argv[1:] == ["--check"]
    differs = []
    for file, text in drawn(table()):
        if (root / file).read_text() != text:
            differs.append(file)
            if not check:
                (root / file).write_text(text)
    for file in dict.fromkeys(differs):
        print(f"{file}: {'differs from tools/refusals.txt' if check else 'drawn'}")
    if check and differs:
        sys.exit(1)


main()
