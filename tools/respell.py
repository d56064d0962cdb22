#!/usr/bin/env python3
"""Gives the definitions and lemmas of crates/ the spelling of today's Rattle: words in snake case, where they had capitals or dashes.

Run once at the top of the repository, after the kit's port.py. Types, records and modules keep their capitals, and names of src/, strings,
inputs and outputs stay. A name is renamed in every file of specs/ and proofs/, in the clauses and `ghost use` items of src/, and in code spans of pages.
A lemma whose new name a definition has gets `_lem`. Two names of one file that would become one are printed.
"""

import glob
import os
import re
import subprocess
import sys

TOKEN = re.compile(r"[^\s(){}.;,@\"«»]+")
# the five questions' constructors have the names of definitions; and names that would fall together
BY_HAND = {
    "DTAI": "ask_dtai",
    "UTC-to-TAI": "ask_utc_to_tai",
    "TAI-to-UTC": "ask_tai_to_utc",
    "UTC-to-UTS": "ask_utc_to_uts",
    "UTS-to-UTC": "ask_uts_to_utc",
    "gapFits": "gap_fits",
    "gap-fits": "gap_is_within",
}
DECLARED = re.compile(
    r"^(\s*)((?:(?:abbrev|unfoldable|pub|data|record|ruleset)\s+)*)([^\s(){}.;,@\"«»]+)\s+(?:\{[^}]*\}\s*|\([^)]*\)\s*)*[:=]"
)


def snake(name):
    name = re.sub(r"(?<=[a-z0-9])([A-Z]+)(?=[^A-Za-z]|$)", lambda m: "_" + m.group(1).lower(), name)
    name = re.sub(r"(?<=[a-z0-9])([A-Z])(?=[a-z])", lambda m: "_" + m.group(1).lower(), name)
    return name.replace("-", "_")


def code_lines(text):
    return [line.split(" --")[0] if not line.lstrip().startswith("--") else "" for line in text.split("\n")]


def main():
    root = os.getcwd()
    antt = sorted(glob.glob(f"{root}/crates/*/specs/**/*.antt", recursive=True) + glob.glob(f"{root}/crates/*/proofs/**/*.antt", recursive=True))
    antt = [f for f in antt if "/out/" not in f]
    texts = {f: open(f).read() for f in antt}
    declared = {}  # name -> is it a definition (of specs/, or an abbrev)
    outside = {}  # file -> names that it takes from the kit
    everywhere_outside = set()
    for f, text in texts.items():
        outside[f] = set()
        for line in code_lines(text):
            if line.startswith("use "):
                if not line.startswith("use Rattle.") or line.startswith("use Rattle.std."):
                    m = re.search(r"\{(.*)\}", line)
                    if m:
                        outside[f] |= {w.split(" as ")[-1].strip() for w in m.group(1).split(",")}
                        everywhere_outside |= outside[f]
                continue
            if f.endswith("/Proof.antt") and not line.startswith(" "):
                continue
            m = DECLARED.match(line)
            if m and "=" not in line[m.start(3) : m.start(3) + len(m.group(3))]:
                name = m.group(3)
                if line[m.end() - 1] == "=" and not (m.group(1) == "" and "record" in m.group(2)):
                    continue
                is_definition = "/specs/" in f or any(w in m.group(2) for w in ("abbrev", "unfoldable", "data"))
                declared[name] = declared.get(name, False) or is_definition
    rename = {}
    for name in declared:
        if name in BY_HAND:
            rename[name] = BY_HAND[name]
            continue
        if not re.match(r"[a-z]", name) or name in everywhere_outside:
            continue
        if "-" in name or re.search(r"[a-z0-9][A-Z]", name):
            rename[name] = snake(name)
    # a lemma gives way to a definition, and both to a name of the kit's
    wanted = {rename[n] for n in rename if declared[n]}
    for name in declared:
        if name not in rename and not declared[name] and name in wanted:
            rename[name] = name
    taken = {n for n in declared if n not in rename} | everywhere_outside
    for name in sorted(rename, key=lambda n: (not declared[n], n)):
        new = rename[name]
        while new in taken:
            new += "_lem" if not new.endswith("_lem") else "_2"
        rename[name] = new
        taken.add(new)

    def respelled(text, skip):
        def code(part):
            return TOKEN.sub(lambda m: m.group(0) if m.group(0) in skip else rename.get(m.group(0), m.group(0)), part)

        lines = []
        for line in text.split("\n"):
            # a comment turns in its code spans alone, and a string stays
            at = 0 if line.lstrip().startswith("--") else line.find(" -- ")
            body, comment = (line, "") if at < 0 else (line[:at], line[at:])
            parts = body.split('"')
            parts[::2] = [code(p) for p in parts[::2]]
            lines.append('"'.join(parts) + re.sub(r"`[^`]*`", lambda m: respelled_span(m.group(0), rename), comment))
        return "\n".join(lines)

    together = []
    for f, text in texts.items():
        code = "\n".join(code_lines(text))
        seen = {}
        for word in set(TOKEN.findall(code)):
            new = word if word in outside[f] else rename.get(word, word)
            if new in seen and seen[new] != word:
                together.append(f"{f}: {seen[new]} and {word} both become {new}")
            seen[new] = word
        for word in sorted(set(re.findall(r"\blet ([a-z_0-9]+) =", code))):
            if any(word != old and rename.get(old) == word for old in set(TOKEN.findall(code))):
                # a local name that would hide a definition
                text = re.sub(rf"(?<![\w.-]){word}(?![\w-])(?!\.(?:Tie|Statement|Reads|Lts|Given|Goals))", word + "_call", text)
        open(f, "w").write(respelled(text, outside[f]))
    # src/: clauses and ghost items
    clause = re.compile(r"(?:requires|ensures)\s*\*?\s*(?:\w+\s*)?\{|ghost\s+use\b[^;]*;|ghost\s+\w+\s*:\s*\{", re.S)
    for f in sorted(glob.glob(f"{root}/crates/*/src/**/*.rt", recursive=True)):
        text = open(f).read()
        plain = set(re.findall(r"\b(?:let(?: mut)?|\(|,|for)\s*\(?(\w+)\s*:", re.sub(r"//.*", "", text)))
        out, at = [], 0
        for m in clause.finditer(text):
            if m.start() < at:
                continue
            end = m.end()
            if text[m.end() - 1] == "{":
                depth = 1
                while depth:
                    depth += {"{": 1, "}": -1}.get(text[end], 0)
                    end += 1
            body = text[m.start() : end]
            for word in set(TOKEN.findall(body)):
                if word in rename and rename[word] in plain:
                    together.append(f"{f}: {word} becomes {rename[word]}, a variable of the code")
            out += [text[at : m.start()], respelled(body, set())]
            at = end
        out.append(text[at:])
        new = "".join(out)
        # code spans of comments
        new = re.sub(r"//[^\n]*", lambda m: re.sub(r"`[^`]*`", lambda s: respelled_span(s.group(0), rename), m.group(0)), new)
        open(f, "w").write(new)
    for f in glob.glob(f"{root}/*.md") + glob.glob(f"{root}/docs/*.md"):
        text = open(f).read()
        open(f, "w").write(re.sub(r"`[^`\n]*`", lambda s: respelled_span(s.group(0), rename), text))
    print(len(rename), "names")
    for line in sorted(together):
        print(line)
    with open(f"{root}/target-respelled.txt" if len(sys.argv) < 2 else sys.argv[1], "w") as out:
        for old in sorted(rename):
            out.write(f"{old}\t{rename[old]}\n")


def respelled_span(span, rename):
    return "`" + re.sub(r"[^\s(){}.;,@\"«»`]+", lambda m: m.group(0) if m.group(0) in BY_HAND else rename.get(m.group(0), m.group(0)), span[1:-1]) + "`"


main()
