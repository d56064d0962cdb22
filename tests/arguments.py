"""Tests leapsec's arguments and its help texts.

Usage: arguments.py LEAPSEC SECOND

A question as arguments has the answer of `ask`, with LF for `; `, and the second program's. A first word that is none is told all words.
"""
import itertools
import re
import subprocess
import sys

from lines import LONGEST, Lines, USAGE, expected

WORDS = b"show, nybbles, text, dtai, tai, utc, uts, unsmooth, compare, longer, ask, replay or help\n"
UNKNOWN = b"? expected: " + WORDS
NO_HELP = b"? expected: help WORD, WORD being " + WORDS
TOO_LONG = expected(b"0" * (LONGEST + 1)) + b"\n"

# the numbers of 01, and those that requests of 02 add, kept by hand beside tools/refusals.txt
NUMBERS = {
    1: "the list ends early",
    2: "a byte that is not allowed there",
    3: "a gap malformed or over 999 months",
    4: "past month 2400, January 2172",
    5: "more than 256 leaps",
    6: "something after the end",
    7: "the output is shorter than the list",
    8: "before 1972: an MJD under 41317, or a TAI under 10,000,000",
    9: "no such instant",
    10: "expired or not yet known",
    11: "the schedule is not well formed",
    16: "two lists contradict each other",
    17: "rounding the expiry down to its month leaves a gap of 0",
    20: "no line of a trace",
}
NOT_GIVEN = (7, 17)  # by the program: there is room for every answer, and every list that is read can be written
# the one schedule that is not well formed and that the program can have is the blank one, at the start of a trace
IN_HELP = NUMBERS | {11: "no list in use, in a trace"}


def printed(leapsec, *words, data=b""):
    """What leapsec prints with these arguments."""
    run = subprocess.run([leapsec, *words], input=data, capture_output=True, timeout=60)
    if (run.returncode, run.stderr) != (0, b""):
        sys.exit(f"FAILED {str(words)[:100]} as arguments: status {run.returncode}, and {run.stderr!r}")
    return run.stdout


def questions(leapsec, second, lines):
    """Question lines as arguments."""
    asked = [line for line in lines if b"\0" not in line and line.split(b" ")[0] not in (b"ask", b"replay", b"help")]
    chosen = asked[:400] + [line for line in asked if len(line) > 8000]
    unknown = 0
    for line in chosen:
        words = line.split(b" ")
        got = printed(leapsec, *words)
        if words[0] not in USAGE:
            unknown += 1
            wanted = UNKNOWN
        else:
            wanted = printed(leapsec, "ask", data=line + b"\n").replace(b"; ", b"\n")
        if got != wanted:
            sys.exit(f"FAILED {str(words)[:300]} as arguments: {got[:300]!r}, not {wanted[:300]!r}")
        if not got.startswith(b"?") and got != subprocess.run([second, *words], stdout=subprocess.PIPE).stdout:
            sys.exit(f"FAILED {str(words)[:300]} as arguments: the second program differs")
    if unknown < 5:
        sys.exit("FAILED too few unknown words")
    print(f"ok {len(chosen)} lines as arguments are answered as by ask, with LF for '; ', but for {unknown} unknown words, which are told all words")


def single(leapsec):
    """Arguments with spaces, LF or nothing in them, words that are none, and too long ones."""
    for words, wanted in [
        (["show 5?"], b"1972-01-01 1972-05-31 +10\n1972-06-01 unknown\n"),
        (["show", "5?\n"], b"!6 2\n"),
        (["show", ""], b"!1 0\n"),
        (["compare", "6+6+5?", "6+12+5?"], b"12 + 0\n18 ? +\n= 41834 42017\ncontradict\n"),
        (["compare", "6? 6+5?"], b"6 ? +\n= 41499 41652\nextends 2\n"),
        (["compare", "06+5?", "5?"], b"3\n"),
        (["compare", "5?", ""], b"1\n"),
        (["compare", "5?", "5?\n"], b"6\n"),
        (["compare", "5?"], b"? expected: compare LIST LIST\n"),
        (["longer", "6?", "6+5?"], b"6+5?\n"),
        (["longer", "11?", "6+5?"], b"!16\n"),
        (["longer", "06+5?", "5?"], b"!3\n"),
        (["longer", "5?", "5?", ""], b"? expected: longer LIST LIST\n"),
        ([""], UNKNOWN),
        (["--help"], UNKNOWN),
        (["-h"], UNKNOWN),
        (["helpp"], UNKNOWN),
        (["asks"], UNKNOWN),
        (["as", "k"], UNKNOWN),
        (["show\n"], UNKNOWN),
        (["", "show", "5?"], UNKNOWN),
        (["ask"], b""),
        (["ask", "x"], b"? expected: ask\n"),
        (["ask", ""], b"? expected: ask\n"),
        (["ask", "x" * 100_000], b"? expected: ask\n"),
        (["replay"], b""),
        (["replay", "x"], b"? expected: replay\n"),
        (["replay", ""], b"? expected: replay\n"),
        (["replay", "L 6+5?"], b"? expected: replay\n"),
        (["replay", "x" * 100_000], b"? expected: replay\n"),
        (["replay L 6+5?"], b"? expected: replay\n"),
        (["replays"], UNKNOWN),
        (["repl", "ay"], UNKNOWN),
        (["dtai", "5?", "0" * (LONGEST - 5 - len("dtai 5? ")) + "41317"], b"10\n"),
        (["dtai", "5?", "0" * (LONGEST - 4 - len("dtai 5? ")) + "41317"], TOO_LONG),
        (["show", "x" * 100_000], TOO_LONG),
        (["show", *["5?"] * 40_000], TOO_LONG),
        (["x" * 65_536, "y"], UNKNOWN),
        (["x" * 100_000, "y" * 100_000], UNKNOWN),
    ]:
        got = printed(leapsec, *words)
        if got != wanted:
            sys.exit(f"FAILED {str(words)[:100]} as arguments: {got!r}")
    print("ok arguments with spaces, LF or nothing in them, words that are none, and too long ones")


def helps(leapsec):
    """The help texts against what was expected of each word, and against 01's numbers."""
    text = printed(leapsec, "help")
    if printed(leapsec) != text or not text:
        sys.exit("FAILED without arguments leapsec does not print its help")
    words = [*USAGE, b"ask", b"replay"]
    for word in words:
        # a word that stands alone is shown what it expects by another word behind it
        usage = printed(leapsec, word, *[] if word in USAGE else ["x"]).removeprefix(b"? expected: ")
        head = b"leapsec " + usage
        if printed(leapsec, "help", word).split(b"\n")[0] + b"\n" != head:
            sys.exit(f"FAILED help {word.decode()} does not start with {head!r}")
        if not re.search(rb"^" + re.escape(head.rstrip()) + rb"  ", text, re.MULTILINE):
            sys.exit(f"FAILED help has no line for {head!r}")
    print(f"ok the help of {len(words)} words starts as what was expected of them")
    rows = itertools.takewhile(lambda row: row[:1].isdigit(), reversed(text.decode().splitlines()))
    numbers = dict(re.split(" +", row, maxsplit=1) for row in rows)
    if numbers != {str(n): meaning for n, meaning in IN_HELP.items() if n not in NOT_GIVEN}:
        sys.exit(f"FAILED the numbers in help: {numbers}")
    print(f"ok the {len(numbers)} numbers in help are those of 01 and 02")
    for words in [["foo"], [""], ["show", "x"], ["show", ""], ["", "show"], ["show\n"], ["x" * 100_000]]:
        if printed(leapsec, "help", *words) != NO_HELP:
            sys.exit(f"FAILED help with {str(words)[:100]}: {printed(leapsec, 'help', *words)!r}")
    print("ok leapsec without arguments prints its help, and help with what is no word says which there are")


def main():
    leapsec, second = sys.argv[1:3]
    questions(leapsec, second, Lines(20260701).all(2000))
    single(leapsec)
    helps(leapsec)


main()
