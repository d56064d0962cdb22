"""Compares the proved program `leapsec ask` with the second program, line by line, and tests its reading and writing.

Usage: ask.py LEAPSEC SECOND [COUNT SEED]

An answer or a refusal to a line of tests/lines.py must be equal in both programs. What is no question in one must be none in the other; what
leapsec then expects must be how the line's word goes.
"""
import collections
import re
import select
import subprocess
import sys

from lines import CURRENT, LONGEST, Lines, WORDS, expected
from streams import in_pieces, read_failures, write_failures


def answers(program, data):
    """What a program answers to lines: the bytes of each answer line."""
    out = subprocess.run([program, "ask"], input=data, stdout=subprocess.PIPE, check=True).stdout
    if out and not out.endswith(b"\n"):
        sys.exit(f"FAILED {program} ask: its last answer has no LF")
    return out.split(b"\n")[:-1]


def differ(line, first, second):
    """Whether two answers to a line are not both right."""
    if first.startswith(b"?") or second.startswith(b"?"):
        return not second.startswith(b"?") or first != expected(line)
    return first != second


def refusal(line, answer):
    """The number of an answer that is a refusal: behind `!`, and alone of a comparison."""
    if answer.startswith(b"!"):
        return int(answer[1:].split()[0])
    if line.startswith(b"compare ") and re.fullmatch(rb"\d+", answer):
        return int(answer)
    return None


def kind(line, answer):
    if answer.startswith(b"?"):
        return "no questions"
    return "answers" if refusal(line, answer) is None else "refusals"


def compare(lines, leapsec, second):
    """Compares the two programs on lines, and returns leapsec's answers."""
    data = b"".join(line + b"\n" for line in lines)
    first, other = answers(leapsec, data), answers(second, data)
    if not len(lines) == len(first) == len(other):
        sys.exit(f"FAILED {len(lines)} lines got {len(first)} answers from leapsec and {len(other)} from the second program")
    for number, (line, a, b) in enumerate(zip(lines, first, other), 1):
        if differ(line, a, b):
            sys.exit(f"FAILED line {number}, {line[:300]!r}: leapsec {a[:300]!r}, the second program {b[:300]!r}")
    return first


def offsets(lines, found):
    """How often DTAI is zero or below in the answers, and to one in how many lines at least that must happen."""
    dtai = [answer for line, answer in zip(lines, found) if line.startswith(b"dtai ")]
    show = [answer for line, answer in zip(lines, found) if line.startswith(b"show ")]
    return {
        "dtai below zero": (sum(answer.startswith(b"-") for answer in dtai), 200),
        "dtai of zero": (sum(answer == b"0" for answer in dtai), 2000),
        "show with DTAI below zero": (sum(re.search(rb" -[1-9]", answer) is not None for answer in show), 100),
        "show with +0": (sum(b" +0;" in answer for answer in show), 100),
    }


def of_two(lines, found):
    """How often two lists are told apart in each way, and to one in how many lines at least that must happen."""
    compared = [answer for line, answer in zip(lines, found) if line.startswith(b"compare ")]
    last = collections.Counter(answer.split(b"; ")[-1].decode() for answer in compared)
    handed = collections.Counter()
    for line, answer in zip(lines, found):
        word, *lists = line.split(b" ")
        if word == b"longer" and kind(line, answer) == "answers":
            first, second = [CURRENT if field == b"current" else field for field in lists]
            handed["a list given twice" if first == second else "the first" if answer == first else "the second"] += 1
            handed["current"] += answer == CURRENT
    return {
        **{f"compare that ends {line}": (last[line], 100) for line in ("same", "extends 1", "extends 2", "contradict")},
        **{f"compare refused with {n}": (last[str(n)], 5000) for n in range(1, 7)},
        **{f"longer that gives {which}": (handed[which], 500) for which in ("a list given twice", "the first", "the second", "current")},
    }


def enough(lines, found):
    """Each kind of answer, word and refusal must be there often, and DTAI of zero and below."""
    kinds = collections.Counter(kind(line, answer) for line, answer in zip(lines, found))
    by_word = collections.Counter((line.split(b" ")[0], kind(line, answer)) for line, answer in zip(lines, found))
    refusals = collections.Counter(refusal(line, answer) for line, answer in zip(lines, found))
    del refusals[None]
    names = ("answers", "refusals", "no questions")
    sizes, odd = (LONGEST - 1, LONGEST, LONGEST + 1, 100_000), (b"\0", b"\r", b"\xff")
    few = [name for name in names if kinds[name] < len(lines) // 12]
    few += [f"{name} of {word.decode()}" for word in WORDS for name in names if by_word[word, name] < len(lines) // 400]
    few += [f"refusals {n}" for n in (1, 2, 3, 4, 5, 6, 8, 9, 10, 16) if refusals[n] < len(lines) // 2000]
    few += [f"lines of {size} bytes" for size in sizes if sum(len(line) == size for line in lines) < 2]
    few += [f"lines with {byte}" for byte in odd if sum(byte in line for line in lines) < 20]
    signs, two = offsets(lines, found), of_two(lines, found)
    few += [name for name, (times, one_in) in (signs | two).items() if times < len(lines) // one_in]
    if few:
        sys.exit("FAILED too few " + ", ".join(few))
    print(f"ok {len(lines)} lines agree: {kinds['answers']} answers, {kinds['refusals']} refusals, {kinds['no questions']} no questions")
    told = ", ".join(f"{n}: {refusals[n]}" for n in sorted(refusals))
    print(f"ok every word is answered, refused and no question often; refusals by number {told}")
    print("ok DTAI falls to zero and below: " + ", ".join(f"{name}: {times}" for name, (times, _) in signs.items()))
    print("ok two lists are told apart in every way: " + ", ".join(f"{name}: {times}" for name, (times, _) in two.items()))


def ends(leapsec):
    """The end of the input."""
    for data, wanted in [
        (b"", []),
        (b"\n", [expected(b"")]),
        (b"\n\n", [expected(b"")] * 2),
        (b"dtai 5? 41317", [b"10"]),
        (b"text f4\nshow ", [b"5?", b"!1 0"]),
        (b"show 5?", [b"1972-01-01 1972-05-31 +10; 1972-06-01 unknown"]),
    ]:
        if answers(leapsec, data) != wanted:
            sys.exit(f"FAILED {data!r} is answered {answers(leapsec, data)!r}")
    print("ok an empty input, empty lines, and a last line without LF")


def two_lists(leapsec):
    """The answers about two lists, as requests 7/14 and 10/14 give them and as they are worked by hand from these.

    Months 6, 11, 17 and 23 start on MJD 41499, 41652, 41834 and 42017: 182, 366 - 31, 366 + 151 and 366 + 334 days from MJD 41317 on.
    """
    questions = {
        b"compare 6+6+5? 6+12+5?": b"12 + 0; 18 ? +; = 41834 42017; contradict",
        b"compare 6? 6+5?": b"6 ? +; = 41499 41652; extends 2",
        b"compare 6+5? 6?": b"6 + ?; = 41652 41499; extends 1",
        b"compare 999+999+401? 999+999+402?": b"= 114335 114366; extends 2",
        b"compare 11? 6+5?": b"6 0 +; contradict",
        b"compare 6+5? 6-5?": b"6 + -; contradict",
        b"compare 6+5? 6+5?": b"same",
        b"compare current current": b"same",
        b"compare current " + CURRENT: b"same",
        b"compare 06+5? 5?": b"3",
        b"compare 5? 1000?": b"3",
        b"compare x 06+5?": b"2",
        b"compare 5? ": b"1",
        b"compare  5?": b"1",
        b"compare  ": b"1",
        b"longer 6? 6+5?": b"6+5?",
        b"longer 6+5? 6?": b"6+5?",
        b"longer 6+5? 6+5?": b"6+5?",
        b"longer current 6+5?": CURRENT,
        b"longer 6+5? current": CURRENT,
        b"longer current current": CURRENT,
        b"longer 6+6+5? 6+12+5?": b"!16",
        b"longer 6-5? current": b"!16",
        b"longer 06+5? 5?": b"!3",
        b"longer 5? 06+5?": b"!3",
        b"longer 5? ": b"!1",
        b"longer  ": b"!1",
    }
    for line in (b"compare", b"compare ", b"compare 5?", b"compare 5? 5? ", b"compare 5?  5?", b"longer 5?", b"longer 5? 5? 5?"):
        questions[line] = expected(line)
    for line, wanted in questions.items():
        if answers(leapsec, line + b"\n") != [wanted]:
            sys.exit(f"FAILED {line!r} is answered {answers(leapsec, line)!r}, not {wanted!r}")
    print(f"ok {len(questions)} lines about two lists are answered as worked by hand")


def long_lines(leapsec):
    """Lines around the longest that is a question, and around the size of the program's buffer."""
    for size in (LONGEST - 1, LONGEST, LONGEST + 1, LONGEST + 2, 65_535, 65_536, 65_537, 73_728, 1_000_000):
        line = b"dtai 5? " + b"41317".rjust(size - 8, b"0")
        answer = b"10" if size <= LONGEST else expected(line)
        for data, wanted in [
            (line, [answer]),
            (line + b"\n", [answer]),
            (b"text f4\n" + line + b"\ntext 0f\n", [b"5?", answer, b"6+5?"]),
        ]:
            if answers(leapsec, data) != wanted:
                sys.exit(f"FAILED a line of {size} bytes is answered {answers(leapsec, data)!r}")
    print("ok lines of up to a million bytes, alone and between others, with LF and without")


def pieces(leapsec, lines, found):
    """The input may come in pieces of any size."""
    data = b"".join(line + b"\n" for line in lines)
    for size in (1, 7, 8192, 65_536):
        part = data[: 2000 * size if size < 100 else len(data)]
        part = part[: part.rfind(b"\n") + 1]
        got = in_pieces([leapsec, "ask"], part, size).split(b"\n")[:-1]
        if not got or got != found[: part.count(b"\n")]:
            sys.exit(f"FAILED the answers to pieces of {size} bytes differ")
    print("ok the same answers where the input comes in pieces of 1, 7, 8192 and 65536 bytes")


def waits(leapsec):
    """One who asks and waits is answered before the next question, however often."""
    days = [(57753, b"36\n"), (57754, b"37\n"), (41316, b"!8\n")]
    with subprocess.Popen([leapsec, "ask"], stdin=subprocess.PIPE, stdout=subprocess.PIPE, bufsize=0) as run:
        for day, wanted in days * 6667:
            run.stdin.write(b"dtai current %d\n" % day)
            if not select.select([run.stdout], [], [], 10)[0] or run.stdout.read(100) != wanted:
                sys.exit("FAILED a question is not answered before the next")
        run.stdin.close()
    print(f"ok a question is answered before the next is asked, {6667 * len(days)} times in one run")


def main():
    leapsec, second = sys.argv[1:3]
    count, seed = [int(n) for n in sys.argv[3:5]] or [100_000, 20260701]
    lines = Lines(seed).all(count)
    found = compare(lines, leapsec, second)
    enough(lines, found)
    two_lists(leapsec)
    ends(leapsec)
    long_lines(leapsec)
    pieces(leapsec, lines, found)
    waits(leapsec)
    write_failures([leapsec, "ask"], b"show current\n" * 100_000)
    read_failures([leapsec, "ask"], b"text f4\ndtai 5? 41317", b"5?\n")


main()
