"""Draws the pictures of docs/ from answers of `leapsec ask`. Standard library only.

    python3 tools/pictures.py            writes docs/smoothing.svg and docs/knowledge.svg
    python3 tools/pictures.py --check    writes nothing, and says of each whether it is as drawn

smoothing.svg: UTS minus UTC over the last 1,100 seconds of a day with an inserted and of a day with a deleted second.
knowledge.svg: what a list knows: its days, and its last day, which it knows in part.
"""
import datetime
import pathlib
import subprocess
import sys

ROOT = pathlib.Path(__file__).resolve().parent.parent
BLUE, PALE, GREY, RED, INK = "#0a5fb4", "#a9cdee", "#e4e4e4", "#b3261e", "#222222"


def ask(lines):
    """The answers to question lines."""
    data = "".join(line + "\n" for line in lines)
    run = subprocess.run([ROOT / "leapsec", "ask"], input=data, capture_output=True, text=True, check=True)
    answers = run.stdout.splitlines()
    assert len(answers) == len(lines), "an answer a line"
    return answers


def clock(second):
    """A second of the day as a clock shows it."""
    return f"{second // 3600:02d}:{second // 60 % 60:02d}:{second % 60:02d}"


def label(x, y, words, anchor="middle", colour=INK):
    return f'<text x="{x:.1f}" y="{y:.1f}" text-anchor="{anchor}" fill="{colour}">{words}</text>'


def line(x1, y1, x2, y2, colour="#999999", dash=""):
    dashes = f' stroke-dasharray="{dash}"' if dash else ""
    return f'<line x1="{x1:.1f}" y1="{y1:.1f}" x2="{x2:.1f}" y2="{y2:.1f}" stroke="{colour}"{dashes}/>'


def box(x1, x2, y, height, fill, stroke="#777777"):
    return f'<rect x="{x1:.1f}" y="{y:.1f}" width="{x2 - x1:.1f}" height="{height}" fill="{fill}" stroke="{stroke}"/>'


def picture(width, height, title, parts):
    size = f'width="{width}" height="{height}" viewBox="0 0 {width} {height}"'
    top = [f'<svg xmlns="http://www.w3.org/2000/svg" {size} font-family="sans-serif" font-size="13">', f"<title>{title}</title>"]
    top += [f'<rect width="{width}" height="{height}" fill="white"/>', label(width / 2, 24, title)]
    return "\n".join(top + parts + ["</svg>", ""])


def panel(top, name, list_, sign, length):
    """UTS minus UTC, second by second, on 30 June 1972 under a list with a leap at its end."""
    left, wide, high, first = 90, 560, 120, length - 1100
    seconds = range(first, length)
    answers = ask([f"uts {list_} 41498 {second * 10**6}" for second in seconds])
    offsets = [(int(answer) - second * 10**9) / 10**9 for second, answer in zip(seconds, answers)]
    zero = top + (0 if sign < 0 else high)

    def across(second):
        return left + (second - first) * wide / 1100

    def down(offset):
        return zero - offset * high

    parts = [line(left, down(n), left + wide, down(n), dash="" if n == 0 else "4 4") for n in (0, sign)]
    parts += [label(left - 8, down(n) + 4, f"{n:+d} s" if n else "0", "end") for n in (0, sign)]
    start = next(second for second, offset in zip(seconds, offsets) if offset != 0) - 1
    assert length - start == 1000, "the last 1,000 seconds"
    parts += [label(left + wide / 2, top - 16, f"{name} second (list {list_}): smoothing takes the last 1,000 seconds, from {clock(start)}")]
    for second, words, shift in [(first, clock(first), -20), (start, clock(start), 10), (length, "00:00:00", 0)]:
        parts += [line(across(second), top, across(second), top + high, RED, "2 3")]
        parts += [label(across(second) + shift, top + high + 18, words, colour=RED)]
    points = " ".join(f"{across(second):.1f},{down(offset):.2f}" for second, offset in zip(seconds, offsets))
    parts += [f'<polyline points="{points}" fill="none" stroke="{BLUE}" stroke-width="2"/>']
    return parts + marked(list_, across, down)


def marked(list_, across, down):
    """The inserted second itself, from its first microsecond to its last, or that one is left out."""
    first, last = ask([f"uts {list_} 41498 {micros}" for micros in (86400 * 10**6, 86401 * 10**6 - 1)])
    if first == "!9":
        return [label(across(86399) - 8, down(0) - 8, "the second 23:59:59 is left out", "end")]
    x, y = across(86400.5), down((int(first) + int(last)) / 2 / 10**9 - 86400.5)
    parts = [line(x - 40, y - 74, x, y, RED), f'<circle cx="{x:.1f}" cy="{y:.1f}" r="4" fill="{RED}"/>']
    return parts + [label(x - 10, y - 80, "23:59:60, the inserted second", "end", RED)]


def smoothing():
    parts = panel(70, "an inserted", "6+5?", -1, 86401) + panel(268, "a deleted", "6-5?", 1, 86399)
    return picture(700, 424, "UTS minus UTC over the last 1,100 seconds of a day (clock times are UTC)", parts)


def cut_off(word, mjd, seconds):
    """The second of a day from which on a question is refused: the microsecond before it is still answered."""
    before = ask([f"{word} 6+5? {mjd} {second * 10**6 - 1}" for second in seconds])
    at = ask([f"{word} 6+5? {mjd} {second * 10**6}" for second in seconds])
    found = [second for second, a, b in zip(seconds, before, at) if not a.startswith("!") and b == "!10"]
    assert len(found) == 1, "answers end once"
    return found[0]


def days(stretches, left, wide):
    """The days that a list knows, on a time line, and the day from which on it knows nothing."""
    start, until = datetime.date(1972, 1, 1), datetime.date(1973, 3, 1)

    def across(day):
        return left + (datetime.date.fromisoformat(day) - start).days * wide / (until - start).days

    unknown = stretches[-1][0]
    parts = []
    for first, last, dtai in stretches[:-1]:
        end = (datetime.date.fromisoformat(last) + datetime.timedelta(1)).isoformat()
        parts += [box(across(first), across(end), 60, 32, PALE), label((across(first) + across(end)) / 2, 81, f"DTAI {dtai}")]
        parts += [label(across(first), 52, first)]
    parts += [box(across(unknown), left + wide, 60, 32, GREY), label((across(unknown) + left + wide) / 2, 81, "unknown")]
    last = stretches[-2][1]
    parts += [box(across(last), across(unknown), 60, 32, RED, RED), label(across(unknown), 52, unknown)]
    return parts, across(last), across(unknown)


def last_day(mjd, left, wide):
    """How far a list knows its last day."""
    first, last = 84900, 86401
    tai, uts = (cut_off(word, mjd, range(first, last)) for word in ("tai", "uts"))
    assert [answer.startswith("!") for answer in ask([f"dtai 6+5? {mjd}", f"dtai 6+5? {mjd + 1}"])] == [False, True]

    def across(second):
        return left + (second - first) * wide / (last - first)

    parts = []
    rows = [("DTAI", last, "known: the whole date, however long"), ("TAI", tai, f"known to {clock(tai)}"), ("UTS", uts, f"known to {clock(uts)}")]
    for row, (name, until, words) in enumerate(rows):
        y = 164 + row * 38
        parts += [label(left - 10, y + 18, name, "end"), box(left, across(until), y, 26, PALE)]
        if until < last:
            parts += [box(across(until), left + wide, y, 26, GREY)]
        if until < 86000:
            parts += [label((across(until) + left + wide) / 2, y + 18, "unknown")]
        parts += [label((left + across(until)) / 2, y + 18, words)]
    for second in range(first, 86401, 300):
        parts += [line(across(second), 278, across(second), 284, INK), label(across(second), 300, clock(second))]
    return parts + [line(left, 278, left + wide, 278, INK)]


def knowledge():
    left, wide = 70, 620
    stretches = [part.split() for part in ask(["show 6+5?"])[0].split("; ")]
    day = datetime.date.fromisoformat(stretches[-2][1])
    parts, start, end = days(stretches, left, wide)
    parts += [line(start, 92, left, 164, RED, "2 3"), line(end, 92, left + wide, 164, RED, "2 3")]
    parts += [label(left + wide / 2, 150, f"the end of its last day, {day.isoformat()}", colour=RED)]
    parts += last_day((day - datetime.date(1858, 11, 17)).days, left, wide)
    return picture(740, 318, "What the list 6+5? knows", parts)


def main():
    wrong = []
    for name, drawn in [("smoothing.svg", smoothing()), ("knowledge.svg", knowledge())]:
        file = ROOT / "docs" / name
        if sys.argv[1:] != ["--check"]:
            file.write_text(drawn, encoding="utf-8")
        elif not file.is_file() or file.read_text(encoding="utf-8") != drawn:
            wrong.append(name)
        else:
            print(f"ok docs/{name} is as drawn")
    if wrong:
        sys.exit("not as drawn: " + " ".join(wrong))


main()
