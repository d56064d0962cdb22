"""Random question lines, and what leapsec says of those that are no question.

The lines are seeded: every word, lists and numbers that are good and damaged, lists under which DTAI falls below zero, two lists of which one
extends or contradicts the other, unknown words, missing, extra and empty fields, any bytes but LF, and lines up to and over the longest that is a
question.
"""
import datetime
import random
import re

CURRENT = b"6+6+12+12+12+12+12+12+12+18+12+12+24+30+24+12+18+12+12+18+18+18+84+36+42+36+18+125?"
LONGEST = 8192
DAY = 86_400_000_000  # microseconds
USAGE = {
    b"show": b"show LIST",
    b"nybbles": b"nybbles LIST",
    b"text": b"text HEX",
    b"dtai": b"dtai LIST MJD",
    b"tai": b"tai LIST MJD MICROS",
    b"utc": b"utc LIST TAI",
    b"uts": b"uts LIST MJD MICROS",
    b"unsmooth": b"unsmooth LIST MJD NANOS",
    b"compare": b"compare LIST LIST",
    b"longer": b"longer LIST LIST",
}
WORDS = list(USAGE)


def month_start(month):
    """The MJD on which a month starts."""
    return (datetime.date(1972 + month // 12, month % 12 + 1, 1) - datetime.date(1858, 11, 17)).days


class Lines:
    """Random question lines. A list is kept with its marks, the months of its leaps and its expiry, near which its questions are asked."""

    def __init__(self, seed):
        self.random = random.Random(seed)
        self.good = [(b"current", self.marks(CURRENT)), (b"6+5?", [6, 11]), (b"6-5?", [6, 11]), (b"5?", [5]), (b"999?", [999])]
        self.good += [self.rising_list() for _ in range(300)] + [self.falling_list() for _ in range(200)]
        self.bad = [self.damaged_list() for _ in range(600)]

    @staticmethod
    def marks(text):
        """The months of a list's marks."""
        total, months = 0, []
        for gap in text.replace(b"-", b"+").rstrip(b"?").split(b"+"):
            total += int(gap)
            months.append(total)
        return months

    def chance(self, one_in):
        return self.random.randrange(one_in) == 0

    def rising_list(self):
        """A list whose leaps are mostly inserted seconds."""
        r = self.random
        return self.list(r.choice([0, 1, 2, 5, 12, 27, 256]), r.choice([1, 2, 9, 30, 99, 400, 999]), b"+++-")

    def falling_list(self):
        """A list whose leaps are mostly deleted seconds, so many that DTAI falls to 0 and below."""
        r = self.random
        return self.list(r.choice([10, 11, 12, 13, 27, 256]), r.choice([1, 2, 9, 30]), r.choice([b"-", b"-------+"]))

    def list(self, leaps, most, signs):
        """A list that reads, of that many leaps where there is room, with gaps up to a most."""
        r = self.random
        total, months, text = 0, [], b""
        for _ in range(leaps):
            gap = r.randint(1, most)
            if total + gap > 2390:
                break
            total += gap
            months.append(total)
            text += b"%d%c" % (gap, r.choice(signs))
        gap = r.randint(1, min(999, 2400 - total))
        return text + b"%d?" % gap, months + [total + gap]

    def damaged_list(self):
        """A list that mostly does not read, with the marks that it had."""
        r = self.random
        text, months = r.choice(self.good)
        if text == b"current":
            text = CURRENT
        kind, at = r.randrange(9), r.randrange(len(text))
        if kind == 0:
            text = text[:at]
        elif kind == 1:
            text = text[:at] + bytes([self.byte()]) + text[at:]
        elif kind == 2:
            text = text[:at] + bytes([self.byte()]) + text[at + 1 :]
        elif kind == 3:
            text = text[:at] + text[at + 1 :]
        elif kind == 4:
            text += bytes([self.byte()])
        elif kind == 5:
            text = text[:at] + b"0" + text[at:]
        elif kind == 6:
            text = b"999+999+" + text
        elif kind == 7:
            text = b"1+" * r.choice([255, 256, 257]) + text
        else:
            text = text.replace(b"?", b"%d?" % r.randrange(1000), 1)
        return text, months

    def byte(self):
        """A byte that may stand in a field: not a space and no LF."""
        byte = self.random.choice([self.random.randrange(256), self.random.choice(b"0123456789+-?")])
        return byte if byte not in b" \n" else 0

    def any_list(self):
        return self.random.choice(self.bad if self.chance(5) else self.good)

    def later_expiry(self, text, months):
        """A list with its last gap made longer, where it can be."""
        start, gap = re.fullmatch(rb"(.*?)(\d+)\?", text).groups()
        most = min(999, 2400 - (months[-1] - int(gap)))
        return start + b"%d?" % self.random.randint(int(gap), most)

    def further_leap(self, text, months):
        """A list with one more leap, at its expiry, where there can be one."""
        if months[-1] == 2400 or len(months) > 256:
            return text
        gap = self.random.randint(1, min(999, 2400 - months[-1]))
        return text.replace(b"?", b"%c%d?" % (self.random.choice(b"+-"), gap))

    def cut_short(self, text, months):
        """A list up to one of its leaps, which it then expires at."""
        signs = [at for at, byte in enumerate(text) if byte in b"+-"]
        return text[: self.random.choice(signs)] + b"?" if signs else text

    def turned(self, text, months):
        """A list with one of its signs turned."""
        signs = [at for at, byte in enumerate(text) if byte in b"+-"]
        if not signs:
            return text
        at = self.random.choice(signs)
        return text[:at] + (b"-" if text[at : at + 1] == b"+" else b"+") + text[at + 1 :]

    def two_lists(self):
        """Two lists, mostly good and related: the same, one that extends the other, or one that contradicts it."""
        r = self.random
        text, months = r.choice(self.good)
        if text == b"current" or self.chance(10):
            text, months = CURRENT, self.good[0][1]
        change = r.choice([self.later_expiry, self.further_leap, self.cut_short, self.turned, None, None])
        other = change(text, months) if change else r.choice([text, r.choice(self.good)[0]])
        lists = [b"current" if each == CURRENT and self.chance(2) else each for each in (text, other)]
        r.shuffle(lists)
        if self.chance(5):
            lists[r.randrange(2)] = r.choice(self.bad)[0]
        if self.chance(20):
            lists = [r.choice(self.bad)[0] for _ in lists]
        return lists

    def day(self, months):
        r = self.random
        near = month_start(r.choice(months))
        return r.choice([near - 2, near - 1, near - 1, near, near + 1, r.randint(41317, near), r.randint(41310, 41320), r.randrange(120000)])

    def micros(self):
        r = self.random
        edge = r.choice([0, 85_399, 85_400, 85_401, 86_398, 86_399, 86_400, 86_401]) * 1_000_000
        return max(0, r.choice([edge + r.randint(-2, 2), edge + r.randrange(10**9), r.randrange(DAY)]))

    def nanos(self):
        return max(0, self.micros() * 1000 + self.random.choice([0, 0, 1, 500, 999, self.random.randrange(1000)]))

    def tai(self, months):
        dtai = self.random.choice([self.random.randint(-3, 40), self.random.randint(-250, 270)])
        return max(0, DAY * (self.day(months) - 41317) + self.micros() + 1_000_000 * dtai)

    def number(self, n):
        """A number as it is written: at times with zeros before it, out of range, or no number at all."""
        r = self.random
        if self.chance(12):
            return b"0" * r.randint(1, 30) + b"%d" % n
        if self.chance(20):
            return b"%d" % r.choice([0, 2**32, 2**63, 2**64 - 1, 2**64 - 1, 2**64, 2**64 + n, 10**20, r.getrandbits(64), r.getrandbits(70)])
        if self.chance(20):
            return r.choice([b"", b"+%d" % n, b"-%d" % n, b"%d.0" % n, b"x", b"1e5", b"%dx" % n, b"%d\r" % n, b"\x00", b"%d\x00" % n, b"\xb2"])
        return b"%d" % n

    def hex(self):
        """A nybble list in hex: codes up to an expiry, at times damaged."""
        r = self.random
        total, codes = 0, ""
        for _ in range(r.choice([0, 1, 3, 8, 30, 270])):
            v = r.randrange(8)
            months = 6 * (v + 1)
            code = f"{v:x}"
            if self.chance(2):
                first, g = r.choice([8, 9, 9, 10, 12, 13, 13, 14]), r.choice([0, 1, 5, 15])
                code, months = f"{first:x}{g:x}", (g + 1) * (1 if first >= 12 else 6)
            if total + months > 2300:
                break
            total += months
            codes += code
        codes += r.choice(["f4", "b0", "bf", "f0", "f", "b", "ff"])
        if len(codes) % 2 == 1:
            codes = "9" + codes if self.chance(2) and codes[0] in "01234567" else "0" + codes
        at, kind = r.randrange(len(codes)), r.randrange(16)
        if kind == 0:
            codes = codes[:at] + f"{r.randrange(16):x}" + codes[at + 1 :]
        elif kind == 1:
            codes += f"{r.randrange(256):02x}"
        elif kind == 2:
            codes = codes[: at - at % 2]
        elif kind == 3:
            codes = "".join(r.choice("0123456789abcdef") for _ in range(2 * r.randrange(40)))
        elif kind == 4:
            codes = codes[:at] + codes[at + 1 :]
        elif kind == 5:
            return codes[:at].encode() + bytes([self.byte()]) + codes[at + 1 :].encode()
        codes = r.choice([codes, codes.upper(), "".join(r.choice([c, c.upper()]) for c in codes)])
        return codes.encode()

    def fields(self):
        """A question with the fields that its word takes."""
        word = self.random.choice(WORDS)
        if word == b"text":
            return [word, self.hex()]
        if word in (b"compare", b"longer"):
            return [word, *self.two_lists()]
        text, months = self.any_list()
        if word in (b"show", b"nybbles"):
            return [word, text]
        if word == b"utc":
            return [word, text, self.number(self.tai(months))]
        fields = [word, text, self.number(self.day(months))]
        if word == b"unsmooth":
            fields.append(self.number(self.nanos()))
        elif word != b"dtai":
            fields.append(self.number(self.micros()))
        return fields

    def line(self):
        """A line that is mostly a question."""
        r = self.random
        fields = self.fields()
        if self.chance(40):
            others = [b"ask", b"replay", b"help", b"current", b"longest"]
            fields[0] = r.choice([b"", b"Show", b"shows", b"sho", b"tai\x00", b"\x00", b"\xff", b"dtai\r", *others])
        if self.chance(40):
            fields.insert(r.randrange(len(fields) + 1), r.choice([b"", b"", b"1", b"5?", b"\xe2\x80\xa6"]))
        if self.chance(40):
            fields[r.randrange(len(fields))] = b""
        if self.chance(40):
            fields.pop()
        if self.chance(400):
            return bytes(self.byte() for _ in range(r.randrange(60)))
        return b" ".join(fields)

    def long_line(self, size):
        """A line of that many bytes."""
        starts = [b"dtai 5? ", b"utc current ", b"show ", b"nybbles 6+", b"text ", b"uts ", b"", b"show \xff", b"tai 5? 41317 ", b"longer 5? "]
        start = self.random.choice(starts)
        if start.endswith((b"? ", b"t ", b"7 ")) and not start.startswith(b"text"):
            return start + b"41317".rjust(size - len(start), b"0")
        return start + self.random.choice([b"0", b"1", b"6+", b" ", b"8f"]) * size

    def all(self, count):
        lines = [self.line() for _ in range(count)]
        for place in self.random.sample(range(count), 40):
            size = self.random.choice([LONGEST - 1, LONGEST, LONGEST, LONGEST + 1, LONGEST + 1, 65_536, 100_000])
            lines[place] = self.long_line(size)[:size]
        return lines


def expected(line):
    """What leapsec says of a line that is no question."""
    if len(line) > LONGEST:
        return b"? expected: a line of at most 8192 bytes"
    return b"? expected: " + USAGE.get(line.split(b" ")[0], b"show, nybbles, text, dtai, tai, utc, uts, unsmooth, compare or longer")
