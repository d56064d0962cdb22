"""Tests `leapsec replay`: by hand, against the second program on random traces, and its reading, writing and memory.

Usage: replay.py LEAPSEC SECOND [COUNT SEED]
"""
import collections
import pathlib
import re
import select
import subprocess
import sys
import threading

from lines import Lines
from streams import feed, in_pieces, read_failures, write_failures

LONGEST = 4096  # bytes of a line, before its LF
Q = b"Q 41498 86400000000\n"
TIME = b"41498 86399001000000\n"  # its answer under 6+5?, P10 of 01


def printed(program, trace):
    """What a program prints of a trace."""
    run = subprocess.run([program, "replay"], input=trace, capture_output=True, timeout=120)
    if (run.returncode, run.stderr) != (0, b""):
        sys.exit(f"FAILED {program} replay: status {run.returncode}, and {run.stderr!r}")
    return run.stdout


def prints(leapsec, trace, wanted):
    got = printed(leapsec, trace)
    if got != wanted:
        sys.exit(f"FAILED {trace[:200]!r} prints {got[:200]!r}, not {wanted[:200]!r}")


def by_hand(leapsec):
    """The answers that request 12/14 gives, and those worked from it and from 01."""
    worked = {
        b"L 6+5?\n" + Q: TIME,
        b"": b"",
        Q: b"!11\n",
        b"S\nZ\n" + Q: b"!11\n",
        b"L 6+5?\nZ\n" + Q: b"!11\n",
        b"L 6+5?\nS\nL 6-5?\n" + Q + b"Z\n" + Q: b"!9\n" + TIME,
        b"L 6+5?\nL 06+5?\n" + Q: b"!3\n" + TIME,
        b"L 6+5?\nQ 41498 85401000000\nQ 41498 85402000000\n": b"41498 85401000000000\n41498 85401999000000\n",
        b"L 6-5?\nQ 41498 86398000000\nQ 41498 86399000000\n": b"41498 86398999000000\n!9\n",
        b"L 6+5?\nQ 41316 99999999999\nQ 41652 86401000000\nQ 41652 0\nQ 41651 85399000000\n": b"!8\n!9\n!10\n!10\n",
        b"L 999+999+402?\nQ 114364 86399999999\n": b"114364 86399999999000\n",
        b"L 6+5?\nQ 000000000000041498 000000000000000007\n": b"41498 7000\n",
        b"L 6+5?\nQ 0000000000000041498 0\nQ 41498 0000000000000000007\n": b"!20\n!20\n",
        b"L \nL  6+5?\nL current\nL 5?\r\n": b"!1\n!2\n!2\n!6\n",
        b"L 999+999+403?\nL " + b"1+" * 257 + b"1?\n": b"!4\n!5\n",
    }
    none = [b"", b" ", b"#", b"L", b"l 5?", b"S ", b"S\r", b"SS", b"Z ", b"Z\r", b"Q", b"Q 41498", b"Q 41498 0 ", b"Q 41498 0\r"]
    none += [b"Q  41498 0", b"Q 41498  0", b"Q 41498 0 0", b"Q +1 0", b"q 41498 0", b"\0", b"\xff", b"replay", b"ask", b"show 5?"]
    for line in none:
        worked[b"L 6+5?\n" + line + b"\n" + Q] = b"!20\n" + TIME
    # a last line without LF, whatever it is
    for line in none[1:] + [b"S", b"Z", b"L 6+5?", Q.strip()]:
        worked[b"L 6+5?\n" + Q + line] = TIME + b"!20\n"
    for trace, wanted in worked.items():
        prints(leapsec, trace, wanted)
    print(f"ok {len(worked)} traces print what is worked by hand, those with a last line that lacks its LF among them")


def long_lines(leapsec):
    """Lines around the longest that may be one, and around the size of a program's buffer."""
    for size in (LONGEST - 1, LONGEST, LONGEST + 1, LONGEST + 2, 8192, 65_535, 65_536, 65_537, 73_728, 1_000_000):
        for start, own in [(b"L ", b"!3\n"), (b"L 5?", b"!6\n"), (b"S", b"!20\n"), (b"Q 41498 ", b"!20\n")]:
            line = start + b"5" * (size - len(start))
            answer = own if size <= LONGEST else b"!20\n"
            prints(leapsec, line + b"\n", answer)
            prints(leapsec, line, b"!20\n")
            prints(leapsec, b"L 6+5?\n" + line + b"\n" + Q, answer + TIME)
    print("ok lines of up to a million bytes, alone and between others, with LF and without")


class Traces(Lines):
    """Random traces: lists, good and damaged, and questions near their leaps, lines that are none, long ones, and any bytes."""

    def question(self, months):
        mjd, micros = self.day(months), self.micros()
        fields = [b"%0*d" % (self.random.choice([1] * 30 + [17, 18, 19, 20, 40]), number) for number in (mjd, micros)]
        if self.chance(60):
            fields[self.random.randrange(2)] = self.number(micros)
        if self.chance(60):
            fields.insert(self.random.randrange(3), b"")
        return b" ".join([b"Q", *fields])

    def trace_line(self, months):
        r = self.random
        if self.chance(300):
            size = r.choice([LONGEST - 1, LONGEST, LONGEST + 1, LONGEST + 2, 20_000])
            return (r.choice([b"L ", b"L 6+", b"Q ", b"S", b""]) + r.choice([b"1", b"0", b"1+", b" ", b"\0"]) * size)[:size]
        if self.chance(30):
            return r.choice([b"", b" ", b"L", b"S ", b"Z\r", b"s", b"Z Z", b"Q", b"#", b"\0", b"\xff", b"q 41498 0", b"l 5?", b"replay"])
        if self.chance(200):
            return bytes(self.byte() for _ in range(r.randrange(30)))
        line = r.choice([b"S", b"Z"]) if self.chance(4) else self.question(months)
        if self.chance(30):
            at = r.randrange(len(line) + 1)
            line = line[:at] + bytes([self.byte()]) + line[at + r.randrange(2) :]
        return line

    def trace(self, count):
        """A trace of that many lines. Questions are asked near the leaps of the list that was used last."""
        lines, months = [], [11]
        while len(lines) < count:
            if self.chance(6):
                text, months = self.any_list()
                lines.append(b"L " + text)
            lines.append(self.trace_line(months))
        return b"".join(line + b"\n" for line in lines)


def agree(leapsec, second, count, seed):
    """Compares the two programs on a trace of that many lines, and on many short ones; returns the long one and what it prints."""
    traces = Traces(seed)
    whole = traces.trace(count)
    shorter = [traces.trace(traces.random.randrange(1, 12))[: -1 if traces.chance(3) else None] for _ in range(300)]
    shorter += [bytes(traces.random.randrange(256) for _ in range(traces.random.randrange(200))) for _ in range(100)]
    met = collections.Counter()
    for trace in [whole, *shorter]:
        got, wanted = printed(leapsec, trace), printed(second, trace)
        if got != wanted:
            told = zip(got.split(b"\n"), wanted.split(b"\n"))
            place, pair = next((at, two) for at, two in enumerate(told, 1) if two[0] != two[1])
            pathlib.Path("target/tests/replay.trace").write_bytes(trace)
            sys.exit(f"FAILED line {place} of what target/tests/replay.trace prints: leapsec {pair[0]!r}, the second program {pair[1]!r}")
        met.update(line if line.startswith(b"!") else b"times" for line in got.split(b"\n")[:-1])
    numbers = [b"!%d" % n for n in (1, 2, 3, 4, 5, 6, 8, 9, 10, 11, 20)]
    few = [kind.decode() for kind in [b"times", *numbers] if met[kind] < (count // 10 if kind == b"times" else 50)]
    if few or set(met) - {b"times", *numbers}:
        sys.exit(f"FAILED too few of {', '.join(few)}, or another number: {met}")
    print(f"ok a trace of {whole.count(10)} lines and {len(shorter)} short ones print the same in both programs")
    print(f"ok there are {met[b'times']} times, and refusals by number: " + ", ".join(f"{n.decode()}: {met[n]}" for n in numbers))
    return whole, printed(leapsec, whole)


def pieces(leapsec, whole, wanted):
    """The trace may come in pieces of any size."""
    for size in (1, 7, LONGEST, LONGEST + 1, 65_536):
        part = whole[: 3000 * size if size < 100 else len(whole)]
        got = in_pieces([leapsec, "replay"], part, size)
        if size >= 100 and got != wanted or got != printed(leapsec, part) or not got:
            sys.exit(f"FAILED what is printed of pieces of {size} bytes differs")
    print(f"ok the same is printed where the trace comes in pieces of 1, 7, {LONGEST}, {LONGEST + 1} and 65536 bytes")


def waits(leapsec):
    """What a line prints comes before the next line is written, however often, and before half a line is ended; nothing else comes."""
    lines = [(b"L 6+5?\n" + Q, TIME), (b"S\nQ 41316 0\n", b"!8\n"), (b"Z\nx\n", b"!20\n"), (b"L \nZ\nQ 41", b"!1\n"), (b"498 0\n", b"41498 0\n")]
    # half a line, of which there is already more than any line may have
    lines += [(b"Q 41498 1\n" + b"y" * 5000, b"41498 1000\n"), (b"y" * 5000 + b"\n", b"!20\n")]
    with subprocess.Popen([leapsec, "replay"], stdin=subprocess.PIPE, stdout=subprocess.PIPE, bufsize=0) as run:
        for data, wanted in lines * 3000:
            run.stdin.write(data)
            if not select.select([run.stdout], [], [], 10)[0] or run.stdout.read(100) != wanted:
                sys.exit(f"FAILED {data[:100]!r} does not print {wanted!r} before the next line")
        run.stdin.write(b"S\n" + b"L 6+5?\nZ\n" * 1000)
        if select.select([run.stdout], [], [], 0.2)[0]:
            sys.exit(f"FAILED lines that print nothing print {run.stdout.read(100)!r}")
        run.stdin.close()
        if run.stdout.read() != b"":
            sys.exit("FAILED something is printed at the end of a trace that has its last LF")
    print(f"ok what a line prints comes before the next line is written, {3000 * len(lines)} times in one run")


def peak(leapsec, trace, size):
    """The most memory, in KiB, that was resident while a trace was replayed, its end not yet read; and how many bytes were printed.

    What the kernel says of a process that has ended would count the one that started it too, from before the program ran.
    """
    with subprocess.Popen([leapsec, "replay"], stdin=subprocess.PIPE, stdout=subprocess.PIPE, bufsize=0) as run:
        # the end is known by its answer, which no other line has
        mark = b"41498 123456789000\n"
        writer = threading.Thread(target=run.stdin.write, args=(trace + b"\nL 6+5?\nQ 41498 123456789\n",))
        writer.start()
        read, tail = 0, b""
        while not tail.endswith(mark):
            part = run.stdout.read(size)
            if not part:
                sys.exit("FAILED a trace is not replayed to its end")
            read, tail = read + len(part), (tail + part)[-100:]
        writer.join()
        status = pathlib.Path(f"/proc/{run.pid}/status").read_text()
        run.stdin.close()
    return int(re.search(r"VmHWM:\s*(\d+) kB", status)[1]), read


def memory(leapsec):
    """Memory does not grow with the trace, nor with a line."""
    traces = Traces(12)
    small, _ = peak(leapsec, traces.trace(100), 65_536)
    lines = traces.trace(4000)
    long = lines * (20_000_000 // len(lines) + 1)
    for name, trace in [("20 MB", long), ("20 MB with a line of 10 MB", long[:10_000_000] + b"x" * 10_000_000)]:
        large, read = peak(leapsec, trace, 65_536)
        if len(trace) < 20_000_000 or read < 1_000_000:
            sys.exit(f"FAILED the trace of {name} has {len(trace)} bytes, and prints {read}")
        if large - small >= 1024:
            sys.exit(f"FAILED a trace of 100 lines takes {small} KiB of memory, one of {name} {large} KiB")
        print(f"ok a trace of 100 lines takes {small} KiB of memory, one of {name} {large} KiB")


def main():
    leapsec, second = sys.argv[1:3]
    count, seed = [int(n) for n in sys.argv[3:5]] or [100_000, 20260712]
    by_hand(leapsec)
    long_lines(leapsec)
    whole, wanted = agree(leapsec, second, count, seed)
    pieces(leapsec, whole, wanted)
    waits(leapsec)
    write_failures([leapsec, "replay"], b"L 6+5?\n" + Q * 100_000)
    read_failures([leapsec, "replay"], b"L 6+5?\nQ 41498 0\nQ 41498 1", b"41498 0\n")
    memory(leapsec)


main()
