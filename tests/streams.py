"""What the tests of the words `ask` and `replay` share, which read standard input to its end: input in pieces, and failures to read and write.

A command is a program and its word.
"""
import os
import pathlib
import pty
import select
import subprocess
import sys
import threading
import time
import tty


def feed(pipe, data, size):
    """Writes bytes to a pipe, that many at a time, and closes it."""
    for start in range(0, len(data), size):
        pipe.write(data[start : start + size])
    pipe.close()


def in_pieces(command, data, size):
    """What a command prints to input that comes that many bytes at a time."""
    with subprocess.Popen(command, stdin=subprocess.PIPE, stdout=subprocess.PIPE, bufsize=0) as run:
        feeder = threading.Thread(target=feed, args=(run.stdin, data, size))
        feeder.start()
        printed = run.stdout.read()
        feeder.join()
    return printed


def write_failures(command, data):
    """Where writing fails, that is said once, and the program ends. A pipe that is closed ends it without a word, whether SIGPIPE is ignored or not:
    a program of today's kit ignores it itself."""
    with open("/dev/full", "wb") as full:
        run = subprocess.run(command, input=data, stdout=full, stderr=subprocess.PIPE, timeout=60)
    if run.stderr != b"leapsec: standard output: No space left on device\n":
        sys.exit(f"FAILED of an output that is full {command[1]} says {run.stderr!r}")
    for restored, wanted in [(True, (0, b"")), (False, (0, b""))]:
        closed, end = os.pipe()
        os.close(closed)
        run = subprocess.run(command, input=data, stdout=end, stderr=subprocess.PIPE, timeout=60, restore_signals=restored)
        os.close(end)
        if (run.returncode, run.stderr) != wanted:
            sys.exit(f"FAILED at a closed pipe {command[1]} ends with {run.returncode} and says {run.stderr!r}")
    print("ok a failure to write is said once, and ends the program; a closed pipe ends it without a word")


def read_failures(command, data, answer):
    """Where reading fails, that is said once, and the program ends. Half a line that came before is not answered: `data` ends with one, and
    `answer` is what the lines before it are answered."""

    def told(run, wanted, error):
        out, said = run.communicate(timeout=60)
        if (out, said, run.returncode) != (wanted, b"leapsec: standard input: " + error + b"\n", 0):
            sys.exit(f"FAILED where reading ends with {error.decode()!r}, {command[1]} answers {out!r} and says {said!r}")

    def started(stdin):
        return subprocess.Popen(command, stdin=stdin, stdout=subprocess.PIPE, stderr=subprocess.PIPE)

    folder = os.open("/", os.O_RDONLY)
    told(started(folder), b"", b"Is a directory")
    os.close(folder)

    # a pipe that does not block, and is not closed: the second read fails
    end, start = os.pipe()
    os.set_blocking(end, False)
    os.write(start, data)
    told(started(end), answer, b"Resource temporarily unavailable")
    os.close(start)
    os.close(end)

    # a terminal that is closed at the other end, while the program waits in its second read
    master, slave = pty.openpty()
    tty.setraw(slave)
    os.write(master, data)
    run = started(slave)
    os.close(slave)
    if not select.select([run.stdout], [], [], 10)[0]:
        sys.exit("FAILED a line from a terminal is not answered")
    for _ in range(1000):
        if pathlib.Path(f"/proc/{run.pid}/stat").read_text().rsplit(")", 1)[1].split()[0] in "SZ":
            break
        time.sleep(0.01)
    os.close(master)
    told(run, answer, b"Input/output error")
    print("ok a failure to read is said once, and ends the program; half a line before it is not answered")
