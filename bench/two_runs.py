#!/usr/bin/env python3
"""Starts two runs at once over one file, and looks at what is answered and what the file holds.

usage: bench/two_runs.py [TIMES [INSERTS]]      20 times with 5,000 INSERTs each where none is given

By turns both are started as the program, one of them by the script ./bokzarn, or both by it. Each time one of the two has
to end with 0, with all of its rows answered, and the other with 4 and no reply, or with 0 where the first had ended before
it began. Then the file has to hold exactly the rows that were answered.
Besides, as often, a program that doesn't ask for the lock lets the file grow in mid-run: the run has to end with 4,
and the file to hold each row that was answered, and at most one more.
Prints a line for each time that did not hold, and a summary; ends with 1 where there was one.
"""
import os
import random
import subprocess
import sys
import tempfile
import time

HERE = os.path.dirname(os.path.abspath(__file__))
PROGRAM = os.path.join(HERE, "..", "crates", "bokzarn", "out", "bokzarn")
WRAPPER = os.path.join(HERE, "..", "bokzarn")
WAYS = ((PROGRAM, PROGRAM), (PROGRAM, WRAPPER), (WRAPPER, WRAPPER))


def run(db, script):
    return subprocess.run([PROGRAM, db, "run"], input=script, capture_output=True)


def inserts(first, count):
    return b"".join(b"INSERT INTO T VALUES (%d);\n" % k for k in range(first, first + count))


def rows_in(db):
    """The numbers of the table's one column K, in the order in which they came."""
    lines = run(db, b"SELECT * FROM T;").stdout.decode().split("\n")
    return [int(line) for line in lines[1:-2]]


def begin(work, db, name, script, program=PROGRAM):
    """A run with its script and its replies in files."""
    source = os.path.join(work, name + ".sql")
    with open(source, "wb") as file:
        file.write(script)
    with open(source, "rb") as stdin, open(os.path.join(work, name + ".out"), "wb") as stdout:
        return subprocess.Popen([program, db, "run"], stdin=stdin, stdout=stdout, stderr=subprocess.DEVNULL)


def answered(work, name):
    with open(os.path.join(work, name + ".out"), "rb") as file:
        return file.read().decode().split("\n")[:-1].count("INSERTED 1")


def created(work, number):
    db = os.path.join(work, f"db{number}")
    if run(db, b"CREATE TABLE T(K NUMBER);").returncode != 0:
        sys.exit("the table can't be created")
    return db


def two_at_once(work, number, count):
    """Whether two runs at once held, and whether one of them found the file locked."""
    db = created(work, number)
    ways = WAYS[number % len(WAYS)]
    first = begin(work, db, "first", inserts(1, count), ways[0])
    second = begin(work, db, "second", inserts(count + 1, count), ways[1])
    ends = (first.wait(), second.wait())
    replies = (answered(work, "first"), answered(work, "second"))
    rows = sorted(rows_in(db))
    wanted = [k for i in (0, 1) if ends[i] == 0 for k in range(1 + i * count, 1 + (i + 1) * count)]
    good = ends in ((0, 4), (4, 0), (0, 0)) and rows == wanted
    good = good and all(n == (count if end == 0 else 0) for end, n in zip(ends, replies))
    if not good:
        print(f"two runs {number}: statuses {ends}, {replies} rows were answered, the file has {len(rows)}")
    os.remove(db)
    return good, 4 in ends


def grown_by_another(work, number, count, seconds):
    """Whether a run held in which another program let the file grow, and whether it was still going on."""
    db = created(work, number)
    child = begin(work, db, "alone", inserts(1, count))
    time.sleep(random.uniform(0, seconds / 2))
    running = child.poll() is None
    with open(db, "ab") as file:
        file.write(b"\0" * 1000)
    end = child.wait()
    replies = answered(work, "alone")
    rows = sorted(rows_in(db))
    seen = end == 4
    good = end in (0, 4) and rows == list(range(1, len(rows) + 1)) and replies <= len(rows) <= replies + 1
    good = good and (seen or replies == count)
    if not good:
        print(f"a grown file {number}: status {end}, {replies} rows were answered, the file has {len(rows)}")
    os.remove(db)
    return good, running and seen


def main():
    times = int(sys.argv[1]) if len(sys.argv) > 1 else 20
    count = int(sys.argv[2]) if len(sys.argv) > 2 else 5000
    if not os.access(PROGRAM, os.X_OK):
        sys.exit("build the program first: ./bokzarn")
    with tempfile.TemporaryDirectory() as work:
        start = time.monotonic()
        pairs = [two_at_once(work, k, count) for k in range(times)]
        seconds = (time.monotonic() - start) / times
        grown = [grown_by_another(work, k, count, seconds) for k in range(times)]
    bad = sum(not good for good, _ in pairs + grown)
    print(
        f"{times} pairs of runs of {count} INSERTs at once: {sum(locked for _, locked in pairs)} found the file locked;"
        f" {times} runs over a file that grew meanwhile: {sum(seen for _, seen in grown)} ended with 4; {bad} did not hold"
    )
    return 1 if bad else 0


if __name__ == "__main__":
    sys.exit(main())
