#!/usr/bin/env python3
"""Kills the program (SIGKILL) at many moments of a long script, and looks at what each file holds.

usage: bench/stops.py [TIMES [INSERTS]]      100 times in a script of 20,000 INSERTs where none is given

A run that ends before its kill isn't counted. Each time the file is opened again and read, and has to hold every row whose reply was printed, and at most one more:
rows 1 to k, k from the number of whole replies to that number and one. Then the run goes on over the same file.
Prints a line for each stop that did not hold, and a summary; ends with 1 where there was one.
"""
import os
import random
import signal
import subprocess
import sys
import tempfile
import time

HERE = os.path.dirname(os.path.abspath(__file__))
PROGRAM = os.path.join(HERE, "..", "crates", "bokzarn", "out", "bokzarn")


def rows_of(listing):
    """The numbers of a listing of the one column K, or None where it is none."""
    lines = listing.decode().split("\n")
    if not lines or lines[0] != "K" or lines[-1] != "" or not lines[-2].endswith("rows)"):
        return None
    return [int(line) for line in lines[1:-2]]


def whole_replies(text):
    """How many INSERTs were answered in full, and whether the table's creation was."""
    lines = text.decode().split("\n")[:-1]
    return lines.count("INSERTED 1"), "CREATED TABLE T" in lines


def run(db, script):
    return subprocess.run([PROGRAM, db, "run"], input=script, capture_output=True)


def main():
    times = int(sys.argv[1]) if len(sys.argv) > 1 else 100
    inserts = int(sys.argv[2]) if len(sys.argv) > 2 else 20000
    if not os.access(PROGRAM, os.X_OK):
        sys.exit("build the program first: ./bokzarn")
    script = b"CREATE TABLE T(K NUMBER);\n"
    script += b"".join(b"INSERT INTO T VALUES (%d);\n" % k for k in range(1, inserts + 1))
    with tempfile.TemporaryDirectory() as work:
        source = os.path.join(work, "script.sql")
        with open(source, "wb") as file:
            file.write(script)
        start = time.monotonic()
        done = run(os.path.join(work, "whole"), script)
        whole = time.monotonic() - start
        if done.returncode != 0:
            sys.exit(f"the whole script ended with status {done.returncode}")
        bad = number = 0
        seen = []
        while len(seen) < times:
            number += 1
            db, out = os.path.join(work, f"db{number}"), os.path.join(work, "out")
            with open(source, "rb") as stdin, open(out, "wb") as stdout:
                child = subprocess.Popen([PROGRAM, db, "run"], stdin=stdin, stdout=stdout, stderr=subprocess.DEVNULL)
                time.sleep(random.uniform(0, whole))
                child.send_signal(signal.SIGKILL)
                killed = child.wait() == -signal.SIGKILL
            if not killed:
                # It had ended before: no stop.
                os.remove(db)
                continue
            with open(out, "rb") as file:
                answered, created = whole_replies(file.read())
            if not os.path.exists(db):
                good = answered == 0 and not created
                kept = 0
            else:
                listing = run(db, b"SELECT * FROM T;")
                rows = rows_of(listing.stdout)
                if rows is None:
                    good = listing.stdout == b"E6 UnknownName T\n" and answered == 0 and not created
                    kept = 0
                else:
                    kept = len(rows)
                    good = rows == list(range(1, kept + 1)) and answered <= kept <= answered + 1
                    more = run(db, b"INSERT INTO T VALUES (0);")
                    good = good and more.stdout == b"INSERTED 1\n" and more.returncode == 0
            seen.append(kept)
            if not good:
                bad += 1
                print(f"stop {number}: {answered} rows were answered, the file has {kept}")
            if os.path.exists(db):
                os.remove(db)
        print(
            f"{times} runs of {inserts} commits ({whole:.2f} s each) were killed before their end;"
            f" files of {min(seen)} to {max(seen)} rows; {bad} did not hold"
        )
    return 1 if bad else 0


if __name__ == "__main__":
    sys.exit(main())
