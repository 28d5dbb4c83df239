#!/usr/bin/env python3
"""Cuts each script into two runs over one file, behind each of its events, and looks at the replies of both.

usage: bench/cut_runs.py SCRIPT [SCRIPT ..]      the program is crates/bokzarn/out/bokzarn, or what PROGRAM names; it has 1 worker, or as many as
WORKERS says

The second run goes on behind the last commit of the first: what came behind it is in no file, so its stamps are taken anew,
and those events are sent again. Up to that commit the replies have to be those of one run over the whole script, and from
there on too. A cut in an open transaction is passed over, since that transaction is lost with its run.
Prints a line for each script and for each cut that did not hold; ends with 1 where there was one.
"""
import os
import subprocess
import sys
import tempfile

HERE = os.path.dirname(os.path.abspath(__file__))
WORKERS = os.environ.get("WORKERS", "1")
PROGRAM = os.environ.get("PROGRAM") or os.path.join(HERE, "..", "crates", "bokzarn", "out", "bokzarn")


def end_of_gap(text, at):
    """Where the next command or line begins: behind blanks, `;` and comments."""
    while at < len(text):
        if text[at] in b" \t\r\n;":
            at += 1
        elif text.startswith(b"--", at):
            at = end_of(text, b"\n", at)
        elif text.startswith(b"/*", at) and text.find(b"*/", at + 2) >= 0:
            at = end_of(text, b"*/", at + 2)
        else:
            break
    return at


def end_of(text, mark, at):
    found = text.find(mark, at)
    return len(text) if found < 0 else found + len(mark)


def end_of_command(text, at):
    """Where a command ends: at the first `;` outside quotes and comments."""
    while at < len(text) and text[at] != ord(";"):
        if text[at] in b"'\"":
            at = end_of(text, text[at : at + 1], at + 1)
        elif text.startswith(b"--", at):
            at = end_of(text, b"\n", at)
        elif text.startswith(b"/*", at):
            at = end_of(text, b"*/", at + 2)
        else:
            at += 1
    return at


def parts_of(text):
    """The commands and `!` lines of a script, as they are sent."""
    parts, at = [], end_of_gap(text, 0)
    while at < len(text):
        is_line = text[at] == ord("!")
        end = end_of(text, b"\n", at) if is_line else end_of_command(text, at)
        parts.append(text[at:end].rstrip(b"\n") + (b"\n" if is_line else b";\n"))
        at = end_of_gap(text, end)
    return parts


def run(db, parts):
    done = subprocess.run([PROGRAM, db, "run", "--workers", WORKERS], input=b"".join(parts), capture_output=True)
    if done.returncode not in (0, 1):
        sys.exit(f"a run ended with status {done.returncode}: {done.stderr.decode()}")
    return done.stdout


class Place:
    """A place behind some parts of a script: the session, its open transactions, what was answered so far, and the file's length."""

    def __init__(self, work, parts):
        db = os.path.join(work, f"first{len(parts)}")
        self.session, self.open = b"1", set()
        for part in parts:
            words = part.upper().rstrip(b";\n").split()
            if part.startswith(b"!session "):
                self.session = words[1]
            elif words[0] in (b"BEGIN", b"START"):
                self.open.add(self.session)
            elif words[0] in (b"COMMIT", b"ROLLBACK"):
                self.open.discard(self.session)
        self.replies = run(db, parts)
        self.db, self.length = db, os.path.getsize(db)


def cut_at_each(script):
    """How many cuts of a script were made, passed over, and did not hold."""
    with open(script, "rb") as file:
        parts = parts_of(file.read())
    made = passed = bad = 0
    with tempfile.TemporaryDirectory() as work:
        whole = run(os.path.join(work, "whole"), parts)
        committed, at = Place(work, []), 0
        for count in range(1, len(parts)):
            here = Place(work, parts[:count])
            if here.length > committed.length:
                committed, at = here, count
            if parts[count - 1].startswith(b"!session ") or here.open or committed.open:
                passed += 1
                continue
            made += 1
            rest = run(here.db, [b"!session " + committed.session + b"\n"] + parts[at:])
            if not whole.startswith(here.replies) or committed.replies + rest != whole:
                bad += 1
                print(f"{script}: a cut behind part {count} did not hold: {parts[count - 1].decode(errors='replace').strip()}")
    print(f"{script}: {made} cuts, {passed} passed over, {bad} did not hold")
    return bad


def main():
    if len(sys.argv) < 2:
        sys.exit(__doc__.split("\n\n")[1])
    if not os.access(PROGRAM, os.X_OK):
        sys.exit("build the program first: ./bokzarn")
    return 1 if sum([cut_at_each(script) for script in sys.argv[1:]]) else 0


if __name__ == "__main__":
    sys.exit(main())
