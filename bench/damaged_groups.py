#!/usr/bin/env python3
"""Damages each byte of what a file says of kept groups, and compares what the program then does with what the file says.

usage: bench/damaged_groups.py [PROGRAM]      crates/bokzarn/out/bokzarn where none is given

A file has a dynamic table of three groups. Each byte of the change that sets its groups is turned in five ways. Over each
such file rows come in two of the groups and the table is refreshed. What has to come of it is worked out here from the
bytes: the replies, where the groups that stand there are moved on; status 7, where the bytes are no such change; E19, where
a group shows more than 18 digits; status 3, where a row goes that the table doesn't have, or a sum leaves its 64 bits.
Prints a line for each damage that came to something else, and a summary; ends with 1 where there was one.
"""
import collections
import os
import subprocess
import sys
import tempfile

HERE = os.path.dirname(os.path.abspath(__file__))
PROGRAM = os.path.abspath(sys.argv[1]) if sys.argv[1:] else os.path.join(HERE, "..", "crates", "bokzarn", "out", "bokzarn")
MOST = 10**18 - 1
BEFORE = """CREATE TABLE T(K NUMBER, V NUMBER);
CREATE DYNAMIC TABLE D TARGET_LAG = '60 seconds' AS SELECT K, COUNT(*) AS N, SUM(V) AS S FROM T GROUP BY K;
INSERT INTO T VALUES (1, 10), (1, 5), (2, NULL), (3, 7);
!tick 48000
!tick
"""
ROWS = [(1, 2, 15), (2, 1, None), (3, 1, 7)]  # of D by then
COME = [(1, 3), (2, 4)]
BEHIND = """INSERT INTO T VALUES (1, 3), (2, 4);
ALTER DYNAMIC TABLE D REFRESH;
SELECT * FROM D ORDER BY 1, 2, 3;
"""
TURNS = (0x01, 0x02, 0x10, 0x80, 0xFF)


class Malformed(Exception):
    """The bytes are no commit."""


class OutOfRange(Exception):
    """A group shows a number of more than 18 digits."""


class OutOfMemory(Exception):
    """What the program answers for want of memory."""


def ran(db, script):
    done = subprocess.run([PROGRAM, db, "run"], input=script.encode(), capture_output=True, timeout=60)
    return done.returncode, done.stdout.decode()


class Reader:
    """Goes over bytes."""

    def __init__(self, held, at):
        self.held, self.at = held, at

    def take(self, count):
        if self.at + count > len(self.held):
            raise Malformed
        self.at += count
        return self.held[self.at - count : self.at]

    def number(self, count):
        return int.from_bytes(self.take(count), "big")

    def signed(self):
        return int.from_bytes(self.take(8), "big", signed=True)

    def value(self):
        tag = self.number(1)
        if tag == 0:
            return None
        if tag == 1:
            number = self.signed()
            if abs(number) > MOST:
                raise Malformed
            return number
        if tag in (2, 3):
            return tag == 3
        length = self.number(4)
        if tag != 4 or length > 65536:
            raise Malformed
        try:
            return self.take(length).decode()
        except UnicodeDecodeError:
            raise Malformed from None

    def version(self):
        """Passes over a new version of a table."""
        if self.number(1) != 10:
            raise Malformed
        self.take(20)
        width = self.number(4)
        self.take(8 * self.number(4))
        for _ in range(self.number(4)):
            self.take(8)
            for _ in range(self.number(4)):
                self.take(8)
                for _ in range(width):
                    self.value()


def order(value):
    """Numbers, then FALSE and TRUE, then texts, then NULL."""
    if value is None:
        return (3,)
    if isinstance(value, bool):
        return (1, value)
    return (0, value) if isinstance(value, int) else (2, value.encode())


def groups_at(held, at):
    """The groups that the change at a place sets, by key, and where it ends; behind it stands the table's state, and nothing else."""
    reader = Reader(held, at)
    if [reader.number(1), reader.number(4), reader.number(4), reader.number(4)] != [12, 2, 1, 2]:
        raise Malformed
    entries = []
    for _ in range(reader.number(4)):
        key, rows = reader.value(), reader.number(8)
        entries.append((key, rows, [(reader.signed(), reader.number(8)) for _ in range(2)]))
    end = reader.at
    keys = [order(key) for key, _, _ in entries]
    # none stands that could be removed
    if keys != sorted(set(keys)) or any(rows == 0 for _, rows, _ in entries):
        raise Malformed
    if reader.number(1) != 9 or len(reader.take(29)) != 29 or reader.at != len(held):
        raise Malformed
    return {order(key): (rows, totals) for key, rows, totals in entries}, end


def shown(key, totals):
    """The row of a group."""
    row = (key, totals[0][1], totals[1][0] if totals[1][1] else None)
    if any(number is not None and abs(number) > MOST for number in row):
        raise OutOfRange
    return row


def moved(group, value):
    """A group behind one row more."""
    rows, (count, total) = group
    counted, added = (count[0], count[1] + 1), (total[0] + value, total[1] + 1)
    if max(rows + 1, counted[1], added[1]) >= 2**64 or not -(2**63) <= added[0] < 2**63:
        raise OutOfMemory
    return [counted, added]


def replies(groups):
    """What is printed where these groups stand."""
    left, comes, goes = list(ROWS), [], []
    for key, value in COME:
        was = groups.get(order(key))
        if was:
            goes.append(shown(key, was[1]))
        comes.append(shown(key, moved(was or (0, [(0, 0), (0, 0)]), value)))
    same = [row for row in comes if row in goes]
    comes, goes = [row for row in comes if row not in same], [row for row in goes if row not in same]
    for row in goes:
        if row not in left:
            raise OutOfMemory
        left.remove(row)
    left = sorted(left + comes, key=lambda row: [order(value) for value in row])
    lines = ["INSERTED 2", f"D REFRESHED 48002 INCREMENTAL +{len(comes)} -{len(goes)}", "K | N | S"]
    lines += [" | ".join("NULL" if value is None else str(value) for value in row) for row in left]
    return "\n".join([*lines, f"({len(left)} rows)", ""])


def wanted(held, at):
    """The status, and what is printed where it is 0."""
    try:
        return 0, replies(groups_at(held, at)[0])
    except Malformed:
        return 7, None
    except OutOfRange:
        return 1, None
    except OutOfMemory:
        return 3, None


def last_record(held):
    """Where the payload of the last record that begins with a version stands, and where it ends."""
    at, found = 7, None
    while held[at] == 1:
        end = at + 9 + int.from_bytes(held[at + 1 : at + 9], "big")
        if held[at + 21] == 10:
            found = at + 21, end
        at = end
    return found


def main():
    counts, bad = collections.Counter(), 0
    with tempfile.TemporaryDirectory() as work:
        db = os.path.join(work, "db")
        ran(db, BEFORE)
        with open(db, "rb") as file:
            whole = file.read()
        start, end = last_record(whole)
        version = Reader(whole[:end], start)
        version.version()
        at = version.at
        for place in range(at, groups_at(whole[:end], at)[1]):
            for turn in TURNS:
                held = bytearray(whole)
                held[place] ^= turn
                with open(db, "wb") as file:
                    file.write(held)
                status, printed = ran(db, BEHIND)
                want, text = wanted(bytes(held[:end]), at)
                counts[status] += 1
                if status != want or text is not None and printed != text:
                    print(f"byte {place - at} turned by {turn:02x}: status {status} and {printed!r}, and not {want} and {text!r}")
                    bad += 1
    told = ", ".join(f"{count} ended with {status}" for status, count in sorted(counts.items()))
    print(f"{sum(counts.values())} damaged files: {told}; {bad} otherwise")
    return 1 if bad else 0


if __name__ == "__main__":
    sys.exit(main())
