#!/usr/bin/env python3
"""Prints a script of INSERTs of numbers into a table that isn't there: each is read whole, and refused.

usage: texts.py COUNT BYTES      each INSERT has at most BYTES bytes, and no row more would fit
"""
import sys

count, most = int(sys.argv[1]), int(sys.argv[2])
text = "INSERT INTO GONE VALUES (1,-23)"
rows, x = [text], 1
size = len(text)
while True:
    x = x * 16807 % 2147483647
    row = f",({x % 1000},-{x % 97})"
    if size + len(row) > most:
        break
    rows.append(row)
    size += len(row)
text = "".join(rows) + ";\n"
for _ in range(count):
    sys.stdout.write(text)
