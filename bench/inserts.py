#!/usr/bin/env python3
"""Prints a script: a table of two columns, INSERTs of rows, and one SELECT of them all.

usage: inserts.py COUNT ROWS
"""
import sys

count, rows = int(sys.argv[1]), int(sys.argv[2])
out = sys.stdout
out.write("CREATE TABLE BENCH(K NUMBER, V NUMBER);\n")
x = 1
for _ in range(count):
    parts = []
    for _ in range(rows):
        x = x * 16807 % 2147483647
        key = x % 100
        x = x * 16807 % 2147483647
        parts.append(f"({key},{x % 1000})")
    out.write("INSERT INTO BENCH VALUES " + ",".join(parts) + ";\n")
out.write("SELECT * FROM BENCH;\n")
