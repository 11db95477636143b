#!/usr/bin/env python3
"""Writes a dump of N rows of the table t, of id (INT64) and v (VARCHAR), to standard output.

usage: bench/vdiff/make_dump.py N [OTHER] > DUMP

The rows are (1, 'value of row 1') to (N, ..). With OTHER that row, by its number, has another value.
"""
import sys


def main(count, other=0):
    out = sys.stdout
    out.write("table t\n")
    for n in range(1, count + 1):
        value = "another" if n == other else f"value of row {n}"
        out.write(f"x{str(n).encode().hex()}\tx{value.encode().hex()}\n")


if __name__ == "__main__":
    if not 2 <= len(sys.argv) <= 3 or sys.argv[1] == "--help":
        sys.exit(__doc__)
    main(*map(int, sys.argv[1:]))
