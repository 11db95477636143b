#!/usr/bin/env python3
"""Writes a script of `vrepl step` over a feed of N groups of one row each to standard output.

usage: bench/feed/make_feed.py N > /tmp/feed
       bench/step/make_script.py N [DUMPS] > /tmp/script

The table is copied while it is empty, and then each group is offered and applied: N offers and N
advances. With DUMPS, that many dumps stand behind them.
"""
import sys


def main():
    groups = int(sys.argv[1])
    dumps = int(sys.argv[2]) if len(sys.argv) > 2 else 0
    lines = ["open 0 0\n", "copy 0 1\n"]
    for k in range(1, groups + 1):
        lines += [f"offer 0 {k}\n", "advance 0\n"]
    sys.stdout.write("".join(lines) + "dump\n" * dumps)


if __name__ == "__main__":
    if not sys.argv[1:] or sys.argv[1] == "--help":
        sys.exit(__doc__)
    main()
