#!/usr/bin/env python3
"""Writes a drill file of so many hits, as `X12.3456Y-7.89`, with eight tools: make_drill.py HITS FILE."""
import random
import sys


def coordinate(rng):
    """A decimal between -200 and 200 with one to four decimals."""
    decimals = rng.choice([4, 4, 4, 3, 2, 1])
    number = rng.randint(-200 * 10**decimals, 200 * 10**decimals)
    whole, part = divmod(abs(number), 10**decimals)
    return f"{'-' if number < 0 else ''}{whole}.{part:0{decimals}}"


def main():
    hits, name = int(sys.argv[1]), sys.argv[2]
    rng = random.Random(1)
    lines = ["M48", "METRIC"] + [f"T{k}C0.{k + 1}" for k in range(1, 9)] + ["%"]
    for k in range(hits):
        if k % max(1, hits // 8) == 0:
            lines.append(f"T{min(8, k // max(1, hits // 8) + 1)}")
        lines.append(f"X{coordinate(rng)}Y{coordinate(rng)}")
    lines.append("M30")
    with open(name, "w", encoding="ascii") as file:
        file.write("\n".join(lines) + "\n")


main()
