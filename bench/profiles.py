#!/usr/bin/env python3
"""Times a check in both profiles on packages that are read in both, and prints a row for each.

    bench/profiles.py [--runs N] PROGRAM FOLDER ..

A folder has a manifest, `m.csv` or `manifest.csv`, and where its rules are not `--ring 0.125 --gap 0.25` a file `rules` with them.
The two profiles take turns, and the least processor time of each counts (5 runs, or N).
"""
import argparse
import os
import resource
import subprocess
import sys


def words_of(folder):
    """The words of a check of the package in a folder, but for its profile."""
    manifest = next(it for it in ("m.csv", "manifest.csv") if os.path.isfile(os.path.join(folder, it)))
    rules = os.path.join(folder, "rules")
    if not os.path.isfile(rules):
        return ["--ring", "0.125", "--gap", "0.25", manifest]
    with open(rules, encoding="utf-8") as it:
        return [*it.read().split(), manifest]


def measured(program, profile, folder):
    """The processor seconds of a check."""
    before = resource.getrusage(resource.RUSAGE_CHILDREN)
    ran = subprocess.run([program, "check", "--profile", profile, *words_of(folder)], cwd=folder, stdout=subprocess.DEVNULL, check=False)
    if ran.returncode not in (0, 1):
        sys.exit(f"{folder}: a check in the profile {profile} ends with status {ran.returncode}")
    after = resource.getrusage(resource.RUSAGE_CHILDREN)
    return after.ru_utime + after.ru_stime - before.ru_utime - before.ru_stime


def main():
    parser = argparse.ArgumentParser(prog="bench/profiles.py")
    parser.add_argument("--runs", type=int, default=5)
    parser.add_argument("program")
    parser.add_argument("folders", nargs="+")
    asked = parser.parse_args()
    program = os.path.realpath(asked.program)
    print("| Package | strict, ms | wide, ms | wide to strict |\n|---|---|---|---|")
    for folder in asked.folders:
        least = {"strict": float("inf"), "wide": float("inf")}
        for _ in range(asked.runs):
            for profile in least:
                least[profile] = min(least[profile], measured(program, profile, folder))
        strict, wide = (1000 * it for it in least.values())
        print(f"| {os.path.basename(os.path.normpath(folder))} | {strict:.1f} | {wide:.1f} | {wide / strict:.2f} |", flush=True)


if __name__ == "__main__":
    main()
