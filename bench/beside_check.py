#!/usr/bin/env python3
"""Times `measure`, `report`, `report --format json` and `draw` beside `check` on packages, turn by turn, and prints a table.

    bench/beside_check.py PROGRAM FOLDER..

A folder has a manifest m.csv with its files, and a file `rules` with the words of the ring and the gap. TURNS (5) and LIMIT, the seconds
after which a run is stopped (120), may be set. Seconds are the least of all turns by the clock, in brackets as many times a check's; the
memory is the peak of one run of each. Of a set whose check takes more than a second and a half there are two turns.
"""
import os
import subprocess
import sys
import tempfile
import threading
import time

TURNS, LIMIT = int(os.environ.get("TURNS", "5")), float(os.environ.get("LIMIT", "120"))
SLOW = 1.5


def words_of(rules):
    """The words of each column's run."""
    return {
        "check": ["check", *rules],
        "measure": ["measure"],
        "report": ["report", *rules],
        "as JSON": ["report", *rules, "--format", "json"],
        "draw": ["draw", *rules],
    }


def run(program, words, folder):
    """Seconds, peak memory in MB and status; no seconds where it was stopped."""
    with tempfile.TemporaryFile() as out:
        begun = time.perf_counter()
        child = subprocess.Popen([program, *words, "m.csv"], cwd=folder, stdout=out, stderr=subprocess.DEVNULL)
        killer = threading.Timer(LIMIT, child.kill)
        killer.start()
        _, status, used = os.wait4(child.pid, 0)
        seconds = time.perf_counter() - begun
        killer.cancel()
        child.returncode = os.waitstatus_to_exitcode(status)
        return (seconds if seconds < LIMIT else None), used.ru_maxrss / 1e3, child.returncode


def row(program, folder):
    with open(f"{folder}/rules", encoding="ascii") as it:
        commands = words_of(it.read().split())
    least, peaks = dict.fromkeys(commands), {}
    turns = TURNS
    while turns > 0:
        turns -= 1
        for name, words in commands.items():
            seconds, peaks[name], status = run(program, words, folder)
            if seconds is None or status not in (0, 1):
                sys.exit(f"{folder}: {name}: status {status}, {seconds} seconds")
            least[name] = min(seconds, least[name] or seconds)
        if least["check"] > SLOW:
            turns = min(turns, 1)
    told = [f"{least['check']:.3f}"]
    told += [f"{seconds:.3f} ({seconds / least['check']:.1f})" for name, seconds in least.items() if name != "check"]
    return [os.path.basename(folder), *told, ", ".join(f"{peaks[it]:.0f}" for it in ("check", "report", "draw"))]


def main(words):
    if len(words) < 2:
        sys.exit("beside_check: name the program and folders of packages")
    program = os.path.abspath(words[0])
    print("| Set | check | measure | report | as JSON | draw | MB of check, report, draw |\n|---|---|---|---|---|---|---|", flush=True)
    for folder in words[1:]:
        print(f"| {' | '.join(row(program, os.path.abspath(folder)))} |", flush=True)
    return 0


if __name__ == "__main__":
    sys.exit(main(sys.argv[1:]))
