"""Prints the stamps by which rt knows the libraries in a folder as built from their sources, as rt's own module reckons them: a line each.

    python3 -I -S launcher/stamps.py KIT FOLDER

rt writes a stamp beside a library that it builds with kept work. `rt ci`, which leaves a library's statements alone, writes none.
"""
import functools
import sys


def main(kit, folder):
    sys.dont_write_bytecode = True
    sys.path.insert(0, f"{kit}/bin")
    import rtlib

    crates = rtlib.crates_below(folder)
    for it in crates:
        # (a stamp is over those of the libraries below)
        it.stamp = functools.lru_cache(maxsize=None)(it.stamp)
    for it in crates:
        print(it.name, it.stamp())


if __name__ == "__main__":
    main(*sys.argv[1:])
