"""Answers by its status whether the program that is open as descriptor 9 is proved from the sources as they stand.

    python3 -I -S launcher/is_proved.py 9<PROGRAM

70: it is. 71: it is not, so build.py is to prove and build it. 5: no program can be, for a reason that is said on standard error.
"""
import gc
import os
import sys

IS_PROVED, IS_TO_BE_BUILT, NOT_PROVED = 70, 71, 5


def main():
    if sys.version_info < (3, 8):
        return 1
    # Thousands of states are made and none is dropped: a look for what could be freed would take a third of the time.
    gc.disable()
    # -I leaves even the script's own folder out.
    own = os.path.dirname(os.path.realpath(__file__))
    sys.path.insert(0, own)
    sys.pycache_prefix = own + "/../../crates/ringcheck_program/out/pycache"
    import index

    path = index.folders_of_path()
    os.chdir(index.TOP)
    kept = index.load()
    # Where nothing was touched, nothing more is imported: that takes ten times as long as the look.
    if kept and index.is_as_it_was(kept, 9, path):
        return IS_PROVED
    import proof

    try:
        return IS_PROVED if proof.Look(path, kept).proves(9) else IS_TO_BE_BUILT
    except proof.Refused as why:
        proof.say(why)
    except Exception as error:
        proof.say("nothing was run: %s: %s" % (type(error).__name__, error))
    return NOT_PROVED


if __name__ == "__main__":
    try:
        status = main()
    except KeyboardInterrupt:
        status = 130
    # Faster than sys.exit, which takes the interpreter down part by part.
    os._exit(status)
