#!/usr/bin/env python3
"""Runs the program over hostile files and prints a table of the processor's time and peak memory.

    bench/hostile_files.py PROGRAM [--limit GIGABYTES] [--seconds SECONDS] [NAME..]

Peaks below that of this script, some 12 MB, are not seen. Each set is written to a folder of its own, which is deleted when its
runs have ended. A run that meets the limit of memory has the answer `memory`; one that meets the limit of time is stopped.
"""
import argparse
import os
import resource
import shutil
import signal
import subprocess
import tempfile

HEAD = b"%FSLAX46Y46*%\n%MOMM*%\n%ADD10C,0.65*%\nD10*\n"
LAYER = HEAD + b"X0Y0D03*\nM02*\n"
DRILL_HEAD = b"M48\nMETRIC\nT1C0.4\n%\nT1\n"
DRILL = DRILL_HEAD + b"X0.0Y0.0\nM30\n"
MANIFEST = b"role,name,file\ncopper,top,top.gbr\nplated,pth,pth.drl\n"
CHECK = "check --ring 0.125 --gap 0.25 m.csv"
MEASURE = "measure m.csv"
REPORT = "report --ring 0.125 --gap 0.25 m.csv"
SHOW, REWRITE = "show --kind layer top.gbr", "rewrite --kind layer top.gbr"
SHOW_DRILL, REWRITE_DRILL = "show --kind drill pth.drl", "rewrite --kind drill pth.drl"
DIGITS = "0123456789abcdefghijklmnopqrstuvwxyzABCDEFGHIJKLMNOPQRSTUVWXYZ"


def layer(body, head=HEAD):
    return head + body + b"X0Y0D03*\nM02*\n"


def drill(body):
    return DRILL_HEAD + body + b"M30\n"


def names(count):
    return ["".join(DIGITS[number // 62**place % 62] for place in range(3)) for number in range(count)]


def manifest(records):
    return b"role,name,file\n" + "".join(f"{it}\n" for it in records).encode()


def package(top=LAYER, pth=DRILL, m=MANIFEST, **more):
    return {"m.csv": m, "top.gbr": top, "pth.drl": pth, **more}


def macro(pieces):
    return b"%AMm" + b"*" * pieces + b"%\n"


def sets():
    """Name, what it is, the files, and the words of each run over them."""
    long = b"G04" + b"a" * 1048572 + b"*"
    both, all_of_layer, all_of_drill = (CHECK, SHOW), (CHECK, SHOW, REWRITE), (CHECK, SHOW_DRILL, REWRITE_DRILL)
    yield "long_items", "61 comments of the greatest length", lambda: package(layer(long * 61)), all_of_layer
    yield "longest", "255 comments of the greatest length", lambda: package(layer(long * 255)), all_of_layer
    yield "longest_drill", "255 lines of the greatest length", lambda: package(pth=drill((b";" + b"a" * 1048575 + b"\n") * 255)), all_of_drill
    yield "too_long_written", "a layer whose canonical text is above the limit", lambda: package(layer(long * 252 + b"G04*" * 1000000)), (REWRITE,)
    yield "too_long_written_drill", "a drill file whose canonical text is above the limit", lambda: package(pth=drill((b";" + b"a" * 1048575 + b"\n") * 251 + b"X1.\n" * 1048575).replace(b"\nT1\n", b"\nT1\nX1.Y1.\n", 1)), (REWRITE_DRILL,)
    yield "long_unfinished", "64 MB without the end of an item", lambda: package(HEAD + b"G04" + b"a" * 64000000), (CHECK,)
    yield "macro", "a macro of 1,048,000 empty pieces", lambda: package(layer(macro(1048000))), all_of_layer
    yield "macros", "16 macros of 1,048,000 empty pieces", lambda: package(layer(b"".join(macro(1048000).replace(b"m", b"m%d" % it) for it in range(16)))), all_of_layer
    yield "apertures", "1,000,000 apertures", lambda: package(layer(b"".join(b"%%ADD%dC,0.65*%%\n" % it for it in range(11, 1000011)))), all_of_layer
    yield "flashes", "4,194,304 flashes by one repeat", lambda: package(layer(b"%SRX2048Y2048I0J0*%\n")), all_of_layer
    yield "holes_at_one_place_1000", "1,000 holes at one place", lambda: package(pth=drill(b"X0.0Y0.0\n" * 1000)), (CHECK,)
    yield "holes_at_one_place_4000", "4,000 holes at one place", lambda: package(pth=drill(b"X0.0Y0.0\n" * 4000)), (CHECK,)
    yield "holes_at_one_place", "1,048,576 holes at one place", lambda: package(pth=drill(b"X0.0Y0.0\n" * 1048576)), all_of_drill
    yield "column_5000", "5,000 holes and pads in one column", lambda: column(5000), (CHECK,)
    yield "column_20000", "20,000 holes and pads in one column", lambda: column(20000), (CHECK,)
    yield "records_20000", "20,000 layers of one file", lambda: package(m=manifest([f"copper,{it},L" for it in names(20000)] + ["plated,drill,pth.drl"]), L=LAYER), (CHECK, MEASURE, REPORT)
    yield "records", "80,000 layers of one file", lambda: package(m=manifest([f"copper,{it},L" for it in names(80000)] + ["plated,drill,pth.drl"]), L=LAYER), (CHECK, MEASURE, REPORT)
    yield "one_file_1MB", "60,000 records of one file of 1 MB", lambda: package(m=manifest([f"copper,{it},L" for it in names(60000)] + ["plated,drill,pth.drl"]), L=layer(b"*" * 1000000)), (CHECK,)
    yield "ring_findings", "1,000 layers without pads, 1,000 holes: 1,000,000 findings", lambda: package(pth=drill(b"".join(b"X%d.0Y0.0\n" % it for it in range(1000))), m=manifest([f"copper,{it},L" for it in names(1000)] + ["plated,drill,pth.drl"]), L=b"%FSLAX46Y46*%%MOMM*%M02*"), (CHECK, MEASURE, REPORT)
    yield "gap_findings", "1,415 holes at one place: 1,000,405 findings", lambda: package(pth=drill(b"X0.0Y0.0\n" * 1415)), (CHECK, MEASURE, REPORT)
    yield "modes", "1,000,000 items `G1D2*`", lambda: package(layer(b"G1D2*" * 1000000)), all_of_layer
    yield "empty_comments", "10,000,000 items `G04*`", lambda: package(layer(b"G04*" * 10000000)), all_of_layer
    yield "empty_words", "40,000,000 items `*`", lambda: package(layer(b"*" * 40000000)), all_of_layer
    yield "moves", "10,000,000 items `D02*`", lambda: package(layer(b"D02*" * 10000000)), all_of_layer
    yield "drill_comments", "10,000,000 lines `;`", lambda: package(pth=drill(b";\n" * 10000000)), all_of_drill
    yield "drill_empty_lines", "40,000,000 empty lines", lambda: package(pth=drill(b"\n" * 40000000)), all_of_drill
    yield "drill_picks", "10,000,000 lines `T1`", lambda: package(pth=drill(b"T1\n" * 10000000)), all_of_drill
    yield "line_ends", "64 MB of line ends", lambda: package(layer(b"\n" * 64000000)), both
    yield "functions", "1,000,000 file functions", lambda: package(layer(b"%TF.FileFunction,Copper*%" * 1000000)), all_of_layer


def column(count):
    """Pads and holes 0.4 mm apart."""
    flashes = b"".join(b"X0Y%dD03*\n" % (it * 400000) for it in range(count))
    hits = b"".join(b"X0.0Y%d.%d\n" % (it * 4 // 10, it * 4 % 10) for it in range(count))
    return package(HEAD + flashes + b"M02*\n", drill(hits).replace(b"C0.4", b"C0.1"))


def write(files, folder):
    for it, text in files.items():
        with open(f"{folder}/{it}", "wb") as file:
            file.write(text)
    os._exit(0)


def limited(gigabytes):
    resource.setrlimit(resource.RLIMIT_AS, (gigabytes << 30, gigabytes << 30))


def measured(program, words, folder, gigabytes, seconds):
    """Seconds of a processor, peak memory in MB, the status, and the number of bytes that were printed and the end of them."""
    with open(f"{folder}/printed", "wb") as out:
        ran = subprocess.Popen([program, *words.split()], cwd=folder, stdout=out, stderr=subprocess.DEVNULL, preexec_fn=lambda: limited(gigabytes))
        signal.signal(signal.SIGALRM, lambda *_: ran.kill())
        signal.alarm(seconds)
        _, status, used = os.wait4(ran.pid, 0)
        signal.alarm(0)
    size = os.path.getsize(f"{folder}/printed")
    with open(f"{folder}/printed", "rb") as it:
        it.seek(max(0, size - 60))
        end = it.read().decode(errors="replace").rstrip("\n").split("\n")[-1]
    return used.ru_utime + used.ru_stime, used.ru_maxrss / 1024, os.waitstatus_to_exitcode(status), size, end


def main():
    words = argparse.ArgumentParser(description=__doc__, formatter_class=argparse.RawDescriptionHelpFormatter)
    words.add_argument("program")
    words.add_argument("names", nargs="*")
    words.add_argument("--limit", type=int, default=4)
    words.add_argument("--seconds", type=int, default=60)
    words = words.parse_intermixed_args()
    program = os.path.realpath(words.program)
    print("| Set | Input, MB | Run | Seconds | Peak, MB | Status | Answer, MB | Its last line |\n|---|---|---|---|---|---|---|---|")
    for name, what, files, runs in sets():
        if words.names and name not in words.names:
            continue
        folder = tempfile.mkdtemp(prefix="ringcheck-hostile-")
        # A process of its own makes the files, since the peak of a run counts what its parent had.
        maker = os.fork()
        if not maker:
            write(files(), folder)
        os.waitpid(maker, 0)
        total = sum(os.path.getsize(f"{folder}/{it}") for it in os.listdir(folder))
        for run in runs:
            taken, peak, status, size, end = measured(program, run, folder, words.limit, words.seconds)
            status = "stopped" if status == -signal.SIGKILL else status
            print(f"| {what} | {total / 1e6:.2f} | {run.split()[0]} | {taken:.2f} | {peak:.0f} | {status} | {size / 1e6:.2f} | {end} |", flush=True)
        shutil.rmtree(folder)


if __name__ == "__main__":
    main()
