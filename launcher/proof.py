"""What is proved: the sources, the toolchain and the program as they stand, against what the stamp says of them.

The stamp, out/proved beside the program, is written by build.py. Its lines are `sources`, a digest of all that the program is
proved and built from; `toolchain`, what `rt version` says; and `program`, the SHA-256 of the program. A program counts as proved
only where all three are so. Without a toolchain it does where the other two are.
"""
import contextlib
import hashlib
import os
import re
import signal
import stat
import subprocess
import sys

import index

NAME = "ringcheck_program"
PROGRAM = f"{index.OUT}/{NAME}"
STAMP = f"{index.OUT}/proved"
PARTS = ("src", "specs", "proofs")
# What rt would read in place of crates.txt, were it there.
RIVALS = ("crates.txt", "BUILD.bazel", "MODULE.bazel", ".git")
KIT_LINE = re.compile(r"rattle-kit-\S+ logic [0-9a-f]+")
SECONDS_TO_ANSWER = 10
# After which it is said what is waited for.
SECONDS_OF_SILENCE = 1


class Refused(Exception):
    """Why no program is run."""


def say(text):
    """Says it on standard error, if that is open: for print no file is standard output."""
    with contextlib.suppress(OSError):
        if sys.stderr:
            print(f"ringcheck: {text}", file=sys.stderr, flush=True)


def environment(path):
    """The environment for the toolchain: without its own switches, such as the one that lets unproved C code pass, and without what
    has it, a Python program, take modules or programs from the caller's folder."""
    kept = {name: it for name, it in os.environ.items() if not name.startswith(("RT_", "PYTHON"))}
    return {**kept, "PATH": ":".join(path)}


def lines_of_crates():
    """By the name of each crate its line of crates.txt, or its lines, which rt then refuses."""
    found = {}
    with open("crates.txt", encoding="utf-8") as it:
        for line in it:
            for name in line.partition("#")[0].partition(":")[0].split()[:1]:
                found[name] = found.get(name, "") + line.rstrip("\n") + "\n"
    return found


def crates_needed():
    """By the name of each crate that the program is built from, its own too, those that its line of crates.txt names."""
    with open("crates.txt", encoding="utf-8") as it:
        rows = [line.partition("#")[0].partition(":") for line in it]
    listed = {name.split()[0]: re.split(r"[\s,]+", uses.strip()) for name, _, uses in rows if name.strip()}
    needed, waiting = {}, [NAME]
    while waiting:
        name = waiting.pop()
        if name not in needed:
            if name not in listed:
                raise Refused(f"crates.txt has no line for {name}")
            needed[name] = [it for it in listed[name] if it in listed]
            waiting += needed[name]
    return needed


def state_of_plain(path):
    """The state of a file or a folder. Of anything else, as a pipe or a link, Refused."""
    state = index.state_of(os.lstat(path))
    if not stat.S_ISREG(state[0]) and not stat.S_ISDIR(state[0]):
        what = f"a link to {os.readlink(path)}" if stat.S_ISLNK(state[0]) else "a pipe or a device"
        editor = ", which an editor leaves while a file is open and not saved" if os.path.basename(path).startswith(".#") else ""
        raise Refused(f"nothing was run: {index.TOP}/{path} is {what}{editor}: sources are plain files and folders, so take it away")
    return state


def states_below(path, found):
    """Adds the state of this file or folder, and of all below it."""
    found[path] = state_of_plain(path)
    if stat.S_ISDIR(found[path][0]):
        for it in os.listdir(path):
            states_below(f"{path}/{it}", found)


def states_of_sources(crates):
    """The state of each file and folder that these crates are proved and built from, by its path."""
    found = {"crates": state_of_plain("crates")}
    for folder in ["crates", *(f"crates/{it}" for it in crates)]:
        state_of_plain(folder)
        for it in RIVALS:
            if os.path.lexists(f"{folder}/{it}"):
                raise Refused(f"nothing was run: {index.TOP}/{folder}/{it} says what the crates are, as crates.txt at the top does: take it away")
    for it in ["crates.txt", "HANDLES", *(f"crates/{crate}/{part}" for crate in crates for part in PARTS)]:
        if os.path.lexists(it):
            states_below(it, found)
    return found


def digest_of_file(path):
    with open(path, "rb") as it:
        # It is written back first: of a file that is mapped into memory, what is stored afterwards gives it a new time of change then.
        with contextlib.suppress(OSError):
            os.fsync(it.fileno())
        return hashlib.sha256(it.read()).hexdigest()


def said_in_time(asked, what):
    """What a process says until it ends. TimeoutExpired where that takes too long."""
    try:
        return asked.communicate(timeout=SECONDS_OF_SILENCE)[0]
    except subprocess.TimeoutExpired:
        say(f"waiting for `{what}`, {SECONDS_TO_ANSWER} seconds at most")
        return asked.communicate(timeout=SECONDS_TO_ANSWER - SECONDS_OF_SILENCE)[0]


def answer_of(rt, path):
    """What `rt version` says, or None where it does not answer in time."""
    how = {"stdin": subprocess.DEVNULL, "stdout": subprocess.PIPE, "stderr": subprocess.DEVNULL, "start_new_session": True}
    try:
        with subprocess.Popen([rt, "version"], env=environment(path), **how) as asked:
            try:
                said = said_in_time(asked, f"{rt} version")
                return "" if asked.returncode else said.decode(errors="replace").strip()
            finally:
                if asked.returncode is None:
                    # What it started goes with it, and holds the pipe no longer.
                    os.killpg(asked.pid, signal.SIGKILL)
    except subprocess.TimeoutExpired:
        return None
    except OSError:
        return ""


class Toolchain:
    """The first `rt` of the PATH that says that it is one: its path and its version, or None and None; and why others were passed over.

    `files` has the state of each file that tells whether it is still the same: itself, and the identity of the kit round it. Where
    that is not to be told from files, for a script that calls a kit elsewhere say, it is None.
    """

    def __init__(self, path, kept=None):
        self.all, self.rt, self.version, self.passed_over, self.files = index.toolchains(path), None, None, [], ()
        if kept and index.has_same_toolchain(kept, path):
            (self.rt, self.version), self.files = kept["toolchain"], kept["toolchain_files"]
            return
        for rt in self.all:
            real = os.path.realpath(rt)
            identity = f"{os.path.dirname(os.path.dirname(real))}/KIT-ID"
            # Before it answers, so that one which takes its place meanwhile has other states.
            files = [(it, index.state_at(it)) for it in (rt, real, identity)]
            said = answer_of(rt, path)
            if said and KIT_LINE.fullmatch(said):
                self.rt, self.version = rt, said
                self.files = None if self.passed_over or text_of(identity).strip() != said else files
                return
            why = f"has not answered in {SECONDS_TO_ANSWER} seconds" if said is None else "does not answer with a kit's line"
            self.passed_over.append(f"`{rt} version` {why}")
            self.files = None


def text_of(path):
    try:
        with open(path, encoding="utf-8", errors="replace") as it:
            return it.read()
    except OSError:
        return ""


def stamped():
    """The lines of the stamp, by their first word."""
    return dict(line.partition(" ")[::2] for line in text_of(STAMP).splitlines())


class Look:
    """A look at the sources: the state of each, and one digest over the paths and the bytes of all. It reads what does not have the state that was kept."""

    def __init__(self, path, kept=None):
        self.path, self.before = path, kept or {}
        self.began = index.time_of_files()
        self.crates = crates_needed()
        self.states = states_of_sources(self.crates)
        known = dict(zip(self.before.get("paths", ()), zip(self.before.get("states", ()), self.before.get("digests", ()))))
        self.digests, whole = {}, hashlib.sha256()
        for it, state in sorted(self.states.items()):
            if stat.S_ISDIR(state[0]):
                self.digests[it] = "folder"
            else:
                was = known.get(it, (None, None))
                self.digests[it] = was[1] if was[0] == state else digest_of_file(it)
            whole.update(f"{it}\0{self.digests[it]}\n".encode(errors="surrogateescape"))
        self.sources = whole.hexdigest()

    def proves(self, program):
        """Whether the open program is proved from these sources. If so, that is kept for the next look."""
        stamp = stamped()
        if stamp.get("sources") != self.sources:
            return False
        state, was = index.state_of(os.fstat(program)), self.before.get("program", (None, None))
        digest = was[1] if was[0] == state else hashlib.sha256(os.pread(program, state[2], 0)).hexdigest()
        if stamp.get("program") != digest or not state[0] & 0o111:
            return False
        toolchain = Toolchain(self.path, self.before)
        if "toolchain" not in stamp or toolchain.version not in (None, stamp["toolchain"]):
            return False
        self.keep((self.settled(state), digest), toolchain)
        return True

    def settled(self, state):
        """The state, if it is older than this look: what changes later has another one then."""
        return state if state and self.began and state[4] < self.began else None

    def seen(self):
        """The sources that are there, in the form in which a later look takes them."""
        paths = list(self.states)
        return {"paths": paths, "states": [self.settled(self.states[it]) for it in paths], "digests": [self.digests[it] for it in paths]}

    def keep(self, program, toolchain):
        """Keeps what an answer rests on. A folder's state tells that nothing was added to it that is not a source yet."""
        seen = self.seen()
        for it in [".", STAMP, *(f"crates/{it}" for it in self.crates)]:
            seen["paths"].append(it)
            seen["states"].append(self.settled(index.state_at(it)))
            seen["digests"].append("")
        seen["program"], seen["toolchain"] = program, (toolchain.rt, toolchain.version)
        seen["toolchains"] = None if toolchain.files is None else toolchain.all
        seen["toolchain_files"] = [(it, self.settled(state)) for it, state in toolchain.files or ()]
        index.save(seen)
