"""Where checks of a crate run: in a scratch copy of it, over libraries that are proved from the sources as they are.

What a check begins with. Where `rt check` has kept work of a crate in this checkout, ./try_planted begins with that, as `rt must-fail` does,
so only what an edit changed is proved. Else, and with --all and --afresh whatever is kept, it begins with nothing of the crate, and each
further check of the crate begins with what the one before it kept. The libraries below are those that the gate, or else `rt`, has left in
this checkout from its sources as they are. Where it has not, `rt ci` proves them in a scratch copy, or takes them as it keeps them.
"""
import contextlib
import fcntl
import functools
import hashlib
import json
import os
import re
import shutil
import subprocess
import sys
import tempfile
import time

from digests import TOP, Digests, files_of, kit, libraries_below, lines_of_crates, sum_of, sum_of_file, text_of

# Which libraries the gate has left.
LEFT = "out/libraries.json"
# Where `rt check` keeps its work in the folder of a crate.
KEPT = "out/incremental"


class Unknown(Exception):
    """Why nothing is known of the bodies of a check: it was killed, or a library is not proved."""


def run(words, folder):
    how = {"stdin": subprocess.DEVNULL, "stdout": subprocess.PIPE, "stderr": subprocess.STDOUT, "errors": "replace", "check": False}
    return subprocess.run(words, cwd=folder, **how)


def room_of_runs():
    return os.path.join(tempfile.gettempdir(), f"planted-{os.getuid()}-{hashlib.sha256(TOP.encode()).hexdigest()[:12]}")


@contextlib.contextmanager
def alone(name):
    """Held by one run at a time on this machine, for this checkout."""
    os.makedirs(room_of_runs(), exist_ok=True)
    with open(os.path.join(room_of_runs(), f"{name}.lock"), "w", encoding="utf-8") as it:
        fcntl.flock(it, fcntl.LOCK_EX)
        yield


def copy_crates(crates, to, lines):
    """Copies what a check reads of these crates to a folder, with HANDLES and their lines of crates.txt."""
    os.makedirs(to, exist_ok=True)
    if os.path.isfile(os.path.join(TOP, "HANDLES")):
        shutil.copy(os.path.join(TOP, "HANDLES"), to)
    for crate in crates:
        os.makedirs(os.path.join(to, "crates", crate))
        for part in ("src", "specs", "proofs"):
            if os.path.isdir(os.path.join(TOP, "crates", crate, part)):
                shutil.copytree(os.path.join(TOP, "crates", crate, part), os.path.join(to, "crates", crate, part))
    with open(os.path.join(to, "crates.txt"), "w", encoding="utf-8") as it:
        it.writelines(f"{lines[crate]}\n" for crate in crates)


def link_or_copy(one, other):
    """Gives a built file a second name: rt removes such a file before it makes it anew, and never writes into it."""
    try:
        os.link(one, other)
    except OSError:
        shutil.copy2(one, other)


def rlib_in(top, name):
    """Where a library lies, as built, in a checkout or a copy of it."""
    return os.path.join(top, "crates", name, "out/rlib", f"{name}.rlib")


def sum_of_rlib(top, name):
    """A sum of a library as built, or '': its file `format` has a sum of its other files, to which the prover holds them."""
    path = os.path.join(rlib_in(top, name), "format")
    return sum_of(text_of(path)) if os.path.isfile(path) else ""


def touched(crate):
    """What tells whether a file that the crate is proved from was written since, were it only to be put back."""
    folder = os.path.join(TOP, "crates", crate)
    states = ((it, os.stat(os.path.join(folder, it))) for part in ("src", "specs", "proofs") for it in files_of(crate, part, ""))
    return sum_of([(it, of.st_ino, of.st_mtime_ns, of.st_ctime_ns) for it, of in states])


def left_by_the_gate():
    """What was noted of the libraries: those that a gate proved, by what and as what, and the state when the last gate began."""
    path = os.path.join(TOP, LEFT)
    return json.loads(text_of(path)) if os.path.isfile(path) else {"proved": {}, "begun": {}}


def write_left(proved, begun):
    os.makedirs(os.path.join(TOP, "out"), exist_ok=True)
    path = os.path.join(TOP, LEFT)
    with open(f"{path}.new", "w", encoding="utf-8") as it:
        json.dump({"proved": proved, "begun": begun}, it, indent=1)
    os.replace(f"{path}.new", path)


def gate_begins():
    """Notes the sources from which a gate is about to prove, and which libraries lie there."""
    digests = Digests()
    write_left(left_by_the_gate()["proved"], {it: [digests.of_library(it), touched(it), sum_of_rlib(TOP, it)] for it in digests.lines})
    return 0


def gate_passed():
    """Notes which libraries are of the sources as they are: those that the gate that just passed has made. One that lay there before is of
    these sources only if it was noted so: the gate puts back what it found, and proves none from it."""
    digests, before = Digests(), left_by_the_gate()
    proved = {}
    for crate, (read, state, rlib) in before["begun"].items():
        now = [digests.of_library(crate), sum_of_rlib(TOP, crate)] if crate in digests.lines else None
        is_made = now and now[1] not in ("", rlib)
        if now and [now[0], touched(crate)] == [read, state] and (is_made or before["proved"].get(crate) == now):
            proved[crate] = now
    write_left(proved, {})
    print(f"planted: libraries of these sources that the gate has left: {len(proved)}")
    return 0


def are_noted(crates, top):
    """Whether these libraries, as they lie in the checkout or in a copy, were proved by a gate from the sources as they are."""
    proved, digests = left_by_the_gate()["proved"], Digests()
    return all(proved.get(it) == [digests.of_library(it), sum_of_rlib(top, it)] for it in crates)


def are_stamped(crates, top):
    """Whether these libraries have the stamp that rt writes beside one that it builds from the sources as they are."""
    sys.path.insert(0, os.path.join(toolchain(), "bin"))
    try:
        import rtlib  # pylint: disable=import-outside-toplevel

        found = {it.name: it for it in rtlib.crates_below(TOP)}
        for it in found.values():
            # (a stamp is over those of the libraries below)
            it.stamp = functools.lru_cache(maxsize=None)(it.stamp)
        return all(sum_of_rlib(top, it) and text_of(os.path.join(top, "crates", it, "out/rlib/stamp")) == found[it].stamp() for it in crates)
    except (ImportError, AttributeError, KeyError, OSError, SystemExit):
        return False
    finally:
        sys.path.pop(0)


def toolchain():
    return os.path.dirname(os.path.dirname(os.path.realpath(shutil.which("rt"))))


class Libraries:
    """The libraries that some crates stand on, in a folder of their own, where they stay as they are for a run: those that lie in this
    checkout, where they are of its sources as they are, or else those that `rt ci` makes of a copy: it takes what an earlier gate
    proved on this machine, and what it has to prove, the next gate takes."""

    def __init__(self, crates, lines=None):
        self.top, self.lines, self.ran = os.path.join(room_of_runs(), "libraries"), lines or lines_of_crates(), None
        self.crates = [it for it in self.lines if any(it in libraries_below(crate, self.lines) for crate in crates)]

    def __enter__(self):
        started, how = time.time(), "as they lie in this checkout"
        if self.crates and not self.take():
            print(f"planted: rt ci proves {len(self.crates)} libraries, or takes them as it keeps them", flush=True)
            self.clear()
            copy_crates(self.crates, self.top, self.lines)
            self.ran, how = run(["rt", "ci"], self.top), "from rt ci"
        if self.crates:
            print(f"planted: {len(self.crates)} libraries {how}, {time.time() - started:.0f} s", flush=True)
        return self

    def __exit__(self, *_):
        self.clear()

    def clear(self):
        shutil.rmtree(self.top, ignore_errors=True)

    def take(self):
        """Gives the libraries of this checkout second names here, and returns whether they are surely of its sources."""
        for are_sure in (are_noted, are_stamped):
            self.clear()
            if are_sure(self.crates, TOP):
                with contextlib.suppress(OSError, shutil.Error):
                    for it in self.crates:
                        to = os.path.dirname(rlib_in(self.top, it))
                        shutil.copytree(os.path.dirname(rlib_in(TOP, it)), to, copy_function=link_or_copy)
                    # (again, as somebody may have built one meanwhile)
                    if are_sure(self.crates, self.top):
                        return True
        return False

    def rlib(self, name):
        path = rlib_in(self.top, name)
        if not os.path.isdir(path):
            raise Unknown(f"{name} is not proved: {first_errors(self.ran.stdout) if self.ran else 'it is gone'}")
        return path


class Room:
    """A scratch copy of a crate in which checks of it run, over libraries as the gate leaves them: the first with nothing kept of the crate,
    and each further one with what the one before it kept."""

    def __init__(self, crate, libraries, lines=None):
        self.crate, self.libraries, self.lines = crate, libraries, lines or lines_of_crates()
        self.top = os.path.join(room_of_runs(), crate)
        self.folder, self.kept = os.path.join(self.top, "crates", crate), os.path.join(self.top, "kept")
        self.checks, self.said = 0, ""

    def __enter__(self):
        shutil.rmtree(self.top, ignore_errors=True)
        copy_crates([self.crate], self.top, self.lines)
        os.makedirs(self.kept)
        return self

    def __exit__(self, *_):
        shutil.rmtree(self.top, ignore_errors=True)

    def prove(self):
        """Proves the crate as it stands."""
        said = self.check({}, {""}, "as it stands")
        if not is_proved(said):
            raise Unknown(f"{self.crate} is not proved as it stands: {first_errors(said)}")

    def check(self, texts, modules, what):
        """What a check says of the crate with these texts in place of its own, of the functions of these modules and what they call."""
        was = {it: text_of(os.path.join(self.folder, it)) for it in texts}
        self.write(texts)
        only = [word for it in sorted(modules) for word in ("--only", it)] if "" not in modules else []
        started, said = time.time(), run([*self.plain_words(), *only], self.folder).stdout
        self.write(was)
        self.checks += 1
        self.said = f"{self.top}.{self.checks}.said"
        print(f"  {self.crate}, {what}: a check of {time.time() - started:.0f} s: {self.said}", flush=True)
        with open(self.said, "w", encoding="utf-8") as it:
            it.write(said)
        # (a message goes on in lines that begin with blanks)
        return re.sub(r"\n  +", " ", said)

    def write(self, texts):
        for path, text in texts.items():
            os.makedirs(os.path.dirname(os.path.join(self.folder, path)), exist_ok=True)
            with open(os.path.join(self.folder, path), "w", encoding="utf-8") as it:
                it.write(text)

    def plain_words(self):
        """The prover's own command, over the libraries and with what is kept here of the crate."""
        top = toolchain()
        root = next(it for it in ("src/lib.rt", "src/main.rt") if os.path.isfile(os.path.join(self.folder, it)))
        words = [f"{top}/bin/rattle", "check", "--crate-name", self.crate, root, "-L", f"dependency={top}/rlibs"]
        for name in ["std", *self.lines[self.crate].partition(":")[2].split()]:
            words += ["--extern", f"{name}={self.rlib(name) if name in self.lines else f'{top}/rlibs/{name}.rlib'}"]
        for name in libraries_below(self.crate, self.lines):
            words += ["-L", f"dependency={os.path.dirname(self.rlib(name))}"]
        words += ["--antt-project", f"{top}/rattle/logic/antt-project.json", "--logic-built", f"{top}/logic_built"]
        return [*words, "--links", f"{self.crate}=", "--jobs", "1", "--incremental", self.kept]

    def rlib(self, name):
        return self.libraries.rlib(name)


class KeptRoom(Room):
    """A room in which the first check begins with what `rt check` kept in this checkout, over the libraries that it built there."""

    def __init__(self, crate):
        super().__init__(crate, None)

    def prove(self):
        """Proves what changed since: what is proved then stands beside the sources as they are."""
        started, ran = time.time(), run(["rt", "check"], os.path.join(TOP, "crates", self.crate))
        print(f"  {self.crate}, as it stands: rt check, {time.time() - started:.0f} s", flush=True)
        if ran.returncode:
            raise Unknown(f"{self.crate} is not proved as it stands: {first_errors(ran.stdout)}")
        shutil.rmtree(self.kept)
        shutil.copytree(os.path.join(TOP, "crates", self.crate, KEPT), self.kept)

    def rlib(self, name):
        return rlib_in(TOP, name)


def has_kept(crate):
    """Whether `rt check` kept work of a crate in this checkout."""
    folder = os.path.join(TOP, "crates", crate, KEPT)
    return os.path.isdir(folder) and os.listdir(folder) != []


class Modules:
    """The modules in which a check of a crate as it stands keeps what it proved, by their names, which begin with the function's. Over libraries
    that have their proofs, as `rt check` builds them, and over statements alone, as the gate leaves them, they are not the same."""

    def __init__(self, folder, crate):
        self.files = {}
        its_own = re.compile(rf"Rattle[-.]{crate}[-.](?:proofs|specs\.contracts)\.(.+)\.oantt")
        for at, _, names in os.walk(folder):
            for it in filter(None, map(its_own.fullmatch, names)):
                # (of a function that calls itself the last word begins with `+`)
                name = re.sub(r"(^|::)\+", r"\1", it[1].replace(".", "::"))
                self.files.setdefault(name, []).append(os.path.join(at, it[0]))

    def digest(self, trial, digests):
        """The sum of all modules of the functions that a body stands in and of the definitions, or '' where its answer may depend on others."""
        paths, crate = sorted(path for name in trial.own(self.files) for path in self.files[name]), trial.body.crate
        if not trial.is_inside or not any(it.endswith(".Lts.oantt") for it in paths) or not trial.names_its_own(digests.declared(crate)):
            return ""
        modules = [(os.path.basename(it), sum_of_file(it)) for it in paths]
        return sum_of(trial.body.text(), kit(), digests.definitions(crate), modules)[:32]


# What a check said.


def is_proved(said):
    """Whether the prover has proved all of a crate."""
    return re.search(r"^logic=proved ", said, re.M) is not None


def first_errors(said):
    lines = [it for it in said.split("\n") if re.search(r"\berror\b|no verdict", it) and not it.startswith("so far: ")]
    return " | ".join(it[:200] for it in lines[:3]) or said.strip()[-300:]
