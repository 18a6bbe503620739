"""Proves and builds the program, leaves it with its stamp, or neither, and runs it: the second part of ./ringcheck.

    python3 -I -S launcher/build.py WORD..

It says on standard error how far it is. Status 5: nothing is proved, so nothing was run; 128 and a signal's number: the build was
stopped by that signal.
"""
import contextlib
import fcntl
import os
import re
import resource
import shutil
import signal
import subprocess
import sys
import time

OWN = os.path.dirname(os.path.realpath(__file__))
sys.path.insert(0, OWN)
sys.pycache_prefix = f"{OWN}/../../crates/ringcheck_program/out/pycache"
import index
import libraries
import progress
import proof
import rooms

NAME = proof.NAME
CRATE = f"{index.TOP}/crates/{NAME}"
LOG = f"{CRATE}/build.log"
# What the program that lies there was made from.
MADE = f"{index.OUT}/made"
NOT_PROVED = 5
# Seconds after which something is said again.
SILENCE = 45


class Stopped(BaseException):
    """A signal that ends the build."""


def free_memory():
    free = []
    for file, words, unit in (("/proc/meminfo", r"MemAvailable:\s+(\d+)", 1024), ("/sys/fs/cgroup/memory.max", r"(\d+)", 1)):
        with contextlib.suppress(OSError, TypeError):
            with open(file, encoding="utf-8") as it:
                free.append(int(re.search(words, it.read())[1]) * unit)
    return min(free, default=1 << 62)


def lock(paths, who):
    """Waits until nobody else holds these, and returns what holds them until it is closed."""
    held = []
    for path in paths:
        held.append(os.open(path, os.O_RDONLY))
        start = next_word = time.monotonic()
        while True:
            try:
                fcntl.flock(held[-1], fcntl.LOCK_EX | fcntl.LOCK_NB)
                break
            except BlockingIOError:
                if time.monotonic() >= next_word:
                    next_word = time.monotonic() + SILENCE
                    proof.say(f"{int(time.monotonic() - start) // 60} min: {who}: waiting for it")
                time.sleep(0.2)
            except OSError:
                break  # A file system without locks: the stamp still keeps a half-built program from being run.
    return held


class Call:
    """rt at work, and what it has said so far."""

    def __init__(self, build, words, folder, log):
        with open(log, "a", encoding="utf-8") as to:
            how = {"stdin": subprocess.DEVNULL, "stdout": to, "stderr": subprocess.STDOUT, "env": proof.environment(build.path)}
            # Should the launcher be killed, rt holds its lock on.
            self.rt = subprocess.Popen([build.toolchain.rt, *words], cwd=folder, pass_fds=build.held, **how)
            self.read = open(log, encoding="utf-8", errors="replace")
            self.read.seek(to.tell())
        self.said, self.what, self.seconds = "", " ".join(["rt", *words]), 0

    def has_ended(self):
        """Whether rt has ended. What it has said is heard first. `seconds` has those of a processor that it took, with all that it started."""
        before = resource.getrusage(resource.RUSAGE_CHILDREN)
        has_ended = self.rt.poll() is not None
        after = resource.getrusage(resource.RUSAGE_CHILDREN)
        self.seconds += after.ru_utime - before.ru_utime + after.ru_stime - before.ru_stime
        self.said += self.read.read()
        return has_ended

    def end(self):
        """Stops rt if it is still at work."""
        with contextlib.suppress(subprocess.TimeoutExpired):
            self.rt.terminate()
            self.rt.wait(10)
        if self.rt.returncode is None:
            self.rt.kill()
            self.rt.wait()
        self.read.close()


class Build:
    """One build, which leaves a program and a stamp over the sources as they stand, or no such stamp."""

    def __init__(self, toolchain, path, held):
        self.toolchain, self.path, self.held = toolchain, path, held
        self.start = self.told = time.monotonic()
        self.before = proof.Look(path, index.load())
        self.crates, self.below = self.before.crates, progress.all_below(self.before.crates)
        self.forwarded, self.not_saved, self.has_program_proof = set(), set(), False

    def choose(self):
        """Which crates may have to be proved: those that do not stand, and those above them."""
        self.shelf = libraries.Shelf(self.before, self.toolchain.version, self.below)
        fallen = {it for it in self.shelf.names if not self.shelf.stands(it)}
        self.libraries = [it for it in progress.with_those_above(self.crates, fallen) if it != NAME]
        versions = {NAME: libraries.load(MADE).get("toolchain"), **{it: record.get("toolchain") for it, record in self.shelf.records.items()}}
        self.with_work = {it for it in self.crates if os.path.isdir(f"crates/{it}/out/incremental")}
        self.kept = {it for it in self.with_work if versions[it] == self.toolchain.version}
        # Where nothing lies there of any library that this toolchain proved, statements are enough. What is proved later keeps its work, for the next edit.
        tells_stamps = os.path.isfile(f"{os.path.dirname(os.path.realpath(self.toolchain.rt))}/rtlib.py")
        lies_there = lambda it: versions[it] == self.toolchain.version if self.shelf.records[it] else os.path.isdir(f"crates/{it}/out/rlib")
        self.is_first = tells_stamps and not self.with_work - {NAME} and not any(map(lies_there, self.shelf.names))

    def make_plan(self, processors):
        figures = progress.figures(self.crates)
        seconds = {it: figures[it][it in self.kept] for it in [*self.libraries, NAME]}
        memory = {it: figure[2] for it, figure in figures.items()}
        self.largest = max(memory[it] for it in [*self.libraries, NAME])
        self.plan = progress.Plan(self.crates, seconds, memory, processors, free_memory() / 1e6)
        self.progress = progress.Progress(self.plan.steps(self.libraries, NAME))

    def left(self):
        return progress.in_words(self.progress.seconds_left(time.monotonic() - self.start))

    def tell(self, text):
        self.told = time.monotonic()
        proof.say(f"{int(self.told - self.start) // 60} min: {text}")

    def tell_progress(self, running, calls):
        for it in re.findall(r"^rt: (.*waiting for .*)$", "\n".join(call.said for call in calls), re.M):
            if it not in self.forwarded:
                self.forwarded.add(it)
                self.tell(it)
        if time.monotonic() - self.told > SILENCE:
            self.tell(f"{running}, {self.proved()}, {self.left()} left")

    def proved(self):
        count = len(self.crates) - 1 - len(self.libraries) + len(self.progress.done) + self.has_program_proof
        return f"{count} of {len(self.crates)} crates"

    def fail_where_refused(self, said):
        refused = progress.refusal(said)
        if refused:
            raise proof.Refused(f"not proved: crate {refused[0]}: {refused[1]}: the log is {LOG}")

    def refuse(self, call, name=None):
        why = f"crate {name}: {progress.reason(call.said, name)}" if name else progress.reason(call.said)
        raise proof.Refused(f"not proved: {why}: `{call.what}` ended with status {call.rt.returncode}, and the log is {LOG}")

    def prove(self):
        """Proves the libraries side by side, each in a room."""
        waiting, at_work = list(self.libraries), {}
        try:
            while waiting or at_work:
                self.begin_what_is_ready(waiting, at_work)
                time.sleep(0.1)
                for name in list(at_work):
                    self.hear(name, waiting, at_work)
                names = ", ".join(at_work)
                self.tell_progress(f"proving {names}", [call for _, _, _, call in at_work.values()])
        finally:
            for name in list(at_work):
                self.take_away(name, at_work, is_proved=False)

    def prove_first(self):
        """Proves all libraries by `rt ci` in one room, from nothing and keeping nothing. What it proved before it was stopped is left where its crate is."""
        room, proved = rooms.FirstRoom(progress.lowest_first({it: self.crates[it] for it in self.libraries}), self.shelf), []
        stamps = room.stamps(self.toolchain.rt)
        if not stamps:
            self.is_first = False
            return
        if not room.is_faithful():
            raise proof.Refused("a source was changed during the build, so it was broken off: run this again")
        call, has_ended = Call(self, ["ci"], room.top, LOG), False
        try:
            while not has_ended:
                time.sleep(0.1)
                has_ended = call.has_ended()
                for name in progress.done_by_gate(call.said)[len(proved) :]:
                    proved.append(name)
                    self.progress.finish(name, time.monotonic() - self.start)
                    self.tell(f"proved {name}: {self.proved()}, {self.left()} left")
                self.fail_where_gate_refused(call.said)
                self.tell_progress("proving libraries", [call])
            if call.rt.returncode:
                self.refuse(call)
        finally:
            call.has_ended()
            call.end()
            taken = room.leave(progress.done_by_gate(call.said), stamps)
        lacking = [it for it in self.libraries if it not in taken]
        if lacking:
            raise proof.Refused(f"not proved: rt ended with status 0 and left no library of {lacking[0]}: the log is {LOG}")

    def fail_where_gate_refused(self, said):
        refused = progress.refusal_by_gate(said)
        if refused:
            raise proof.Refused(f"not proved: crate {refused[0]}: {refused[1]}: the log is {LOG}")

    def enter(self, kind, name):
        """A room for a crate, with its sources as they were when the build began."""
        room = kind(name, self.shelf, self.below[name])
        if not room.is_faithful():
            raise proof.Refused(f"a source of {name} was changed during the build, so it was broken off: run this again")
        room.take_in()
        return room

    def begin_what_is_ready(self, waiting, at_work):
        while begun := self.plan.next(waiting, {it: jobs for it, (jobs, _, _, _) in at_work.items()}):
            name, jobs = begun
            waiting.remove(name)
            room = self.enter(rooms.Room, name)
            has_others_beside = self.plan.processors > 1
            at_work[name] = jobs, has_others_beside, room, Call(self, ["lib", "--jobs", str(jobs)], room.folder, f"{room.top}/log")

    def take_away(self, name, at_work, is_proved):
        """Ends what is at work at a crate, puts what it left where the crate is, and what it said into the log. Returns whether the rlib is as it was."""
        _, _, room, call = at_work.pop(name)
        call.has_ended()
        call.end()
        with open(LOG, "a", encoding="utf-8") as log:
            log.write(f"== {name}\n{call.said}")
        return room.leave(is_proved)

    def hear(self, name, waiting, at_work):
        _, has_others_beside, room, call = at_work[name]
        has_ended = call.has_ended()
        self.fail_where_refused(call.said)
        if not has_ended:
            return
        status, is_saved = call.rt.returncode, not progress.was_not_saved(call.said)
        if not status:
            self.fail_where_built_anew(room)
            self.fail_where_nothing_is_left(room, f"{room.folder}/out/rlib/{libraries.STAMP}", "library")
        is_same = self.take_away(name, at_work, is_proved=not status and is_saved)
        if not status and is_saved:
            self.finish(name, call, is_same)
            self.pass_over_what_stands(waiting, at_work)
        elif not status:
            self.fail_where_not_saved_again(name)
            waiting.append(name)
        elif progress.was_killed(status) and has_others_beside:
            waiting.append(name)
            self.plan.processors = 1
            self.tell(f"the check of {name} was killed, most likely for memory: from now on one at a time")
        else:
            self.refuse(call, name)

    def finish(self, name, call, is_same):
        self.progress.finish(name, time.monotonic() - self.start)
        self.measure(name, call)
        how = ", whose library is as it was" if is_same else ""
        self.tell(f"proved {name}{how}: {self.proved()}, {self.left()} left")

    def measure(self, name, call):
        """Keeps how long a crate took, if it was checked at all: rt may have found its library built."""
        if progress.is_proved(name, call.said):
            progress.keep_seconds(name, name in self.kept or progress.began_with_work(call.said), call.seconds)

    def pass_over_what_stands(self, waiting, at_work):
        """Takes out of those that wait the crates that stand as they are, since each library below them came out the same."""
        standing = []
        while more := [it for it in waiting if not self.below[it] & {*waiting, *at_work} and self.shelf.stands(it)]:
            for it in more:
                waiting.remove(it)
                self.plan.seconds[it] = 0
            standing += more
        if standing:
            self.progress.follow(self.plan.steps(self.libraries, NAME), standing)
            names = ", ".join(standing) if len(standing) < 9 else f"{len(standing)} crates"
            self.tell(f"no new proof needed of {names}: {self.proved()}, {self.left()} left")

    def fail_where_built_anew(self, room):
        """rt goes by the sources and the stamp that it is shown. Had it built one of those libraries again, that would be another than the one here."""
        anew = room.built_anew()
        for it in anew:
            self.shelf.take_away(it)
        if anew:
            raise proof.Refused(f"rt did not take {', '.join(anew)} as it was left, so each is to be proved again: run this again")

    def fail_where_nothing_is_left(self, room, path, what):
        if not os.path.isfile(path):
            raise proof.Refused(f"not proved: rt ended with status 0 and left no {what} of {room.name}: the log is {LOG}")

    def fail_where_not_saved_again(self, name):
        """A library lacks what rt could not save, and each crate above would be made to prove that."""
        free = f"{shutil.disk_usage(index.OUT).free / 1e9:.1f} GB of disk are free"
        if name in self.not_saved:
            raise proof.Refused(f"not proved: rt proved {name} and could not save its results, twice: {free}, and the log is {LOG}")
        self.not_saved.add(name)
        self.tell(f"rt could not save its results for {name}, most likely for want of disk: {free}; proving it again")

    def make_ready(self):
        try:
            os.makedirs(index.OUT, exist_ok=True)
            open(LOG, "w", encoding="utf-8").close()
        except OSError as error:
            raise proof.Refused(f"no program is proved from these sources, and none can be built, as {error.filename} cannot be written ({error.strerror})")

    def begin(self):
        """Says what is to be done, unless there is no room for it."""
        needed = progress.disk_needed([*self.libraries, NAME], self.with_work, self.plan.processors, self.is_first)
        free = shutil.disk_usage(index.OUT).free
        if free < needed:
            raise proof.Refused(
                f"no program is proved from these sources, and nothing was begun: the proof takes {needed / 1e9:.1f} GB of disk, and {free / 1e9:.1f} GB are free below {index.TOP}"
            )
        left = f"{self.left()} left"
        if self.kept:
            names = [*self.libraries, NAME]
            more = " and, if that gives another library, what stands on it" if self.libraries else ""
            what, left = f"proving again what changed{more}: {', '.join(names) if len(names) < 9 else f'{len(names)} crates'}", f"{left} at most"
        else:
            what = f"proving the {len(self.crates)} crates that it needs, on {self.plan.processors} processors"
        if self.largest * 1e6 > free_memory():
            proof.say(f"a step of the proof takes {self.largest / 1000:.1f} GB of memory, and {free_memory() / 1e9:.1f} GB are free: it may be killed")
        self.tell(f"no program is proved from these sources: {what}, {left}; the log is {LOG}")

    def run(self):
        self.make_ready()
        others = lock((f"crates/{it}" for it in self.crates), "another rt is at work here")
        rooms.remove_all()
        self.choose()
        self.make_plan(len(os.sched_getaffinity(0)))
        if self.libraries or not self.digest_of_what_is_made():
            self.begin()
        try:
            if self.is_first:
                self.prove_first()
            if not self.is_first:
                self.prove()
            digest = self.digest_of_what_is_made()
            if not digest:
                if self.libraries:
                    self.tell(f"proving {NAME}, compiling and linking, {self.left()} left")
                self.prove_and_link()
        finally:
            rooms.remove_all()
            self.shelf.settle()
            for it in others:
                os.close(it)
        self.stamp(digest or proof.digest_of_file(proof.PROGRAM))
        self.tell("proved: the program is the one that was there" if digest else "proved and built")

    def made(self, digest):
        """What a program is made from: its own sources, as they stand, and the rlibs that lie there. Nothing else is read where it is built."""
        own = self.shelf.sources(NAME), self.before.digests.get("HANDLES")
        return {"toolchain": self.toolchain.version, "sources": own, "below": self.shelf.identities_below(NAME), "program": digest}

    def digest_of_what_is_made(self):
        """The digest of the program that lies there, if it was made from what is there now, and is still what a stamp says of it; or None."""
        made, stamp = libraries.load(MADE), proof.stamped()
        with contextlib.suppress(OSError):
            digest, is_program = proof.digest_of_file(proof.PROGRAM), os.stat(proof.PROGRAM).st_mode & 0o111
            is_same = {**made, **self.made(digest)} == made
            if is_same and is_program and (stamp.get("program"), stamp.get("toolchain")) == (digest, self.toolchain.version):
                return digest
        return None

    def prove_and_link(self):
        """rt runs the program once it is linked: its status is 0 only where all is proved and the program answers."""
        room, is_proved = self.enter(rooms.ProgramRoom, NAME), False
        try:
            for it in (proof.STAMP, proof.PROGRAM, MADE):
                with contextlib.suppress(FileNotFoundError):
                    os.remove(it)
            call = self.call_until_linked(room)
            if call.rt.returncode:
                self.refuse(call)
            self.fail_where_built_anew(room)
            self.fail_where_nothing_is_left(room, f"{room.top}/{proof.PROGRAM}", "program")
            is_proved = True
        finally:
            room.leave(is_proved)
        self.measure(NAME, call)
        if progress.was_not_saved(call.said):
            self.tell(f"rt could not save its results for {NAME}, most likely for want of disk: the program is proved, and the next proof of it takes longer")
        libraries.save(MADE, self.made(proof.digest_of_file(proof.PROGRAM)))

    def call_until_linked(self, room):
        call, has_ended = Call(self, ["run", "--", "--help"], room.folder, LOG), False
        try:
            while not has_ended:
                time.sleep(0.05)
                has_ended = call.has_ended()
                self.fail_where_refused(call.said)
                if not self.has_program_proof and progress.is_proved(NAME, call.said):
                    self.has_program_proof = True
                    self.tell(f"proved {NAME}: {self.proved()}, compiling and linking, {self.left()} left")
                self.tell_progress("compiling and linking" if self.has_program_proof else f"proving {NAME}", [call])
        finally:
            call.end()
        return call

    def stamp(self, digest):
        """Writes the stamp of the program with this digest, unless a source was changed since the build began, were it only to be put back since:
        its state tells. Each library is held to its record and to the sources once more."""
        after, toolchain = proof.Look(self.path, self.before.seen()), proof.Toolchain(self.path)
        changed = [it for it in {**self.before.states, **after.states} if self.before.states.get(it) != after.states.get(it)]
        if changed or after.sources != self.before.sources or (toolchain.rt, toolchain.version) != (self.toolchain.rt, self.toolchain.version):
            os.remove(proof.PROGRAM)
            what = min(changed) if changed else "a source" if after.sources != self.before.sources else "the toolchain"
            raise proof.Refused(f"{what} was changed during the build, so what it built was thrown away: run this again")
        shelf = libraries.Shelf(after, toolchain.version, self.below)
        fallen = [it for it in shelf.names if not shelf.stands(it)]
        if fallen:
            os.remove(proof.PROGRAM)
            raise proof.Refused(f"the library of {fallen[0]} was changed during the build, so what it built was thrown away: run this again")
        with open(f"{proof.STAMP}.new", "w", encoding="utf-8") as it:
            it.write(f"sources {after.sources}\ntoolchain {toolchain.version}\nprogram {digest}\n")
        os.replace(f"{proof.STAMP}.new", proof.STAMP)
        # The look that follows keeps the state of what is older than itself.
        time.sleep(0.02)


def open_if_proved(path):
    try:
        program = os.open(proof.PROGRAM, os.O_RDONLY)
    except OSError:
        return None
    if proof.Look(path, index.load()).proves(program):
        return program
    os.close(program)
    return None


def bring_up_to_date(path):
    """Returns the program, open and proved."""
    program = open_if_proved(path)
    if program is not None:
        return program
    toolchain = proof.Toolchain(path)
    if not toolchain.version:
        why = f" ({'; '.join(toolchain.passed_over)})" if toolchain.passed_over else ""
        raise proof.Refused(
            "no program is proved from these sources, and none can be built: there is no toolchain `rt` that answers `rt version` "
            f"in the PATH, apart from empty and relative entries of it and from this folder and what lies below{why}"
        )
    held = lock(["crates"], "another ringcheck is proving and building here")
    program = open_if_proved(path)
    if program is None:
        Build(toolchain, path, held).run()
        program = open_if_proved(path)
    if program is None:
        raise proof.Refused("sources or the program changed since the build: run this again")
    for it in held:
        os.close(it)
    return program


def run(program, words):
    """Runs what is open, whatever lies at its path by now."""
    # An interpreter, as of a script, opens it once more.
    os.set_inheritable(program, True)
    # Python ignores these two, and the program would inherit that.
    signal.signal(signal.SIGPIPE, signal.SIG_DFL)
    signal.signal(signal.SIGXFSZ, signal.SIG_DFL)
    os.execve(program, [f"{index.TOP}/{proof.PROGRAM}", *words], os.environ)


def stop(signal_number, _):
    raise Stopped(signal_number)


def main(words):
    for it in (signal.SIGINT, signal.SIGTERM, signal.SIGHUP):
        if signal.getsignal(it) != signal.SIG_IGN:
            signal.signal(it, stop)
    try:
        path, here = index.folders_of_path(), os.open(".", os.O_PATH)
        os.chdir(index.TOP)
        program = bring_up_to_date(path)
        os.fchdir(here)
        run(program, words)
    except Stopped as stopped:
        proof.say("stopped: nothing was run")
        return 128 + stopped.args[0]
    except proof.Refused as why:
        proof.say(why)
    # Python's own status for an error is 1, which would read as findings.
    except Exception as error:
        proof.say(f"nothing was run: {type(error).__name__}: {error}")
    return NOT_PROVED


if __name__ == "__main__":
    sys.exit(main(sys.argv[1:]))
