"""In which order crates are proved, how far rt is, how long it will still take, and why it refuses a crate.

How long is reckoned from what the last proofs on this machine took, which out/seconds beside the program has, and for a crate that it lacks
from tools/crate_seconds.txt: of each crate the seconds of a processor that its proof takes from nothing, the same over the work that an
earlier proof kept, and the memory in MB. The plan is stretched to the pace that this machine has had so far.
"""
import contextlib
import os
import re

import index

TABLE = f"{index.TOP}/tools/crate_seconds.txt"
# What proofs here took: a line `CRATE first SECONDS` or `CRATE again SECONDS` each.
MEASURED = f"{index.OUT}/seconds"
# What a crate is taken to need that is not in the table yet.
USUAL = (120, 30, 2000)
# MB of disk that a crate's library and kept work take on average, and that a proof over kept work takes until the old library goes; and what is asked
# for a crate in a first run, which leaves statements alone: reckoned from small crates, which take 35, until a whole run is measured.
DISK, DISK_AGAIN, DISK_FIRST = 500, 250, 120
# More jobs than this take a processor for longer than they save of the clock. Each takes about as much memory as the first.
MOST_JOBS = 2
# The part of its seconds that a crate takes with one job, and with two.
PART_BY_JOBS = (1, 0.75)
# So many seconds at the table's own pace count beside the machine's, so that the first steps alone do not decide.
TRUST_IN_TABLE = 300

VERDICT = re.compile(r"^crate (\w+): modules .*\n(?:(?!crate |== ).*\n)*?logic=(proved|not-proved)\b", re.M)
FUNCTION = re.compile(r"^(\w+) (\S+): (?:not proved|no proof).*\n", re.M)
GOAL = re.compile(r"^note: (\S+:\d+:\d+): (.* not proved .*\(`([^`]+)`\).*)$", re.M)
ERROR = re.compile(r"^(?:\./)?(\S+:\d+:\d+: error(?:\[[\w-]+\])?: .*)$", re.M)


def read_table():
    with open(TABLE, encoding="utf-8") as it:
        rows = [line.split() for line in it if line.strip() and not line.startswith("#")]
    return {name: tuple(map(int, figures)) for name, *figures in rows}


def measured():
    """By a crate and `first` or `again` the seconds of a processor that its last proof here took."""
    found = {}
    with contextlib.suppress(OSError, ValueError):
        with open(MEASURED, encoding="utf-8") as it:
            for line in it:
                name, which, seconds = line.split()
                found[name, which] = int(seconds)
    return found


def keep_seconds(name, is_again, seconds):
    """Keeps how long a proof took. It is a figure to reckon with, so a launcher that cannot write it goes on."""
    found = {**measured(), (name, "again" if is_again else "first"): max(round(seconds), 1)}
    with contextlib.suppress(OSError):
        with open(f"{MEASURED}.new", "w", encoding="utf-8") as it:
            it.writelines(f"{crate} {which} {figure}\n" for (crate, which), figure in sorted(found.items()))
        os.replace(f"{MEASURED}.new", MEASURED)


def figures(crates):
    """By its name what each crate is reckoned with: the seconds from nothing and over kept work, and the memory."""
    table, here, found = read_table(), measured(), {}
    for it in crates:
        first, again, memory = table.get(it, USUAL)
        first = here.get((it, "first"), first)
        # Over kept work no crate takes longer than from nothing.
        found[it] = first, min(here.get((it, "again"), again), first), memory
    return found


def disk_needed(crates, with_work, processors, is_first=False):
    """The bytes of disk to have free before these crates are proved, of which those with kept work take less, and all in a first run."""
    if is_first:
        return 1_000_000 * DISK_FIRST * len(crates)
    new = sum(it not in with_work for it in crates)
    return 1_000_000 * (DISK * new + DISK_AGAIN * min(len(crates) - new, processors))


def all_below(crates):
    """By its name all crates that a crate stands on."""
    found = {}

    def below(name):
        if name not in found:
            found[name] = set(crates[name]).union(*map(below, crates[name]))
        return found[name]

    for it in crates:
        below(it)
    return found


def lowest_first(crates):
    below = all_below(crates)
    return sorted(crates, key=lambda it: len(below[it]))


def with_those_above(crates, changed):
    """These crates, and those that stand on them."""
    below = all_below(crates)
    return [it for it in lowest_first(crates) if changed & {it, *below[it]}]


class Plan:
    """In which order crates are proved: each once those below it are, and first the one with the most to be proved above it. Each gets one job,
    since with two it takes half as much again of the processors. Only that for which the clock waits, as nothing that waits or is at work has more
    above it, gets a second one, where a processor and the memory, in MB, would lie idle. `seconds` has what is to be proved, the program too."""

    def __init__(self, crates, seconds, memory, processors, free):
        self.below, self.seconds, self.memory, self.processors, self.free = all_below(crates), seconds, memory, processors, free
        self.chain = {}
        for it in reversed(lowest_first(crates)):
            above = [self.chain[other] for other in self.chain if it in self.below[other]]
            self.chain[it] = seconds.get(it, 0) + max(above, default=0)

    def memory_of(self, name, jobs):
        return self.memory[name] * jobs

    def next(self, waiting, running):
        """The crate to begin now, and its jobs, or None. `running` has the jobs of each crate that rt is at work at."""
        idle = self.processors - sum(running.values())
        ready = [it for it in waiting if not self.below[it] & {*waiting, *running}]
        if idle < 1 or not ready:
            return None
        name, left = max(ready, key=self.chain.get), self.free - sum(self.memory_of(*it) for it in running.items())
        if running and self.memory_of(name, 1) > left:
            return None
        is_waited_for = all(self.chain[it] <= self.chain[name] for it in [*waiting, *running])
        most = max(1, min(MOST_JOBS, idle + 1 - len(ready))) if is_waited_for else 1
        return name, max(it for it in range(1, most + 1) if it == 1 or self.memory_of(name, it) <= left)

    def steps(self, libraries, program):
        """By its name the seconds of each crate, and when it ends: of these libraries, and then of the program."""
        now, waiting, running, steps = 0, list(libraries), {}, {}
        while waiting or running:
            while begun := self.next(waiting, running):
                name, jobs = begun
                waiting.remove(name)
                running[name] = jobs
                steps[name] = (self.seconds[name], now + self.seconds[name] * PART_BY_JOBS[jobs - 1])
            name = min(running, key=lambda it: steps[it][1])
            now = steps[name][1]
            del running[name]
        return {**steps, program: (self.seconds[program], now + self.seconds[program])}


class Progress:
    """Which steps of a plan are done, and how long the others will take."""

    def __init__(self, steps):
        self.steps, self.last, self.done = steps, 0, []
        self.end = max(end for _, end in steps.values())

    def finish(self, name, elapsed):
        self.done.append(name)
        self.last = elapsed

    def follow(self, steps, done):
        """Goes on by another plan, of which these steps are done too."""
        self.steps, self.done = steps, [*self.done, *done]
        self.end = max(end for _, end in steps.values())

    def seconds_left(self, elapsed):
        done = sum(self.steps[it][0] for it in self.done)
        at, until = 0, self.end
        for seconds, end in sorted(self.steps.values(), key=lambda it: it[1]):
            done -= seconds
            if done < 0:
                until = end
                break
            at = end
        pace = (self.last + TRUST_IN_TABLE) / (at + TRUST_IN_TABLE)
        return (self.end - min(at + (elapsed - self.last) / pace, until)) * pace


def in_words(seconds):
    minutes = round(seconds / 60)
    if minutes < 1:
        return "less than a minute"
    return f"about {minutes} min" if minutes < 100 else f"about {minutes // 60} h {minutes % 60} min"


def refusal(said):
    """Of what rt has said: the first crate that is not proved, and why; or None."""
    for found in VERDICT.finditer(said):
        if found[2] == "not-proved":
            begin = max(said.rfind(it, 0, found.start()) for it in ("\n== ", "\nlogic="))
            return found[1], reason(said[begin + 1 : found.end()], found[1])
    return None


def is_proved(name, said):
    return (name, "proved") in VERDICT.findall(said)


def done_by_gate(said):
    """Of what `rt ci` has said so far: the crates that it proved, or took as it had kept them from an earlier run, in their order."""
    return re.findall(r"^rt: (\w+) (?:proved$|is kept: )", said, re.M)


def refusal_by_gate(said):
    """Of what `rt ci` has said: the first crate that it refused, and why; or None."""
    found = re.search(r"^rt: (\w+) NOT PROVED$", said, re.M)
    if not found:
        return None
    begin = said.rfind(f"== {found[1]}\n", 0, found.start())
    return found[1], reason(said[max(begin, 0) : found.start()], found[1])


def was_not_saved(said):
    """Whether rt has noted that it could not save what it proved, as on a full disk: it ends with status 0 all the same, and the library lacks that."""
    return "could not save this run's results" in said


def began_with_work(said):
    """Whether rt began with work that a check in another folder kept."""
    return "begins with what a check kept in" in said


def was_killed(status):
    """Whether a check was killed, as for want of memory: rt ends by the same signal, or with its number as a status below 256."""
    return status in (-9, 247)


def reason(text, crate=None):
    """The first goal that has no proof, with its function and clause; else the first error; else the last line."""
    where, begin = f"crates/{crate}/" if crate else "", 0
    for found in FUNCTION.finditer(text):
        for place, why, goal in GOAL.findall(text, begin, found.start()):
            clause = re.search(r"-clause-([\w-]+)$", goal) or re.search(rf"^note: `{re.escape(goal)}` of .* must prove: record {{(\w+) :", text, re.M)
            return f"{found[1]} {found[2]}{f', clause {clause[1]}' if clause else ''}: {where}{place}: {why}"
        error = ERROR.search(text, begin, found.start())
        if error:
            return f"{found[1]} {found[2]}: {where}{error[1]}"
        begin = found.end()
    error = ERROR.search(text)
    lines = [it for it in text.split("\n") if it.strip()] or ["it said nothing"]
    return f"{'' if error[1].startswith('/') else where}{error[1]}" if error else lines[-1]
