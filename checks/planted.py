#!/usr/bin/env python3
"""Holds the wrong bodies to the prover: each turns the meaning of a function, and the prover must refuse it by a goal of that function.

    ./try_planted [--all] [--jobs N] [CRATE..]      tries the bodies that are not remembered as refused; with --all it forgets first
    checks/planted                           looks whether the bodies are well formed and apply; it tries nothing
    checks/planted --afresh [CRATE..]        tries some bodies from nothing: those that the commit's hash picks
    checks/planted --gate-begins             notes right before a gate, and with --gate-passed right after one that passed,
    checks/planted --gate-passed             which libraries that gate has left

Status 0 of ./try_planted: every body of the repository is remembered as refused, also those of crates that it was not asked for. Status 0 of
check_planted: there is nothing to fix; with --afresh: each body that was tried is refused. Else 1, and 2 for words that are not understood.

The bodies of a crate stand in planted/CRATE.txt, each after a line `body: NAME` (those that `rt ci` tries too are files of their own,
crates/CRATE/must-fail/NAME.edit): lines `file: src/X.rt`, then pairs `old: TEXT` and `new: TEXT`, each TEXT one line that stands just once in
that file. A line `# SENTENCE` says what the body turns; `# caller: PATH` names the function that must be refused where the text is in no
function, or in a contract that another one needs.

What counts as refused. The prover prints of each function whether it is proved, and if not which of its goals it did not prove. A body
is refused only by an unproved goal of the function that it edits (or of its caller): not by a function that "calls .., which is not
proved", not by a proof file that names what the edit took away, and not by a text that does not compile. Where a body changes a definition
of `specs` that a law states, a refused lemma that the law's proof cites counts too.

So one check tries many bodies at once: those that change the inside of functions, each of another one. The proof of a function rests on its
own body and on the contracts of what it calls, which such bodies leave as they are, so none of them changes what is said of another. A body
that changes anything else (a constant, a contract, a definition) is tried alone. Where a check does not compile, its bodies are tried by
halves. What a check begins with, and over which libraries it runs, tools/trial_rooms.py says.

What is remembered, in out/planted.csv: of each body that was refused the function and its goal that failed, and two digests of what the
answer depends on, with the kit in both. Where one of them is as it was, the body is not tried again.

The digest `read` is made from texts: tools/digests.py says from which. It goes by names, so it counts too much rather than too little.

The digest `proof` is made from the modules in which the prover keeps what it made of the function as it stands: its code, contract, goals
and proof, with sums of what they import, as the contracts of what it calls. They come out the same, byte for byte, unless something changes
that the proof reads. A proof may read of a definition its name alone, where the wrong body needs what it says, so the definitions that the
crate has or reads count too. Where `read` is old, the crate is proved as it stands, unless it is already, and only those bodies are tried
whose `proof` is old too. A body has that digest only where it changes the inside of functions, prints no value by a place in a text, and
names nothing of the repository but what the function names anyway.

What this cannot see: a line of out/planted.csv that was written by hand; and a body that calls, by a name that its function has too, a
method of another type, whose contract has changed. `--afresh`, after the gate, tries some bodies of three crates from nothing and finds such
a one by chance; `./try_planted --all` finds it for certain.
"""
import argparse
import concurrent.futures
import csv
import glob
import os
import re
import subprocess
import sys
import time

sys.dont_write_bytecode = True
sys.path.insert(0, f"{os.path.dirname(os.path.dirname(os.path.realpath(__file__)))}/tools")
import sources  # noqa: E402
from digests import TOP, Digests, calls_in, lines_of_crates, source_files, sum_of, text_of  # noqa: E402
from trial_rooms import KeptRoom, Libraries, Modules, Room, Unknown, alone, first_errors, gate_begins, gate_passed, has_kept  # noqa: E402

# What was refused.
REMEMBERED = "out/planted.csv"
# What no clause holds, and what does.
UNHELD = "planted/UNHELD.csv"
COLUMNS = ["crate", "body", "function", "goal", "read", "proof"]
# What a proof file says that names what the edit took away, or that cites such a proof.
NAMES_ALONE = re.compile(r"has no field|is not in scope|has no `|was not admitted|is no name|: module `")
REFUSED, MISSED, BAD, UNKNOWN = "refused", "not refused", "BAD", "not tried"
# Of how many crates, and at most how many bodies of each, a run tries from nothing, and how many crates at a time.
AFRESH_CRATES, AFRESH_BODIES, AFRESH_JOBS = 3, 8, 2
# How often those of which a check names no goal are tried again together.
ROUNDS = 3
# The most bodies in must-fail/, and the crates that have some: the gate proves such a crate once more, and checks it for each body.
GATE_BODIES, GATE_CRATES = 7, {"pad_shapes", "ring_rules"}


class BadEdit(Exception):
    """An edit that cannot be tried, and why."""


class Body:
    """A wrong body: its crate, its name, what it turns, who must be refused, and its changes as (file, old, new)."""

    def __init__(self, path, name, text):
        self.path, self.name = f"{path}: {name}", name
        self.crate = re.sub(r"\.txt$", "", path.split("/")[1])
        self.turns, self.callers, self.changes, file, old = "", [], [], "", None
        for line in text.split("\n"):
            key, _, rest = line.partition(" ")
            if line.startswith("# caller: "):
                self.callers.append(line[len("# caller: ") :].strip())
            elif key == "#":
                self.turns = f"{self.turns} {rest.strip()}".strip()
            elif key == "file:":
                file = rest.strip()
            elif key == "old:":
                old = rest
            elif key == "new:" and file and old:
                self.changes.append((file, old, rest))
                old = None

    def key(self):
        return self.crate, self.name

    def text(self):
        """What of the edit an answer depends on."""
        return repr((self.crate, self.changes, self.callers))


def bodies_of(crate=None):
    """The wrong bodies of a crate or of all, in order."""
    bodies = []
    for path in glob.glob(os.path.join(TOP, f"planted/{crate or '*'}.txt")):
        _, *blocks = re.split(r"^body: ", text_of(path), flags=re.M)
        bodies += [Body(os.path.relpath(path, TOP), *block.split("\n", 1)) for block in blocks]
    for path in glob.glob(os.path.join(TOP, f"crates/{crate or '*'}/must-fail/*.edit")):
        bodies.append(Body(os.path.relpath(path, TOP), os.path.basename(path)[: -len(".edit")], text_of(path)))
    return sorted(bodies, key=Body.key)


# What was refused.


class Memory:
    """The bodies that were refused, by crate and name, each with its function, its goal and its digests."""

    def __init__(self):
        self.path, self.digests = os.path.join(TOP, REMEMBERED), Digests()
        self.rows = self.read()

    def read(self):
        if not os.path.isfile(self.path):
            return {}
        with open(self.path, encoding="utf-8", newline="") as it:
            rows = csv.DictReader(it)
            return {(row["crate"], row["body"]): row for row in rows} if rows.fieldnames == COLUMNS else {}

    def has(self, body):
        return body.key() in self.rows and self.rows[body.key()]["read"] == self.digests.of(body)

    def has_proof(self, body, digest):
        return digest != "" and body.key() in self.rows and self.rows[body.key()]["proof"] == digest

    def forget(self, keys):
        self.put({}, keys)

    def put(self, rows, gone=()):
        """Adds these rows, takes those of `gone` out, and those whose body is no longer there."""
        with alone("memory"):
            found, there = {**self.read(), **rows}, {it.key() for it in bodies_of()}
            self.rows = {key: row for key, row in sorted(found.items()) if key in there and (key in rows or key not in gone)}
            os.makedirs(os.path.dirname(self.path), exist_ok=True)
            with open(f"{self.path}.new", "w", encoding="utf-8", newline="") as it:
                writer = csv.DictWriter(it, COLUMNS, lineterminator="\n")
                writer.writeheader()
                writer.writerows(self.rows.values())
            os.replace(f"{self.path}.new", self.path)


# What an edit changes.


def changed_texts(bodies):
    """The texts of the files that the bodies of one crate change, by path, and for each body the functions that it stands in (None: in none)."""
    texts, places = {}, {}
    for body in bodies:
        if not body.changes:
            raise BadEdit(f"{body.path} has no pair of lines 'old: ' and 'new: '")
        for path, old, new in body.changes:
            file = os.path.join(TOP, "crates", body.crate, path)
            if path not in texts and not os.path.isfile(file):
                raise BadEdit(f"{body.path}: its file {path} does not exist")
            text = texts.setdefault(path, text_of(file))
            if text.count(old) != 1:
                raise BadEdit(f"{body.path}: its text \"{old[:70]}\" stands {text.count(old)} times in {path}, and not once")
            at = text.index(old)
            places.setdefault(body.key(), []).append(place_of(path, text, at, at + len(old)))
            texts[path] = text[:at] + new + text[at + len(old) :]
    return texts, places


def place_of(path, text, start, end):
    """The function that a stretch of a file stands in, and whether inside its body, as (pattern, is_inside, module)."""
    module = sources.module_of(path)
    found = sources.around(sources.functions_in(text, module), start, end) if path.endswith(".rt") else None
    return (found.pattern, start > found.body, module) if found else None


def same_functions(body, texts):
    """Whether the files of a body have the same functions in the same order with its changes as without."""
    names = lambda path, text: [it.pattern for it in sources.functions_in(text, sources.module_of(path))]
    try:
        return all(names(path, text) == names(path, text_of(os.path.join(TOP, "crates", body.crate, path))) for path, text in texts.items())
    except ValueError:
        return False


class Trial:
    """A body with the patterns of the names of the functions of which one must be refused."""

    def __init__(self, body):
        texts, found = changed_texts([body])
        self.body, places = body, found[body.key()]
        self.owners = [re.escape(it) for it in body.callers] or list(dict.fromkeys(it[0] for it in places if it))
        self.is_inside = not body.callers and all(it and it[1] for it in places) and same_functions(body, texts)
        self.is_law = all(path.startswith("specs/") for path, _, _ in body.changes)
        self.modules = {it.rpartition("::")[0] for it in body.callers} or {it[2] for it in places if it}
        if not self.owners:
            raise BadEdit(f"{body.path} stands in no function: name the one that must be refused in a line '# caller: PATH'")

    def names_its_own(self, declared):
        """Whether the new texts name of what the repository declares only what the functions name that they stand in."""
        names, new = set(), "\n".join(it for _, _, it in self.body.changes)
        for path in {it for it, _, _ in self.body.changes}:
            text = text_of(os.path.join(TOP, "crates", self.body.crate, path))
            own = (it for it in sources.functions_in(text, sources.module_of(path)) if it.pattern in self.owners)
            names.update(*(calls_in(text[it.start : it.end]) for it in own))
        # (what is printed at a place of a text is by an impl of its type)
        is_printed = any("{" in it[0] for it in sources.LITERAL.finditer(new))
        return not is_printed and calls_in(new) & declared <= names

    def owns(self, name):
        """Whether a name that the prover printed is that of the function, or of a closure in it."""
        return any(re.match(rf"(?:\w+::)*?{it}(?:::|$)", re.sub(r"\bfn::", "", name)) for it in self.owners)

    def own(self, names):
        """Of the names that the prover printed those that the body must be refused by, the function before its closures. Of types of
        one name in several modules it is the one of the body's own module."""
        found = sorted((it for it in names if self.owns(it)), key=lambda it: ("fn::" in it, it))
        near = [it for it in found if any(it.startswith(f"{module}::") for module in self.modules)]
        return near or found


def groups_of(trials):
    """The trials in as few checks as may be: of those in one check, each changes the inside of other functions."""
    groups = []
    for trial in trials:
        for group in groups:
            if trial.is_inside and all(it.is_inside and not {*it.owners} & {*trial.owners} for it in group) and go_together([*group, trial]):
                group.append(trial)
                break
        else:
            groups.append([trial])
    return groups


def go_together(trials):
    try:
        changed_texts([it.body for it in trials])
        return True
    except BadEdit:
        return False


# What a check said.


def goals_of(said):
    """Of each function, by the name that is printed below the crate, None if it is proved, or else its goals that count as unproved ('': none).
    The notes of a function stand right above its line."""
    found, at = {}, 0
    for line in re.finditer(r"^fn \w+::(\S+): (.*)$", said, re.M):
        name, rest = line.groups()
        refuted = re.findall(r"^note: src/.*\(`([^`]*)`\); the facts known there allow values at which this goal is false", said[at : line.start()], re.M)
        unproved = re.search(r"did not prove ((?:`[^`]*`(?:, )?)+)", rest)
        goals = [*(re.findall(r"`([^`]*)`", unproved[1]) if unproved else []), *refuted_in(said, name), *refuted]
        found[name], at = None if rest == "proved" else ", ".join(dict.fromkeys(goals)), line.end()
    return found


def proofs_of(name):
    """A pattern of the folder of a function's proofs: that of a function that calls itself begins with `+`."""
    above, _, own = name.rpartition("::")
    return re.escape(f"{above}::".replace("::", "/") if above else "") + r"\+?" + re.escape(own)


def refuted_in(said, name):
    """The goals of a function whose answers its proof files give, and which the prover refused."""
    place = rf"^(?:\./)?proofs/{proofs_of(name)}/\w+\.antt:\d+:\d+: error: `([^`]*)`: (.*)$"
    return [goal for goal, why in re.findall(place, said, re.M) if not NAMES_ALONE.search(why)]


def refuted_lemma(said, name):
    """The lemma that the prover refused and on which the proof of a law rests: the body of a law is empty, and its proof cites the crate's lemmas."""
    cites = re.search(rf"^(?:\./)?proofs/{proofs_of(name)}/.*depends? on `[^`]*`, which was (?:not admitted|rejected)", said, re.M)
    lemmas = re.findall(r"^(?:\./)?proofs/\w+\.antt:\d+:\d+: error: `([^`]*)`: (.*)$", said, re.M) if cites else []
    return next((f"lemma {lemma}" for lemma, why in lemmas if not NAMES_ALONE.search(why)), "")


def renamed(said, trial, text_of_proof):
    """The proof files of a body's functions with the names that the edit took away in the prover's own next spelling, as `gt9` for `gt10`,
    by their path. A proof is no part of what a body means, so a body that is refused with one is refused for its meaning."""
    found = {}
    lines = re.findall(r"^(?:\./)?(proofs/(\S+)/\w+\.antt):\d+:\d+: error: (.*)$", said, re.M)
    for path, function, why in lines:
        if not trial.owns(function.replace("/+", "/").replace("/", "::")):
            continue
        gone = re.search(r"has no (?:field )?`([^`]+)`.*?\((?:nearest: \.|names in it that begin alike: `|did you mean `)([^\s,`)]+)", why)
        text = found.get(path) or text_of_proof(path)
        if gone and not re.search(rf"^(?:abbrev )?(?:pub )?{re.escape(gone[2])} :", text, re.M):
            found[path] = re.sub(rf"(?<![\w-]){re.escape(gone[1])}(?![\w-])", gone[2], text)
    return {path: text for path, text in found.items() if text != text_of_proof(path)}


def compiles(said):
    """Whether the text reached the prover, which then ended."""
    return re.search(r"^(?:logic=|only=)", said, re.M) is not None


def outcome(trial, said):
    """What a check says of one body: (kind, function, goal or why)."""
    goals = goals_of(said)
    own = {name: refuted_lemma(said, name) if goals[name] == "" and trial.is_law else goals[name] for name in trial.own(goals)}
    for name, goal in own.items():
        if goal:
            return REFUSED, name, goal
    if not own:
        return BAD, "", f"the check names no function {' or '.join(trial.owners)}: {first_errors(said)}"
    name = next((it for it, goal in own.items() if goal is not None), None)
    if name is None:
        return MISSED, next(iter(own)), "it is still proved"
    line = re.search(rf"^fn \w+::{re.escape(name)}: (.*)$", said, re.M)[1]
    return BAD, name, f"no goal of its own is unproved: {line[:200]} {first_errors(said)}"


def try_together(room, trials, proofs=None, rounds=ROUNDS):
    """What a check of all these bodies says of each; by halves where they do not compile together. Those of which it names no goal are tried
    again, each with the names in its proof files that `proofs` has for it, and last alone: a proof file is not read to its end where it
    cites a function that is refused."""
    proofs = {it.body.key(): (proofs or {}).get(it.body.key(), {}) for it in trials}
    texts = {**changed_texts([it.body for it in trials])[0], **{path: text for files in proofs.values() for path, text in files.items()}}
    said = room.check(texts, set().union(*(it.modules for it in trials)), trials[0].body.name if len(trials) == 1 else f"{len(trials)} bodies")
    if not compiles(said) and not re.search(r"^(?!so far: ).*\berror\[[\w-]+\]|^rattle: error", said, re.M):
        return {it.body.key(): (UNKNOWN, "", f"its check was killed, or came to no end: {room.said}") for it in trials}
    if not compiles(said):
        if len(trials) == 1:
            return {trials[0].body.key(): (BAD, "", f"it does not compile: {first_errors(said)}")}
        half = len(trials) // 2
        return {key: came for part in (trials[:half], trials[half:]) for key, came in try_together(room, part, proofs, rounds).items()}
    found = {it.body.key(): outcome(it, said) for it in trials}
    left, more = [it for it in trials if found[it.body.key()][0] == BAD], {}
    for it in left:
        files = dict(proofs[it.body.key()])
        files.update(renamed(said, it, lambda path, files=files: files.get(path) or text_of(os.path.join(TOP, "crates", room.crate, path))))
        more[it.body.key()] = files
    if left and rounds and (len(left) < len(trials) or more != proofs):
        found.update(try_together(room, left, more, rounds - 1))
    elif len(trials) > 1:
        for it in left:
            if re.search("it calls|a call of", found[it.body.key()][2]):
                found.update(try_together(room, [it], more, 0))
    return found


# The commands.


def trials_of(bodies):
    """The bodies that can be tried; of the others it says why not."""
    found = []
    for body in bodies:
        try:
            found.append(Trial(body))
        except BadEdit as why:
            print(f"{BAD}: {why}", flush=True)
    return found


def row_of(body, function, goal, *digests):
    return dict(zip(COLUMNS, [*body.key(), function, goal, *digests]))


def recognize(trials, memory, proofs):
    """Remembers those bodies anew whose functions are proved as when they were refused, and returns the others."""
    rows = {}
    for body in (it.body for it in trials):
        if memory.has_proof(body, proofs[body.key()]):
            rows[body.key()] = {**memory.rows[body.key()], "read": memory.digests.of(body)}
    memory.put(rows)
    return [it for it in trials if it.body.key() not in rows]


def note(trials, found, memory, proofs):
    """Remembers what was refused, says what was not, and returns how many were."""
    rows, gone, after = {}, set(), Digests()
    for body in (it.body for it in trials):
        kind, function, goal = found[body.key()]
        if memory.digests.of(body) != after.of(body):
            kind, goal = UNKNOWN, "a file changed while it was tried"
        if kind == REFUSED:
            rows[body.key()] = row_of(body, function, goal, after.of(body), proofs[body.key()])
        else:
            gone |= {body.key()} if kind != UNKNOWN else set()
            print(f"{kind}: {body.crate}/{body.name}{f' ({function})' if function else ''}: {goal}", flush=True)
    memory.put(rows, gone)
    return len(rows)


def try_crate(crate, bodies, room, memory):
    """Tries bodies of one crate in this room, and says and remembers what came of them."""
    started, trials, known, refused = time.time(), trials_of(bodies), 0, 0
    try:
        with alone(crate), room as opened:
            opened.prove()
            modules = Modules(opened.kept, crate)
            proofs = {it.body.key(): modules.digest(it, memory.digests) for it in trials}
            left = recognize(trials, memory, proofs)
            known, done = len(trials) - len(left), 0
            for group in groups_of(left):
                refused += note(group, try_together(opened, group), memory, proofs)
                done += len(group)
                print(f"  {crate}: {done} of {len(left)} tried, {refused} refused", flush=True)
    except Unknown as why:
        print(f"{UNKNOWN}: {crate}: {why}", flush=True)
    print(f"{crate}: {refused} refused and {known} with the same proof, of {len(bodies)}; {(time.time() - started) / 60:.1f} min", flush=True)


def asked_for(words):
    """What ./try_planted is asked for."""
    parser = argparse.ArgumentParser(prog="./try_planted", usage="./try_planted [--all] [--jobs N] [CRATE..]")
    parser.add_argument("crates", nargs="*")
    parser.add_argument("--all", action="store_true")
    parser.add_argument("--jobs", type=int, default=1)
    asked = parser.parse_args(words)
    strange = [it for it in asked.crates if it not in lines_of_crates()]
    if strange:
        parser.error(f"crates.txt has no crate {strange[0]}")
    return asked


def try_planted(words):
    """Tries the bodies that are not remembered as refused. Status 0 where then every body of the repository is."""
    asked = asked_for(words)
    with alone("run"):
        memory, wanted, bodies = Memory(), [it for it in bodies_of() if not asked.crates or it.crate in asked.crates], {}
        if asked.all:
            memory.forget({it.key() for it in wanted})
        for body in wanted:
            if not memory.has(body):
                bodies.setdefault(body.crate, []).append(body)
        print(f"planted: to try, as not remembered as refused: {sum(map(len, bodies.values()))} of {len(wanted)} wrong bodies, of {len(bodies)} crates", flush=True)
        try_crates(bodies, [] if asked.all else [it for it in bodies if has_kept(it)], asked.jobs, memory)
    return said_of_all()


def try_crates(bodies, kept, jobs, memory):
    """Tries the bodies of some crates, so many crates at a time; those of the crates `kept` over what `rt check` kept."""
    one = lambda crate: try_crate(crate, bodies[crate], KeptRoom(crate) if crate in kept else Room(crate, libraries), memory)
    with Libraries([it for it in bodies if it not in kept]) as libraries, concurrent.futures.ThreadPoolExecutor(jobs) as pool:
        list(pool.map(one, [it for it in lines_of_crates() if it in bodies]))


def said_of_all():
    """Says how many bodies of the repository are remembered as refused. Status 0 where all are."""
    memory, crates, every = Memory(), {}, bodies_of()
    for body in every:
        if not memory.has(body):
            crates[body.crate] = crates.get(body.crate, 0) + 1
    print(f"planted: {len(every) - sum(crates.values())} of {len(every)} wrong bodies are remembered as refused")
    if crates:
        print(f"planted: left: {', '.join(f'{number} of {crate}' for crate, number in crates.items())}")
    return 1 if crates else 0


def picked(crates):
    """The bodies to be tried from nothing, by crate: those of one check, of each crate named, or of those that the commit's hash picks."""
    bodies = bodies_of()
    ran = subprocess.run(["git", "rev-parse", "HEAD"], cwd=TOP, stdout=subprocess.PIPE, stderr=subprocess.DEVNULL, text=True, check=False)
    seed = ran.stdout.strip() or sum_of([it.text() for it in bodies])
    by_hash = lambda it: sum_of(seed, it)
    crates = crates or sorted({it.crate for it in bodies}, key=by_hash)[:AFRESH_CRATES]
    return {it: groups_of(trials_of(sorted(bodies_of(it), key=lambda body: by_hash(body.key()))))[0][:AFRESH_BODIES] for it in crates}


def tried_from_nothing(crate, trials, libraries):
    """What came of each of these bodies."""
    try:
        with alone(crate), Room(crate, libraries) as room:
            return try_together(room, trials)
    except Unknown as why:
        return {it.body.key(): (UNKNOWN, "", str(why)) for it in trials}


def try_afresh(crates):
    """Tries some bodies from nothing. Status 0 where each is refused."""
    chosen, wrong = picked(crates), 0
    with alone("run"), Libraries(chosen) as libraries, concurrent.futures.ThreadPoolExecutor(AFRESH_JOBS) as pool:
        came = pool.map(lambda it: tried_from_nothing(it, chosen[it], libraries), chosen)
        for (crate, trials), found in zip(chosen.items(), came):
            for name, (kind, function, goal) in ((it.body.name, found[it.body.key()]) for it in trials):
                if kind != REFUSED:
                    wrong += 1
                    print(f"fix: {crate}/{name}: {kind}{f' ({function})' if function else ''}: {goal}", flush=True)
            print(f"planted: of {crate} from nothing: {', '.join(it.body.name for it in trials)}", flush=True)
    return 1 if wrong else 0


def has_function(crate, caller):
    """Whether a crate has a function of the last name of a path."""
    name = re.escape(caller.rpartition("::")[2])
    return any(re.search(rf"\bfn {name}\b", sources.blanked(text)) for text in source_files(crate).values())


def check_bodies(bodies):
    """What is to be mended of the bodies themselves: each says what it turns, has a name of its own in its crate, and can be tried."""
    wrong, seen, lines = [], set(), lines_of_crates()
    for body in bodies:
        if body.key() in seen:
            wrong.append(f"{body.path}: {body.crate} has another body of that name")
        seen.add(body.key())
        if not body.turns:
            wrong.append(f"{body.path} has no line '# SENTENCE' that says what it turns")
        try:
            if body.crate not in lines:
                raise BadEdit(f"{body.path}: crates.txt has no crate {body.crate}")
            Trial(body)
            wrong += [f"{body.path}: its crate has no function {it}" for it in body.callers if not has_function(body.crate, it)]
        except BadEdit as why:
            wrong.append(str(why))
    gate = [it for it in bodies if it.path.startswith("crates/")]
    if len(gate) > GATE_BODIES:
        wrong.append(f"must-fail/ has more than {GATE_BODIES} bodies, for each of which the gate checks a crate: move some to planted/")
    for it in sorted({it.crate for it in gate} - GATE_CRATES):
        wrong.append(f"crates/{it}/must-fail has bodies, so the gate proves that crate once more: move them to planted/{it}")
    return wrong


def check_unheld():
    """What is to be mended of planted/UNHELD.csv: each row names a source, and a script that says so."""
    with open(os.path.join(TOP, UNHELD), encoding="utf-8", newline="") as file:
        rows = list(csv.DictReader(file))
    texts = [(row, os.path.join(TOP, row["held by"])) for row in rows]
    wrong = [f"{UNHELD} names {row['file']}, which is not there" for row in rows if not os.path.isfile(os.path.join(TOP, row["file"]))]
    return wrong + [
        f"{UNHELD}: {row['held by']} does not say: {row['where it says']}"
        for row, path in texts
        if not os.path.isfile(path) or row["where it says"] not in " ".join(text_of(path).split())
    ]


def check_form():
    """Says what is to be mended of the bodies, and of the list of what no clause holds. Status 0 where there is nothing."""
    bodies = bodies_of()
    wrong = check_bodies(bodies) + check_unheld()
    for it in wrong:
        print(f"fix: {it}")
    print(f"planted: {len(bodies)} wrong bodies, {len(wrong)} places to fix")
    return 1 if wrong else 0


def check_planted(words):
    if words[:1] == ["--afresh"] and all(map(bodies_of, words[1:])):
        return try_afresh(words[1:])
    whole = {(): check_form, ("--gate-begins",): gate_begins, ("--gate-passed",): gate_passed}.get(tuple(words))
    if whole:
        return whole()
    print("usage: checks/planted [--afresh [CRATE..] | --gate-begins | --gate-passed], each crate one with wrong bodies", file=sys.stderr)
    return 2


if __name__ == "__main__":
    command = {"try": try_planted, "check": check_planted}[sys.argv[1]]
    sys.exit(command(sys.argv[2:]))
