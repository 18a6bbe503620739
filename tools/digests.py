"""What the answer of a check depends on, as sums of texts.

The digest `read` of a wrong body is made from its text, its crate's `src` (without tests and comments), `specs` and `proofs`, HANDLES, the
lines of crates.txt, what its crate reads of the libraries below it, and the kit. A check reads of a library only its public interface, which
has no code: a function's code and proof are private to it, and so are a function that is not `pub` and the fields of a type that has a model
of its own. And it reads only what is named: so of each library those types, constants, traits, impls and contracts of functions count whose
names the crate, or what it reads, has anywhere in its text (a name that two things have counts for both), and those files of `specs` and
`proofs` that one of these imports. The bodies of `const` functions and of a trait's own methods are kept, comments are not.
"""
import functools
import glob
import hashlib
import os
import re
import subprocess

import sources

TOP = os.path.dirname(os.path.dirname(os.path.realpath(__file__)))
ANTT_PATH = re.compile(r"\bRattle\.(\w+)\.(specs|proofs)\.([\w.-]+)")
# What a file of definitions or lemmas names of code: the types that it imports.
ANTT_USE = re.compile(r"\bRattle\.[^{\s]*(?:\{[^}]*\})?")
# What a new text can call of the repository: a name, `==`, which is an impl's `eq`, and `?`, which is an impl's `from`.
CALLS = re.compile(r"\b[A-Za-z_]\w*|==|\?")
# How what a trait says begins, or an impl of one.
OF_TRAIT = re.compile(r"(?:#\[[^\]]*\] ?)*(?:(?:pub )?trait\b|impl\b[^{]*\bfor\b)")
DECLARED = re.compile(r"\b(?:fn|const|static|trait|type|mod)\s+(\w+)")
TYPE = re.compile(r"\b(?:struct|enum|union)\s+(?=\w)")


def text_of(path):
    with open(path, encoding="utf-8") as it:
        return it.read()


def lines_of_crates():
    """The line of each crate in crates.txt, without its comment."""
    lines = (re.sub(r"\s*#.*", "", it).strip() for it in text_of(os.path.join(TOP, "crates.txt")).split("\n"))
    return {re.match(r"\w+", it)[0]: it for it in lines if it}


def libraries_below(crate, lines):
    """The libraries of the repository that a crate stands on, each after those below it."""
    found = []
    for word in lines[crate].partition(":")[2].split():
        if word in lines:
            found += [it for it in [*libraries_below(word, lines), word] if it not in found]
    return found


def files_of(crate, part, ending):
    folder = os.path.join(TOP, "crates", crate)
    found = glob.glob(f"{folder}/{part}/**/*{ending}", recursive=True)
    return sorted(os.path.relpath(it, folder) for it in found)


def source_files(crate):
    """The texts of a crate's `src` by their path, without its tests."""
    texts = {it: text_of(os.path.join(TOP, "crates", crate, it)) for it in files_of(crate, "src", ".rt")}
    tests = [f"{os.path.dirname(path)}/{name}" for path, text in texts.items() for name in sources.TESTS.findall(text)]
    kept = {it: text for it, text in texts.items() if not any(it == f"{test}.rt" or it.startswith(f"{test}/") for test in tests)}
    return {it: sources.TESTS.sub("", text) for it, text in kept.items()}


@functools.lru_cache(maxsize=None)
def antt_file(path):
    """The file of definitions or lemmas that a path names, as (crate, specs or proofs, names), or None: of a function's goals or of a type that
    code declares there is none."""
    crate, part, names = path
    names = names.split(".")
    for count in range(len(names), 0, -1):
        file = os.path.join(TOP, "crates", crate, part, *names[:count]) + ".antt"
        if os.path.isfile(file):
            return file
    return None


def sum_of(*parts):
    return hashlib.sha256(repr(parts).encode()).hexdigest()


def declared_in(text):
    """The names that a source declares: functions, types with their fields and variants, constants and traits."""
    blank = sources.blanked(text)
    types = (blank[it.end() : sources.item_end(blank, it.end(), "enum")] for it in TYPE.finditer(blank))
    return set(DECLARED.findall(blank)).union(*map(sources.WORD.findall, types))


def calls_in(text):
    """What of a text can name something of the repository."""
    return set(CALLS.findall(sources.blanked(text).replace("!=", "==")))


class Digests:
    """The digest of each body, with what several have in common read once."""

    def __init__(self):
        self.lines, self.seen = lines_of_crates(), {}

    def of(self, body):
        return sum_of(body.text(), self.of_crate(body.crate), self.handles(), kit())[:32] if body.crate in self.lines else ""

    def of_library(self, crate):
        """The sum of what a crate is proved from, but for the libraries below it."""
        return self.once((crate, "library"), lambda: sum_of(self.own(crate), self.handles(), kit()))

    def definitions(self, crate):
        """The sum of the definitions that a crate has or reads: those of `specs`, and in sources those of traits and of their impls, as models."""
        return self.once((crate, "definitions"), lambda: sum_of(*self.all_definitions(crate)))

    def all_definitions(self, crate):
        own = [it for it in self.antt(crate) if it[0].startswith("specs/")]
        _, files, items = self.read(crate)
        read = [it for it in files if it[0].split("/")[2] == "specs"]
        texts = [item.text for _, item in self.stated(crate)] + [text for _, _, text in items]
        return own, read, sorted(it for it in texts if OF_TRAIT.match(it))

    def declared(self, crate):
        """What CALLS finds that may be of the repository: what the crate and the libraries below it declare, and what a derive declares."""
        crates = [*libraries_below(crate, self.lines), crate]
        return self.once((crate, "declared"), lambda: {"==", "?", "clone", "drop"}.union(*(declared_in(text) for it in crates for text in source_files(it).values())))

    def handles(self):
        path = os.path.join(TOP, "HANDLES")
        return text_of(path) if os.path.isfile(path) else ""

    def once(self, key, make):
        if key not in self.seen:
            self.seen[key] = make()
        return self.seen[key]

    def of_crate(self, crate):
        """The sum of what a check of the crate reads: its own files, and what it reads of the libraries below it."""
        return self.once((crate, "read"), lambda: sum_of(self.own(crate), self.read(crate)))

    def antt(self, crate):
        found = files_of(crate, "specs", ".antt") + files_of(crate, "proofs", ".antt")
        return [(it, sources.plain_antt(text_of(os.path.join(TOP, "crates", crate, it)))) for it in found]

    def own(self, crate):
        sources_of = [(it, sources.plain(text)) for it, text in source_files(crate).items()]
        return self.lines[crate], sources_of, self.antt(crate)

    def stated(self, crate):
        """The items of a library that a crate above can read, by file."""
        return self.once((crate, "stated"), lambda: [(it, item) for it, text in source_files(crate).items() for item in sources.stated(text)])

    def read(self, crate):
        """What a check of the crate reads of the libraries below it: items that are named by the crate or by what it reads, and files of
        definitions and lemmas that one of these names by its path."""
        below = libraries_below(crate, self.lines)
        left = [(library, file, item) for library in below for file, item in self.stated(library)]
        of_sources, of_antt, words = [it for _, it in self.own(crate)[1]], [it for _, it in self.antt(crate)], set()
        files, items = {}, []
        while of_sources or of_antt:
            words.update(*(sources.WORD.findall(it) for text in of_antt for it in ANTT_USE.findall(text)), *map(sources.WORD.findall, of_sources))
            paths = {it for text in of_sources + of_antt for it in ANTT_PATH.findall(text) if it[0] in below}
            found = {it: sources.plain_antt(text_of(it)) for it in map(antt_file, paths) if it and it not in files}
            named = [it for it in left if it[2].is_read(words)]
            left = [it for it in left if not it[2].is_read(words)]
            files.update(found)
            items += [(library, file, item.text) for library, file, item in named]
            of_sources, of_antt = [text for _, _, text in items[len(items) - len(named) :]], list(found.values())
        return [self.lines[it] for it in below], sorted((os.path.relpath(it, TOP), text) for it, text in files.items()), sorted(items)


def sum_of_file(path):
    with open(path, "rb") as it:
        return hashlib.sha256(it.read()).hexdigest()


@functools.lru_cache(maxsize=None)
def kit():
    return subprocess.run(["rt", "version"], stdout=subprocess.PIPE, text=True, check=True).stdout.strip()
