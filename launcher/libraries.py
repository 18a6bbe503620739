"""What is kept of each library beside its rlib, and whether a library stands: whether it is proved from the sources as they stand.

out/libraries/NAME beside the program has a copy of sources from which the rlib in crates/NAME/out was built, and a record: the stamp that rt
gave it then, the toolchain, the digests of all sources from which just these bytes came, the line of crates.txt, what the libraries below were
when it was proved, and of each file of the rlib its state and its digest.

A library that comes out the same ends the proving. Why what is then called proved is proved:

- A check of a crate reads its own sources, the kit, and of the libraries below nothing but their rlibs, without rt's `stamp`. By that rt tells
  whether a library is built: it is a sum over the sources and the lines of crates.txt of it and of all below it.
- So the record of a crate says: from each of these sources, over rlibs with these bytes, this toolchain proved it and made an rlib with those
  bytes. It stands where its sources and its toolchain are among those of the record, and where its rlib, and each rlib below it, the direct
  ones and those deeper down, is byte for byte the one that the record names.
- Let the sources of a library change, and let rt prove it from the new ones and make the same bytes. Then a check of a crate above, over the
  library as it is now, would read what it read when it passed. So it stands. The new sources are added to those of the library's record; the
  copy and the stamp there stay, since the stamps of those above are made with that one.
- Where any byte differs, or a line of crates.txt, or the toolchain, or where a library below was exchanged, a new record takes the place of the
  old one, with a new stamp. Then each crate above is asked again, whether it names the library or not: rt hands a check all rlibs below.
- What a record says holds of files that have the state that they had then; else they are read. Where they are others than it says, the rlib is
  taken away and the crate proved again. A library without a record is left to rt, which goes by its own stamp.

- In a first run `rt ci` proves the libraries and leaves their statements, and writes no stamp. Theirs is what rt's own module reckons over the same
  sources, in the room in which they were proved. Were it another than rt asks for, rt would build such a library anew, which is told and thrown away.

The record is taken away before what it speaks of is exchanged, and written after it: a launcher that is killed meanwhile leaves none.
"""
import contextlib
import hashlib
import marshal
import os
import shutil
import time

import index
import proof

FOLDER = f"{index.OUT}/libraries"
FORM = 1
# rt's own note in an rlib, of the sources that it was built from.
STAMP = "stamp"


def digest_of(digests):
    """One digest over paths and the digest of each."""
    whole = hashlib.sha256()
    for path, digest in sorted(digests.items()):
        whole.update(f"{path}\0{digest}\n".encode(errors="surrogateescape"))
    return whole.hexdigest()


def digest_of_bytes(path):
    with open(path, "rb") as it:
        return hashlib.sha256(it.read()).hexdigest()


def files_of(folder, known=None):
    """By its path below this folder the state and the digest of each file; of each folder `folder`. What has the state that is known is not read."""
    began, found = index.time_of_files(), {}
    for at, folders, names in os.walk(folder):
        for it in folders:
            found[os.path.relpath(f"{at}/{it}", folder)] = (None, "folder")
        for it in names:
            path = os.path.relpath(f"{at}/{it}", folder)
            state, was = index.state_at(f"{at}/{it}"), (known or {}).get(path, (None, None))
            digest = was[1] if state and was[0] == state else digest_of_bytes(f"{at}/{it}")
            # What changed after this look began may change once more and have the same state.
            found[path] = (state if state and began and state[4] < began else None, digest)
    return found


def bytes_of(files):
    """What a check reads of the files of an rlib: all but rt's stamp."""
    return {path: digest for path, (_, digest) in files.items() if path != STAMP}


class Shelf:
    """The libraries as they lie there, by a look at the sources and for one toolchain."""

    def __init__(self, look, version, below):
        self.look, self.version, self.below = look, version, below
        self.lines = proof.lines_of_crates()
        self.names = [it for it in below if it != proof.NAME]
        self.records = {it: load(f"{FOLDER}/{it}/record") for it in self.names}
        # Of a library without a record it does not matter what lies there: it does not stand.
        self.files = {it: files_of(f"crates/{it}/out/rlib", self.recorded_files(it)) if self.records[it] else {} for it in self.names}
        self.identities = {it: self.identity(it) for it in self.names}

    def recorded_files(self, name):
        return self.records[name].get("files", {})

    def is_as_recorded(self, name):
        """Whether the rlib that lies there is, byte for byte, the one of the record."""
        return bool(self.records[name]) and bytes_of(self.files[name]) == bytes_of(self.recorded_files(name))

    def identity(self, name):
        """One digest over the bytes of the rlib that lies there and the stamp of its record, or one that no record has."""
        return digest_of({**bytes_of(self.files[name]), STAMP: self.records[name].get(STAMP, "none")})

    def sources(self, name):
        """A digest over a crate's own sources and its line of crates.txt, in which rt reads what it stands on."""
        own = {it: digest for it, digest in self.look.digests.items() if it.startswith(f"crates/{name}/")}
        return digest_of({**own, "crates.txt": self.lines[name]})

    def identities_below(self, name):
        return {it: self.identities[it] for it in self.below[name]}

    def has_same_ground(self, name):
        """Whether the toolchain, the crate's line, and each rlib below are those of its record."""
        record = self.records[name]
        now = {"toolchain": self.version, "line": self.lines[name], "below": self.identities_below(name)}
        return all(record.get(it) == value for it, value in now.items())

    def stands(self, name):
        """Whether a library is proved from the sources as they stand, over the rlibs as they lie there, and has its rlib."""
        return self.has_same_ground(name) and self.sources(name) in self.records[name]["sources"] and self.is_as_recorded(name)

    def take_in(self, name, rlib, sources):
        """Makes the record of a crate that was just proved, with this rlib, from the sources in this folder. Returns whether it came out the same."""
        record, found = self.records[name], files_of(rlib)
        is_same = self.has_same_ground(name) and bytes_of(found) == bytes_of(self.recorded_files(name))
        if is_same:
            record = {**record, "files": found, "sources": [*dict.fromkeys([*record["sources"], self.sources(name)])]}
        else:
            self.take_away(name)
            os.makedirs(f"{FOLDER}/{name}")
            for part in proof.PARTS:
                if os.path.isdir(f"{sources}/{part}"):
                    os.rename(f"{sources}/{part}", f"{FOLDER}/{name}/{part}")
            record = {"toolchain": self.version, "line": self.lines[name], "below": self.identities_below(name)}
            record = {**record, STAMP: proof.text_of(f"{rlib}/{STAMP}"), "files": found, "sources": [self.sources(name)]}
        self.records[name], self.files[name] = record, found
        self.identities[name] = self.identity(name)
        return is_same

    def take_away(self, name):
        """Takes away what is kept of a library."""
        with contextlib.suppress(FileNotFoundError):
            os.remove(f"{FOLDER}/{name}/record")
        shutil.rmtree(f"{FOLDER}/{name}", ignore_errors=True)
        self.records[name] = {}

    def save(self, name):
        save(f"{FOLDER}/{name}/record", self.records[name])

    def settle(self):
        """Keeps the states anew, as a link to a file, which a room has, gives it another time of change. Of what is exchanged during a build size
        and time of the last edit tell: what lies in out/ then is trusted."""
        # What changed before is then older than this.
        time.sleep(0.02)
        began = index.time_of_files()
        for name in filter(self.is_as_recorded, self.names):
            found = {}
            for path, (state, digest) in self.files[name].items():
                now = index.state_at(f"crates/{name}/out/rlib/{path}")
                is_same = state and now and began and now[:4] == state[:4] and now[4] < began
                found[path] = (now if is_same else None, digest)
            self.records[name]["files"] = found
            # On a full disk the old states stay, and the files are read next time.
            with contextlib.suppress(OSError):
                self.save(name)


def load(path):
    """The record in a file, or an empty one."""
    try:
        with open(path, "rb") as it:
            kept = marshal.loads(it.read())
        return kept if kept["form"] == FORM else {}
    except (OSError, EOFError, ValueError, TypeError, KeyError):
        return {}


def save(path, record):
    with open(f"{path}.new", "wb") as it:
        it.write(marshal.dumps({**record, "form": FORM}))
    os.replace(f"{path}.new", path)
