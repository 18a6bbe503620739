"""Rooms: copies of the sources, in each of which rt proves one crate.

While rt works at a crate it lets no other rt into the folders of that crate and of those below it. So crates are proved side by
side in rooms of their own. A room has the crate's sources as they stand, and of each library below it the rlib that lies there, with
the sources from which that was built: rt asks for those, and the latest may be others that give the same rlib. What rt leaves of the
crate is put back where the crate is.
"""
import contextlib
import os
import shutil
import subprocess
import sys

import index
import libraries
import proof

FOLDER = f"{index.OUT}/rooms"


def link_or_copy(old, new):
    try:
        os.link(old, new)
    except OSError:
        shutil.copy2(old, new)


def move(old, new):
    """Moves a file or a folder, if it is there, in the place of what is there."""
    if os.path.lexists(old):
        shutil.rmtree(new, ignore_errors=True)
        os.makedirs(os.path.dirname(new), exist_ok=True)
        os.rename(old, new)


def copy_sources(name, top):
    """Copies a crate's sources as they stand to a room."""
    os.makedirs(f"{top}/crates/{name}")
    for part in proof.PARTS:
        if os.path.isdir(f"crates/{name}/{part}"):
            shutil.copytree(f"crates/{name}/{part}", f"{top}/crates/{name}/{part}")


def are_as_looked_at(name, top, look):
    """Whether a crate's sources in a room are, byte for byte, those that were looked at."""
    found = {}
    for part in filter(os.path.isdir, (f"{top}/crates/{name}/{it}" for it in proof.PARTS)):
        found[os.path.relpath(part, top)] = "folder"
        for path, (_, digest) in libraries.files_of(part).items():
            found[os.path.relpath(f"{part}/{path}", top)] = digest
    return found == {it: digest for it, digest in look.digests.items() if it.startswith(f"crates/{name}/")}


def remove_all():
    """Takes the rooms away. What a launcher that was killed left in them is put back first: the rlib of before, and the work that was kept."""
    with contextlib.suppress(OSError):
        for name in os.listdir(FOLDER):
            move(f"{FOLDER}/{name}/before", f"{FOLDER}/{name}/crates/{name}/out/rlib")
            for part in ("rlib", "incremental"):
                if not os.path.isdir(f"crates/{name}/out/{part}"):
                    move(f"{FOLDER}/{name}/crates/{name}/out/{part}", f"crates/{name}/out/{part}")
    shutil.rmtree(FOLDER, ignore_errors=True)


class Room:
    """The room of one crate, in which rt works once."""

    def __init__(self, name, shelf, below):
        self.name, self.shelf, self.top = name, shelf, f"{FOLDER}/{name}"
        self.folder, self.before = f"{self.top}/crates/{name}", f"{self.top}/before"
        # A killed check is begun again in a new room.
        shutil.rmtree(self.top, ignore_errors=True)
        copy_sources(name, self.top)
        with contextlib.suppress(FileNotFoundError):
            shutil.copy2("HANDLES", self.top)
        self.shown = {it: self.show(it) for it in below}
        with open(f"{self.top}/crates.txt", "w", encoding="utf-8") as it:
            it.writelines([shelf.lines[name], *(shelf.records[other]["line"] for other in below)])

    def show(self, name):
        """Has a library here as it lies there, and returns the state of its folder."""
        for part in proof.PARTS:
            if os.path.isdir(f"{libraries.FOLDER}/{name}/{part}"):
                shutil.copytree(f"{libraries.FOLDER}/{name}/{part}", f"{self.top}/crates/{name}/{part}")
        here = f"{self.top}/crates/{name}/out/rlib"
        shutil.copytree(f"crates/{name}/out/rlib", here, copy_function=link_or_copy, ignore=lambda at, _: [libraries.STAMP] if at.endswith("/rlib") else [])
        with open(f"{here}/{libraries.STAMP}", "w", encoding="utf-8") as it:
            it.write(self.shelf.records[name][libraries.STAMP])
        return index.state_at(here)

    def is_faithful(self):
        """Whether the crate's sources here are, byte for byte, those that were looked at."""
        return are_as_looked_at(self.name, self.top, self.shelf.look)

    def built_anew(self):
        """The libraries below that rt did not take as they were shown to it, but proved and built from the sources shown: None should be."""
        return [it for it, state in self.shown.items() if index.state_at(f"{self.top}/crates/{it}/out/rlib") != state]

    def take_in(self):
        """Takes in the work that was kept of the crate. Its rlib is set aside, to be put back should the proof fail; one that is not as it was left
        is taken away; and one of which nothing is known is shown to rt, which knows by its stamp what it was built from."""
        move(f"crates/{self.name}/out", f"{self.folder}/out")
        if self.shelf.is_as_recorded(self.name):
            move(f"{self.folder}/out/rlib", self.before)
        elif self.shelf.records[self.name]:
            shutil.rmtree(f"{self.folder}/out/rlib", ignore_errors=True)

    def leave(self, is_proved):
        """Puts back what rt left of the crate, and the rlib of before where it was not proved. Returns whether the rlib came out as it was."""
        after, is_same = f"{self.folder}/out/rlib", False
        if is_proved:
            is_same = self.shelf.take_in(self.name, after, self.folder)
        else:
            shutil.rmtree(after, ignore_errors=True)
            move(self.before, after)
        move(f"{self.folder}/out", f"crates/{self.name}/out")
        if is_proved:
            self.shelf.save(self.name)
        shutil.rmtree(self.top, ignore_errors=True)
        return is_same


class ProgramRoom(Room):
    """The room of the program's crate. Its own out/ holds the rooms, so only the parts of it that rt is to have are moved."""

    def take_in(self):
        move(f"{index.OUT}/incremental", f"{self.folder}/out/incremental")

    def leave(self, is_proved):
        move(f"{self.folder}/out/incremental", f"{index.OUT}/incremental")
        if is_proved:
            move(f"{self.top}/{proof.PROGRAM}", proof.PROGRAM)
        shutil.rmtree(self.top, ignore_errors=True)


class FirstRoom:
    """The room of a first run, in which `rt ci` proves all libraries by one call. It leaves the statements of each, a tenth of what it leaves with kept
    work, and begins with nothing that lies there."""

    def __init__(self, names, shelf):
        self.names, self.shelf, self.top = names, shelf, f"{FOLDER}/first"
        shutil.rmtree(self.top, ignore_errors=True)
        # rt ci refuses a crates.txt that stands below the top of a checkout. So the room is the top of one.
        os.makedirs(f"{self.top}/.git")
        for it in names:
            copy_sources(it, self.top)
        with contextlib.suppress(FileNotFoundError):
            shutil.copy2("HANDLES", self.top)
        with open(f"{self.top}/crates.txt", "w", encoding="utf-8") as it:
            it.writelines(shelf.lines[name] for name in names)

    def stamps(self, rt):
        """By its name the stamp by which rt knows each library as built from the sources here, or nothing where the toolchain does not tell."""
        kit = os.path.dirname(os.path.dirname(os.path.realpath(rt)))
        how = {"stdin": subprocess.DEVNULL, "stdout": subprocess.PIPE, "stderr": subprocess.DEVNULL, "text": True, "env": proof.environment(self.shelf.look.path)}
        asked = subprocess.run([sys.executable, "-I", "-S", f"{os.path.dirname(os.path.realpath(__file__))}/stamps.py", kit, self.top], **how)
        lines = [it.split() for it in asked.stdout.splitlines()]
        found = {it[0]: it[1] for it in lines if len(it) == 2} if not asked.returncode else {}
        return found if found.keys() == {*self.names} else {}

    def is_faithful(self):
        return all(are_as_looked_at(it, self.top, self.shelf.look) for it in self.names)

    def leave(self, proved, stamps):
        """Puts each library where its crate is that was proved, those below it too, with the stamp by which rt knows it. `names` has the lowest first."""
        taken = set()
        for name in self.names:
            rlib = f"{self.top}/crates/{name}/out/rlib"
            if name in proved and self.shelf.below[name] <= taken and os.path.isfile(f"{rlib}/{name}.rlib/format"):
                with open(f"{rlib}/{libraries.STAMP}", "w", encoding="utf-8") as it:
                    it.write(stamps[name])
                self.shelf.take_in(name, rlib, f"{self.top}/crates/{name}")
                move(rlib, f"crates/{name}/out/rlib")
                self.shelf.save(name)
                taken.add(name)
        shutil.rmtree(self.top, ignore_errors=True)
        return taken
