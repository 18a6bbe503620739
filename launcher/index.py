"""What the launcher keeps of a look at the sources, so that the next reads only what changed: as a version control system does.

out/index is written beside the stamp where the program was found proved. It has the toolchains of the PATH, and of each file and
folder that the answer rests on, the program too, its state: what the file system says of it without a reading of it, which is its
kind, inode and size, and the times of its last edit and of its last change, in nanoseconds. Each edit and each renaming gives it a
new time of change, and nothing sets that but the machine's clock. So what has the state that it had is as it was, unless it
changed while it was read. What changed after the look began is therefore kept without a state, and the next look reads it again.

Who has mapped a file into memory can store into it without a new time of change, until the file is written back. So each file is written
back before it is read. A file system that lives in memory, as tmpfs, writes nothing back: there such an edit is not seen.
"""
import marshal
import os

TOP = os.path.dirname(os.path.dirname(os.path.realpath(__file__)))
OUT = "crates/ringcheck_program/out"
FILE = f"{OUT}/index"
FORM = 2


def state_of(found):
    return found.st_mode, found.st_ino, found.st_size, found.st_mtime_ns, found.st_ctime_ns


def state_at(path):
    """The state of what is there, or None."""
    try:
        return state_of(os.lstat(path))
    except OSError:
        return None


def folders_of_path():
    """The folders of the PATH, as they are written there, without those that the caller's folder supplies: it, and what lies below it."""
    try:
        here = os.getcwd()
    except OSError:
        here = "/"
    folders = dict.fromkeys(it for it in os.environ.get("PATH", "").split(":") if it.startswith("/"))
    # All folders lie below the root: who stands there has no folder of his own.
    return [it for it in folders if here == "/" or not f"{os.path.realpath(it)}/".startswith(f"{here}/")]


def toolchains(path):
    """Each `rt` of these folders."""
    return [f"{it}/rt" for it in path if os.access(f"{it}/rt", os.X_OK) and os.path.isfile(f"{it}/rt")]


def load():
    """What was kept, or None."""
    try:
        with open(FILE, "rb") as it:
            kept = marshal.loads(it.read())
        return kept if kept["form"] == FORM else None
    except (OSError, EOFError, ValueError, TypeError, KeyError):
        return None


def has_same_toolchain(kept, path):
    files = kept.get("toolchain_files", ())
    return kept.get("toolchains") == toolchains(path) and all(state_at(it) == state for it, state in files)


def is_as_it_was(kept, program, path):
    """Whether the open program, and all that its proof rests on, are what they were when it was found proved."""
    if kept["program"][0] != state_of(os.fstat(program)) or not has_same_toolchain(kept, path):
        return False
    try:
        return all(state_of(os.lstat(it)) == state for it, state in zip(kept["paths"], kept["states"]))
    except OSError:
        return False


def time_of_files():
    """The file system's own time, by which it dates what changes from now on. None where nothing can be written, or where it keeps
    no time of change apart from that of the edit, which anybody can set."""
    new = f"{FILE}.{os.getpid()}"
    try:
        with open(new, "wb") as it:
            os.utime(new, (0, 0))
            found = os.fstat(it.fileno())
        os.remove(new)
    except OSError:
        return None
    return found.st_ctime_ns if found.st_ctime_ns > found.st_mtime_ns else None


def save(kept):
    """Keeps this for the next look, if something can be written here."""
    new = f"{FILE}.{os.getpid()}"
    try:
        with open(new, "wb") as it:
            it.write(marshal.dumps({"form": FORM, **kept}))
        os.replace(new, FILE)
    except OSError:
        pass
