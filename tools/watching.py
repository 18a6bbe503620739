"""Looks each second at the processes of rattle: at which crate each works, the seconds of a processor that it has used, and the most memory that it held.

What ends between two looks lacks that second.
"""
import os
import re
import threading

TICKS = os.sysconf("SC_CLK_TCK")


def text_of(path):
    try:
        with open(path, "rb") as it:
            return it.read()
    except OSError:
        return b""


def words_of(process):
    return text_of(f"/proc/{process}/cmdline").decode(errors="replace").split("\0")


def crate_in(words):
    """The crate that a command of rattle names, or None."""
    at = words.index("--crate-name") + 1 if "--crate-name" in words else len(words)
    return words[at] if at < len(words) else None


def is_below(process, top, stats):
    """Whether a process was started by another, or by one that this started."""
    while process in stats and process != top:
        process = stats[process][1].decode()
    return process == top


class Watch:
    """Looks each second at the processes of rattle, until it is ended. `step_of` gives of a process, of which the states of all processes are
    known, the step that it works for, or None."""

    def __init__(self, step_of):
        self.step_of, self.used, self.peak = step_of, {}, {}
        self.over = threading.Event()

    def look(self):
        texts = {it: text_of(f"/proc/{it}/stat") for it in os.listdir("/proc") if it.isdigit()}
        stats = {it: text.rpartition(b")")[2].split() for it, text in texts.items() if text}
        steps = {it: self.step_of(it, stats) for it in stats if b"(rattle)" in texts[it]}
        for process, step in steps.items():
            if not step:
                continue
            # Its own time and that of the children that it has waited for: user and system each.
            stat = stats[process]
            key = (step, process, stat[19])
            self.used[key] = max(self.used.get(key, 0), sum(map(int, stat[11:15])) / TICKS if not steps.get(stat[1].decode()) else 0)
            held = re.search(rb"VmHWM:\s+(\d+)", text_of(f"/proc/{process}/status"))
            self.peak[step] = max(self.peak.get(step, 0), int(held[1]) // 1000 if held else 0)

    def run(self):
        while not self.over.wait(1):
            self.look()

    def seconds(self):
        """By its name the seconds of each step."""
        found = {}
        for (step, _, _), used in self.used.items():
            found[step] = found.get(step, 0) + used
        return found
