"""Runs `ringcheck report` on a manifest and reads its JSON. Nothing here needs KiCad, so it can be tried with a made-up program."""
import json
import os
import subprocess
from typing import NamedTuple, Optional, Tuple

# The status that each result of a report ends with.
STATUSES = {"pass": 0, "waived": 0, "findings": 1, "refused": 2, "device": 4}
CAUSES = {
    "small": "pad too small",
    "off": "off centre",
    "edge": "in a rounded pad or contour, too near its edge",
    "macro": "only a macro flash whose shape the profile wide does not count: choose circle, oval, rectangle or rounded rectangle",
    "polygon": "only a polygon flash",
    "holed": "only a flash with a hole",
    "scaled": "only a scaled flash",
    "turned": "only a turned flash",
    "clear": "only a clear flash",
    "cleared": "only a cleared flash",
    "drawn": "only drawn copper",
    "none": "no pad at the hole",
    "oblique": "oblique slot: not judged",
}
LIMIT = 600


class Problem(Exception):
    """Why there is no result, in sentences for whoever started the plugin."""


class Hole(NamedTuple):
    drill: int
    number: int
    start: Tuple[int, int]
    end: Tuple[int, int]
    diameter: int

    def middle(self):
        return tuple((one + other) // 2 for one, other in zip(self.start, self.end))


class Finding(NamedTuple):
    """Lengths are picometres in the coordinates of the files. A ring has one hole and a layer, a gap has two holes."""

    number: int
    kind: str
    layer: Optional[int]
    holes: Tuple[Hole, ...]
    has: Optional[int]
    cause: Optional[str]
    waived: Optional[str]


def millimetres(length):
    """A length in picometres with all of its digits, as the report for people writes it."""
    whole, rest = divmod(abs(length), 10**9)
    digits = f"{whole}.{rest:09}".rstrip("0").rstrip(".")
    return "-" + digits if length < 0 else digits


def is_program(path):
    return os.path.isfile(path) and os.access(path, os.X_OK)


def find_program(wanted=""):
    """The wanted program, else the one that RINGCHECK names, else the first `ringcheck` of the PATH.

    Only absolute folders are searched, since the working folder may be a board's, and hold a program of that name."""
    wanted = wanted or os.environ.get("RINGCHECK", "")
    if wanted:
        path = os.path.expanduser(wanted)
        if not os.path.isabs(path):
            raise Problem(f"Name the program by its whole path, and not as {wanted}.")
        if not is_program(path):
            raise Problem(f"There is no program {path}.")
        return path
    name = "ringcheck.exe" if os.name == "nt" else "ringcheck"
    for folder in os.environ.get("PATH", "").split(os.pathsep):
        if os.path.isabs(folder) and is_program(os.path.join(folder, name)):
            return os.path.join(folder, name)
    raise Problem("The program ringcheck is not in the PATH that KiCad has. Install it, or name its path.")


def run(words, folder):
    """The status of a program that is run in a folder, and what it printed."""
    try:
        ran = subprocess.run(words, cwd=folder, stdin=subprocess.DEVNULL, stdout=subprocess.PIPE, stderr=subprocess.PIPE, timeout=LIMIT, check=False)
    except subprocess.TimeoutExpired:
        raise Problem(f"{words[0]} did not end within {LIMIT} seconds, and was stopped.") from None
    except (OSError, ValueError) as error:
        raise Problem(f"{words[0]} cannot be run: {error}.") from None
    return ran.returncode, ran.stdout.decode("utf-8", "replace"), ran.stderr.decode("utf-8", "replace")


def last_line(*texts):
    lines = [line for text in texts for line in text.splitlines() if line.strip()]
    return lines[-1].strip() if lines else "it printed nothing"


def refused_line(answer):
    """The line that the text format prints for a refusal."""
    names = "" if answer.get("name") is None else f" name={answer['name']}"
    if "file" in answer:
        what = f"file={answer['file']}"
    else:
        what = "waivers" if answer.get("waivers") else "manifest"
    parts = [f"{it}={answer[it]}" for it in ("place", "byte", "reason") if it in answer]
    return " ".join(["refused", what, *parts]) + names


def explanation(program, folder, answer):
    """What `ringcheck explain` says of the reason, or nothing."""
    status, printed, _ = run([program, "explain", str(answer.get("reason"))], folder)
    return "\n\n" + printed.strip() if status == 0 and printed.strip() else ""


def object_of(status, printed, complaint):
    """The JSON object that was printed, where it agrees with the status. Anything else is a Problem, so no doubtful run passes."""
    if status == 3:
        said = complaint.strip() or (printed.splitlines() or ["usage"])[0]
        raise Problem(f"ringcheck did not take its command line: {said}. Write ring and gap in millimetres with a decimal point, such as 0.149 and 0.25.")
    if status == 5:
        raise Problem(f"The launcher of the source folder ran nothing, since the program is not proved: {last_line(printed, complaint)}")
    if status not in STATUSES.values():
        raise Problem(f"The program ended with status {status}, which is none of ringcheck's: {last_line(printed, complaint)}")
    if status == 4 and printed.strip() == "memory":
        raise Problem("ringcheck ran out of memory, so nothing was checked.")
    try:
        answer = json.loads(printed)
        well = answer["format"] == "ringcheck" and answer["version"] == 3 and STATUSES[answer["result"]] == status
    except (ValueError, KeyError, TypeError):
        well = False
    if not well:
        raise Problem(f"The program ended with status {status} and printed no report of that status: {last_line(printed, complaint)[:200]}")
    return answer


def hole_of(member):
    return Hole(member["drill"], member["hole"], tuple(member["from_pm"]), tuple(member["to_pm"]), member["diameter_pm"])


def findings_of(answer):
    """The findings, with the numbers that the report and the picture give them."""
    found = []
    for it in answer["findings"]:
        holes = (hole_of(it["at"]),) + ((hole_of(it["and"]),) if it["kind"] == "gap" else ())
        found.append(Finding(it["number"], it["kind"], it.get("layer"), holes, it["has_pm"], it.get("cause"), it["waived"]))
    return found


def warnings_of(answer):
    """A line for each drill file whose own comments contradict its role."""
    files = [it for it in answer["files"] if it.get("contradicted")]
    return [f"{it['name']}: its role is {it['role']}, but its comments say that holes are {'not ' if it['role'] == 'plated' else ''}plated" for it in files]


def has_plated_hole(answer):
    """Whether a hole is plated, so that its ring was checked."""
    drills = [it for it in answer["files"] if it["role"] in ("plated", "mixed")]
    return any(it["round"] + it["slots"] > it.get("unplated", 0) for it in drills)


def run_report(program, folder, manifest, ring, gap):
    """The object of a report in the profile wide and its findings. It ends with a Problem where the program refused, or did not run."""
    words = [program, "report", "--profile=wide", f"--ring={ring}", f"--gap={gap}", "--format=json", "--", manifest]
    status, printed, complaint = run(words, folder)
    answer = object_of(status, printed, complaint)
    if answer["result"] == "refused":
        raise Problem(f"ringcheck refused what KiCad plotted, so nothing was checked:\n{refused_line(answer)}{explanation(program, folder, answer)}")
    if answer["result"] == "device":
        what = answer.get("name") or "the manifest"
        raise Problem(f"ringcheck cannot read {what} in {folder}, so nothing was checked.")
    try:
        found = findings_of(answer)
        layers = {it["number"] for it in answer["files"] if it["role"] == "copper"} | {None}
        well = bool(found) == (answer["result"] != "pass") and all(it.layer in layers for it in found) and {"ring_pm", "gap_pm"} <= set(answer["rules"])
    except (KeyError, TypeError):
        well = False
    if not well:
        raise Problem("The program printed a report that is not as docs/JSON.md has it.")
    return answer, found
