"""From the open board to its findings: the settings, the files, the program, and the marks. It needs no screen."""
from typing import NamedTuple

import pcbnew

from . import marking, plotting
from .report import CAUSES, Problem, find_program, has_plated_hole, millimetres, run_report, warnings_of

# A fabricator's ring of 0.15 mm less the rounding of KiCad's drill files, and the gap of docs/GUIDE.md.
DEFAULTS = {"ring": "0.149", "gap": "0.25", "layer": "", "origin": "page"}


class Settings(NamedTuple):
    """The rules as text, in millimetres. Without a layer, the first of `drawing_layers` is taken."""

    ring: str
    gap: str
    layer: str
    origin: str
    program: str = ""


class Row(NamedTuple):
    """A finding as the list shows it, and its place on the board, in nanometres."""

    number: int
    kind: str
    layer: str
    hole: str
    at: str
    has: str
    rule: str
    why: str
    place: tuple


class Outcome(NamedTuple):
    summary: str
    warnings: list
    rows: list
    folder: str


def settings_of(board):
    """The text variables RINGCHECK_RING, _GAP, _LAYER and _ORIGIN of the board. No board names the program: it may be a stranger's."""
    words = {}
    for it, otherwise in DEFAULTS.items():
        variable = "${RINGCHECK_" + it.upper() + "}"
        # A variable that the board does not have stays as it is.
        text = str(pcbnew.ExpandTextVars(variable, board.GetProject())).strip()
        words[it] = otherwise if text == variable else text
    return Settings(**words)


def layer_of(board, name):
    layers = marking.drawing_layers(board)
    if not layers:
        raise Problem("The board has no user layer to draw on. Enable one, such as User.9, under Board Setup, Board Editor Layers.")
    if name and name not in layers:
        raise Problem(f"The findings cannot be drawn on the layer {name}. Choose one of {', '.join(layers)}, or enable it under Board Setup, Board Editor Layers.")
    return layers[name] if name else next(iter(layers.values()))


def name_of(owners, files, hole, place):
    """A hole by its pad or via, else by its number in the drill file."""
    return owners.at(place) or f"hole {hole.number} of {files[hole.drill - 1].name}"


def row_of(finding, rules, files, owners, origin):
    places = [marking.board_place(it.middle(), origin) for it in finding.holes]
    holes = " and ".join(name_of(owners, files, *it) for it in zip(finding.holes, places))
    middle = tuple(sum(it) // len(places) for it in zip(*places))
    layer = files[finding.layer - 1].layer if finding.layer else ""
    has = "none" if finding.has is None else millimetres(finding.has)
    rule = millimetres(rules["ring_pm" if finding.kind == "ring" else "gap_pm"])
    why = CAUSES.get(finding.cause, finding.cause or "")
    if finding.waived is not None:
        why += f" (waived: {finding.waived})"
    at = ", ".join(millimetres(it * 1000) for it in middle)
    return Row(finding.number, finding.kind, layer, holes, at, has, rule, why, middle)


def summary_of(answer, findings):
    rules = f"ring {millimetres(answer['rules']['ring_pm'])} mm, gap {millimetres(answer['rules']['gap_pm'])} mm"
    if findings:
        return f"{len(findings)} finding{'s' if len(findings) > 1 else ''} ({rules})"
    if not has_plated_hole(answer):
        return f"PASS ({rules}), but no plated hole was checked"
    return f"PASS ({rules})"


def check_board(board, settings):
    """Plots, checks and marks. The marks of an earlier run go before anything can fail that depends on the board, so none is out of date."""
    layer = layer_of(board, settings.layer)
    program = find_program(settings.program)
    folder = plotting.folder_of(board)
    marking.remove_marks(board)
    files = plotting.plot_board(board, folder, settings.origin)
    plotting.write_manifest(folder, files)
    answer, findings = run_report(program, folder, plotting.MANIFEST, settings.ring, settings.gap)
    if [it["name"] for it in answer["files"]] != [it.name for it in files]:
        raise Problem("The program reported on other files than those that were plotted.")
    if findings:
        marking.mark(board, layer, settings.origin, findings, answer["rules"])
    owners, origin = marking.Owners(board), plotting.origin_of(board, settings.origin)
    rows = [row_of(it, answer["rules"], files, owners, origin) for it in findings]
    return Outcome(summary_of(answer, findings), warnings_of(answer), rows, folder)


def print_findings(board):
    """Where there is no window: takes the rules of the board's text variables and prints the findings."""
    try:
        outcome = check_board(board, settings_of(board))
    except Problem as problem:
        print(f"ringcheck: {problem}")
        return
    print(f"ringcheck: {outcome.summary}")
    for words in outcome.warnings:
        print(f"warning: {words}")
    for row in outcome.rows:
        print("\t".join(str(it) for it in row[:-1]))
