"""Plots the copper layers and the drill files of a board as docs/GUIDE.md asks of KiCad, and writes the manifest of what was plotted."""
import csv
import os
import re
from typing import NamedTuple, Optional, Tuple

import pcbnew

from .report import Problem

MANIFEST = "manifest.csv"


class File(NamedTuple):
    role: str
    name: str
    # What KiCad calls the layer, and the copper layers that a drill file's holes go through if that is not all.
    layer: str = ""
    span: Optional[Tuple[int, int]] = None


def point(x, y):
    """A place of the board, in nanometres. KiCad 6 has a type of its own for it."""
    return pcbnew.wxPoint(x, y) if is_six() else pcbnew.VECTOR2I(x, y)


def is_six():
    return pcbnew.GetBuildVersion().lstrip("(").startswith("6.")


def origin_of(board, origin):
    """The place that the files count from: the corner of the page, or the board's drill and place origin."""
    if origin == "page":
        return 0, 0
    if origin == "drill":
        place = board.GetDesignSettings().GetAuxOrigin()
        return place.x, place.y
    raise Problem(f"The origin is page or drill, and not {origin}.")


def folder_of(board):
    """The folder for the files, beside the board."""
    path = board.GetFileName()
    if not path or not os.path.isfile(path):
        raise Problem("Save the board first: its files are plotted into a folder beside it.")
    return os.path.splitext(os.path.abspath(path))[0] + "-ringcheck"


def empty_folder(folder):
    """Makes the folder, or removes the files of an earlier run, which may be of layers that the board no longer has."""
    if os.path.islink(folder):
        raise Problem(f"{folder} is a link, and files would be replaced where it leads. Remove it.")
    try:
        os.makedirs(folder, exist_ok=True)
        for name in os.listdir(folder):
            if name == MANIFEST or name.endswith((".gbr", ".drl")):
                os.remove(os.path.join(folder, name))
    except OSError as error:
        raise Problem(f"The folder {folder} cannot be written: {error.strerror}.") from None


def copper_options(controller, folder, origin):
    options = controller.GetPlotOptions()
    options.SetOutputDirectory(folder)
    options.SetUseAuxOrigin(origin == "drill")
    options.SetPlotFrameRef(False)
    options.SetMirror(False)
    options.SetNegative(False)
    options.SetScale(1.0)
    options.SetUseGerberProtelExtensions(False)
    options.SetUseGerberX2format(True)
    options.SetIncludeGerberNetlistInfo(False)
    options.SetGerberPrecision(6)
    options.SetCreateGerberJobFile(False)
    # KiCad 7 moved the kinds of drill marks out of the class.
    none = pcbnew.DRILL_MARKS_NO_DRILL_SHAPE if hasattr(pcbnew, "DRILL_MARKS_NO_DRILL_SHAPE") else pcbnew.PCB_PLOT_PARAMS.NO_DRILL_SHAPE
    options.SetDrillMarksType(none)


def plot_copper(board, folder, origin):
    """Plots each copper layer, from the top to the bottom."""
    files = []
    controller = pcbnew.PLOT_CONTROLLER(board)
    copper_options(controller, folder, origin)
    for layer in board.GetEnabledLayers().CuStack():
        controller.SetLayer(layer)
        suffix = pcbnew.BOARD.GetStandardLayerName(layer).replace(".", "_")
        opened = controller.OpenPlotfile(suffix, pcbnew.PLOT_FORMAT_GERBER, "")
        path = controller.GetPlotFileName()
        plotted = opened and controller.PlotLayer()
        controller.ClosePlot()
        if not plotted or not os.path.isfile(path) or not os.path.samefile(os.path.dirname(path), folder):
            raise Problem(f"KiCad could not plot the layer {board.GetLayerName(layer)} into {folder}.")
        files.append(File("copper", os.path.basename(path), board.GetLayerName(layer)))
    return files


def write_drill_files(board, folder, origin):
    """Writes the drill files: millimetres, decimal points, slots by G85, plated and unplated holes apart."""
    writer = pcbnew.EXCELLON_WRITER(board)
    mirror, short_header, merge, routed_slots, metric, drills, map_files = False, False, False, False, True, True, False
    writer.SetOptions(mirror, short_header, point(*origin_of(board, origin)), merge)
    writer.SetFormat(metric, pcbnew.EXCELLON_WRITER.DECIMAL_FORMAT, 3, 3)
    writer.SetRouteModeForOvalHoles(routed_slots)
    writer.CreateDrillandMapFilesSet(folder, drills, map_files)


def layer_number(word, layers):
    return {"front": 1, "back": layers}.get(word) or int(word[2:]) + 1


def drill_file(name, base, layers):
    """What a drill file is, by the name that KiCad gives it: BOARD-PTH.drl, BOARD-NPTH.drl, or BOARD-front-in1.drl of blind or buried vias."""
    kind = name[len(base) + 1 : -len(".drl")] if name.startswith(base + "-") else ""
    if kind == "PTH":
        return File("plated", name)
    if kind == "NPTH":
        return File("unplated", name)
    pair = re.fullmatch(r"(front|back|in\d+)-(front|back|in\d+)", kind)
    if not pair:
        raise Problem(f"KiCad wrote a drill file {name}, and its name does not say which layers its holes go through.")
    span = sorted(layer_number(word, layers) for word in pair.groups())
    if span[1] > layers:
        raise Problem(f"KiCad wrote a drill file {name} for a board with {layers} copper layers.")
    return File("plated", name, "", tuple(span))


def plot_board(board, folder, origin):
    """Plots into the emptied folder. The files are in the order of the manifest: copper from the top, plated, unplated."""
    empty_folder(folder)
    copper = plot_copper(board, folder, origin)
    write_drill_files(board, folder, origin)
    base = os.path.splitext(os.path.basename(board.GetFileName()))[0]
    drills = [drill_file(it, base, len(copper)) for it in sorted(os.listdir(folder)) if it.endswith(".drl")]
    if not drills:
        raise Problem(f"KiCad wrote no drill file into {folder}.")
    return copper + sorted(drills, key=lambda it: it.role)


def write_manifest(folder, files):
    """Writes the manifest. It has the two columns of spans only if a drill file has one."""
    spans = any(it.span for it in files)
    rows = [["role", "name", "file"] + (["first", "last"] if spans else [])]
    rows += [[it.role, it.name, it.name] + (list(it.span or ("", "")) if spans else []) for it in files]
    path = os.path.join(folder, MANIFEST)
    try:
        with open(path, "w", encoding="utf-8", errors="surrogateescape", newline="") as out:
            csv.writer(out, lineterminator="\n").writerows(rows)
    except OSError as error:
        raise Problem(f"The manifest {path} cannot be written: {error.strerror}.") from None
