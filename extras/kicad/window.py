"""The two windows: one asks for the rules, and the other lists the findings. All that they show is found without them."""
import json
import os

import pcbnew
import wx

from . import checking, marking
from .plotting import point
from .report import Problem

COLUMNS = [("No.", 45), ("Finding", 65), ("Layer", 70), ("Hole", 260), ("Place, mm", 150), ("Has, mm", 90), ("Rule, mm", 90), ("Why", 300)]
ORIGINS = [("page", "Corner of the page"), ("drill", "Drill/place file origin")]
FAR = 1000000000
# What was last asked for in this run of KiCad, by board.
asked = {}


def has_screen():
    return wx.GetApp() is not None


def store():
    """The user's own file, which keeps the path of the program from one run of KiCad to the next."""
    return os.path.join(pcbnew.SETTINGS_MANAGER.GetUserSettingsPath(), "ringcheck.json")


def stored_program():
    try:
        with open(store(), encoding="utf-8") as it:
            return str(json.load(it)["program"])
    except (OSError, ValueError, KeyError, TypeError):
        return ""


def keep_program(program):
    """Keeps the path. Where it cannot be kept, the user has to name it again in the next run of KiCad."""
    try:
        with open(store(), "w", encoding="utf-8") as it:
            json.dump({"program": program}, it)
    except OSError:
        pass


class Asking(wx.Dialog):
    """Asks for the rules, the layer, the origin and the program."""

    def __init__(self, parent, board, settings):
        super().__init__(parent, title="ringcheck")
        self.layers = list(marking.drawing_layers(board))
        chosen = settings.layer if settings.layer in self.layers else (self.layers or [""])[0]
        self.ring = wx.TextCtrl(self, value=settings.ring)
        self.gap = wx.TextCtrl(self, value=settings.gap)
        self.layer = wx.Choice(self, choices=self.layers)
        self.layer.SetStringSelection(chosen)
        self.origin = wx.Choice(self, choices=[words for _, words in ORIGINS])
        self.origin.SetSelection(int(settings.origin == "drill"))
        self.program = wx.TextCtrl(self, value=settings.program, size=(300, -1))
        self.program.SetHint("ringcheck of the PATH")
        self.lay_out()

    def lay_out(self):
        table = wx.FlexGridSizer(2, 6, 12)
        rows = [("Least annular ring, mm", self.ring), ("Least gap between holes, mm", self.gap), ("Draw findings on layer", self.layer)]
        rows += [("Origin of the files", self.origin), ("Program", self.program)]
        for words, control in rows:
            table.Add(wx.StaticText(self, label=words), 0, wx.ALIGN_CENTER_VERTICAL)
            table.Add(control, 1, wx.EXPAND)
        whole = wx.BoxSizer(wx.VERTICAL)
        whole.Add(table, 1, wx.EXPAND | wx.ALL, 12)
        whole.Add(self.CreateButtonSizer(wx.OK | wx.CANCEL), 0, wx.EXPAND | wx.ALL, 12)
        self.SetSizerAndFit(whole)

    def settings(self):
        origin = ORIGINS[self.origin.GetSelection()][0]
        texts = [it.GetValue().strip() for it in (self.ring, self.gap, self.program)]
        return checking.Settings(texts[0], texts[1], self.layer.GetStringSelection(), origin, texts[2])


class Listing(wx.Dialog):
    """Lists the findings. A click on one centres the view on its mark."""

    NAME = "ringcheck findings"

    def __init__(self, parent, board, outcome):
        style = wx.DEFAULT_DIALOG_STYLE | wx.RESIZE_BORDER
        super().__init__(parent, title="ringcheck", size=(1100, 300), style=style, name=self.NAME)
        self.path, self.outcome = board.GetFileName(), outcome
        self.list = wx.ListCtrl(self, style=wx.LC_REPORT | wx.LC_SINGLE_SEL)
        for column, (words, width) in enumerate(COLUMNS):
            self.list.InsertColumn(column, words, width=width)
        for row in outcome.rows:
            self.list.Append([str(it) for it in row[: len(COLUMNS)]])
        self.list.Bind(wx.EVT_LIST_ITEM_SELECTED, self.clicked)
        self.answer = wx.StaticText(self)
        self.Bind(wx.EVT_CLOSE, lambda _: self.Destroy())
        whole = wx.BoxSizer(wx.VERTICAL)
        for words in (outcome.summary, *(f"Warning: {it}" for it in outcome.warnings), f"Checked files: {outcome.folder}"):
            whole.Add(wx.StaticText(self, label=words), 0, wx.ALL, 6)
        whole.Add(self.list, 1, wx.EXPAND)
        whole.Add(self.answer, 0, wx.ALL, 6)
        self.SetSizer(whole)
        if parent:
            # At the foot of the editor, where it does not hide the middle of the board.
            frame = parent.GetScreenRect()
            self.SetPosition((frame.x + (frame.width - self.GetSize().width) // 2, frame.bottom - self.GetSize().height - 20))

    def clicked(self, event):
        self.answer.SetLabel(centre_on(self.path, self.outcome.rows[event.GetIndex()]))


def centre_on(path, row):
    """Centres the view on a finding's mark, and says why if it cannot. The mark is looked up: it may have been removed since."""
    if not hasattr(pcbnew, "FocusOnItem"):
        return "This version of KiCad does not let a plugin move the view: look for the number on the board."
    if path != pcbnew.GetBoard().GetFileName():
        return "Another board is open now."
    shape = marking.mark_at(pcbnew.GetBoard(), row.place)
    if shape is None:
        return "The mark of this finding is no longer on the board."
    # KiCad moves the view only to what is out of it, or near its edge: first to a place that is far away.
    away = pcbnew.PCB_TEXT(pcbnew.GetBoard())
    away.SetPosition(point(row.place[0] + FAR, row.place[1]))
    pcbnew.FocusOnItem(away)
    pcbnew.FocusOnItem(shape)
    return ""


def ask(parent, board):
    """The settings that the user agrees to, or None."""
    settings = asked.get(board.GetFileName())
    if settings is None:
        settings = checking.settings_of(board)._replace(program=stored_program())
    with Asking(parent, board, settings) as dialog:
        if dialog.ShowModal() != wx.ID_OK:
            return None
        settings = dialog.settings()
    asked[board.GetFileName()] = settings
    if settings.program != stored_program():
        keep_program(settings.program)
    return settings


def start(board):
    parent = wx.FindWindowByName("PcbFrame")
    old = wx.FindWindowByName(Listing.NAME)
    if old:
        old.Close()
    try:
        settings = ask(parent, board)
        if settings is None:
            return
        outcome = checking.check_board(board, settings)
    except Problem as problem:
        # Marks of an earlier run may be gone.
        pcbnew.Refresh()
        wx.MessageBox(str(problem), "ringcheck", wx.OK | wx.ICON_ERROR, parent)
        return
    pcbnew.Refresh()
    Listing(parent, board, outcome).Show()
