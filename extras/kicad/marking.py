"""Draws findings on a layer of the board, in a group that the next run removes, and says which pad or via a hole is of."""
import math

import pcbnew

from .plotting import is_six, origin_of, point

GROUP = "ringcheck"
# Nobody draws lines of these widths by hand. KiCad's undo brings marks back without their group, and then they are known by them.
LINE, STROKE = 100007, 150007
TEXT = 1000000
# A drill file's places are rounded to 0.001 mm.
REACH = 1000


def nanometres(picometres):
    return (picometres + 500) // 1000


def board_place(place, origin):
    """A place of the files on the board: they count y upwards from the origin, and the board counts it downwards."""
    return origin[0] + nanometres(place[0]), origin[1] - nanometres(place[1])


def drawing_layers(board):
    """The enabled layers that may be drawn on, by KiCad's own names for them: no layer that a fabricator gets."""
    names = ["User_9", "User_8", "User_7", "User_6", "User_5", "User_4", "User_3", "User_2", "User_1", "Cmts_User", "Dwgs_User", "Eco1_User", "Eco2_User"]
    enabled = board.GetEnabledLayers()
    return {it.replace("_", "."): getattr(pcbnew, it) for it in names if enabled.Contains(getattr(pcbnew, it))}


def is_mark(item):
    group = item.GetParentGroup()
    if group and group.GetName() == GROUP:
        return True
    if isinstance(item, pcbnew.PCB_TEXT):
        return item.GetTextThickness() == STROKE
    return isinstance(item, pcbnew.PCB_SHAPE) and item.GetWidth() == LINE


def remove_marks(board):
    """Removes what is drawn in the group, and marks that an undo took out of it. A track or a footprint in the group stays on the board."""
    for item in list(board.GetDrawings()):
        if is_mark(item):
            board.Remove(item)
    for group in list(board.Groups()):
        if group.GetName() == GROUP:
            # What stays on the board must not know a group that is gone.
            group.RemoveAll()
            board.Remove(group)


def mark_at(board, place):
    """The line or the circle whose middle is at a finding's place, or None."""
    for item in board.GetDrawings():
        if is_mark(item) and isinstance(item, pcbnew.PCB_SHAPE):
            middle = item.GetCenter()
            if abs(middle.x - place[0]) <= 1 and abs(middle.y - place[1]) <= 1:
                return item
    return None


class Marker:
    """Draws into one group. The same circle is drawn once, and a hole's ring findings share one text, since they would hide each other."""

    def __init__(self, board, layer, origin):
        self.board, self.layer, self.origin = board, layer, origin_of(board, origin)
        self.group = pcbnew.PCB_GROUP(board)
        self.group.SetName(GROUP)
        board.Add(self.group)
        self.circles = set()

    def add(self, item):
        item.SetLayer(self.layer)
        self.board.Add(item)
        self.group.AddItem(item)

    def place_of(self, hole):
        return board_place(hole.middle(), self.origin)

    def reach_of(self, hole, more):
        """From a hole's middle to its edge, along its length, and some more."""
        length = round(math.hypot(hole.end[0] - hole.start[0], hole.end[1] - hole.start[1]))
        return nanometres((length + hole.diameter) // 2 + more)

    def circle(self, place, radius):
        if (place, radius) in self.circles:
            return
        self.circles.add((place, radius))
        shape = pcbnew.PCB_SHAPE(self.board)
        shape.SetShape(pcbnew.SHAPE_T_CIRCLE)
        shape.SetCenter(point(*place))
        shape.SetEnd(point(place[0] + radius, place[1]))
        shape.SetWidth(LINE)
        self.add(shape)

    def line(self, one, other):
        shape = pcbnew.PCB_SHAPE(self.board)
        shape.SetShape(pcbnew.SHAPE_T_SEGMENT)
        shape.SetStart(point(*one))
        shape.SetEnd(point(*other))
        shape.SetWidth(LINE)
        self.add(shape)

    def text(self, place, words):
        text = pcbnew.PCB_TEXT(self.board)
        text.SetText(words)
        text.SetPosition(point(*place))
        text.SetTextSize(pcbnew.wxSize(TEXT, TEXT) if is_six() else point(TEXT, TEXT))
        text.SetTextThickness(STROKE)
        self.add(text)


def mark(board, layer, origin, findings, rules):
    """Draws a circle where each lacking ring would end, a line across each lacking gap, and the numbers of the findings."""
    marker = Marker(board, layer, origin)
    rings = {}
    for it in findings:
        if it.kind == "ring":
            rings.setdefault(it.holes[0], []).append(str(it.number))
            continue
        ends = [marker.place_of(hole) for hole in it.holes]
        for hole, place in zip(it.holes, ends):
            marker.circle(place, marker.reach_of(hole, rules["gap_pm"] // 2))
        if ends[0] != ends[1]:
            marker.line(*ends)
        highest = min(place[1] for place in ends) - max(marker.reach_of(hole, 0) for hole in it.holes)
        marker.text((sum(place[0] for place in ends) // 2, highest - TEXT), str(it.number))
    for hole, numbers in rings.items():
        place, radius = marker.place_of(hole), marker.reach_of(hole, rules["ring_pm"])
        marker.circle(place, radius)
        marker.text((place[0], place[1] + radius + TEXT), " ".join(numbers))


def holes_of(board):
    """The pads and vias that have a hole, with the place of each."""
    for track in board.GetTracks():
        if track.Type() == pcbnew.PCB_VIA_T:
            net = track.GetNetname()
            yield track.GetPosition(), "via of " + net if net else "via"
    for footprint in board.GetFootprints():
        for pad in footprint.Pads():
            if pad.GetDrillSize().x > 0:
                words = [footprint.GetReference(), "pad", pad.GetNumber()]
                yield pad.GetPosition(), " ".join(it for it in words if it)


class Owners:
    """Finds the pad or via whose hole is nearest to a place, within the rounding of a drill file."""

    def __init__(self, board):
        self.cells = {}
        for place, words in holes_of(board):
            self.cells.setdefault((place.x // REACH, place.y // REACH), []).append(((place.x, place.y), words))

    def at(self, place):
        near = []
        for x in range(place[0] // REACH - 1, place[0] // REACH + 2):
            for y in range(place[1] // REACH - 1, place[1] // REACH + 2):
                for (its_x, its_y), words in self.cells.get((x, y), []):
                    near.append(((its_x - place[0]) ** 2 + (its_y - place[1]) ** 2, words))
        distance, words = min(near, default=(None, ""))
        return words if distance is not None and distance <= REACH**2 else ""
