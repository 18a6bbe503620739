#!/usr/bin/env python3
"""Makes packages at the border of what the wide profile may further read and count of the files of other tools, and says what is right.

    dialect_packages.py write --seed S --count N FOLDER               writes each package to a folder of its own, FOLDER/00001 and so on
    dialect_packages.py compare --seed S --count N --oracle FOLDER PROGRAM
    dialect_packages.py self --seed S --count N --oracle FOLDER       tries the laws of the rows with the slow program alone, N packages for each row
    dialect_packages.py dialects --oracle FOLDER PACKAGES             what the slow program says of each package in a folder, with the rows and without

Each row is one thing that other tools write; `--rows NAME,NAME` takes some of them (all of them otherwise):

    several-in-one-pair   several pieces between two `%`, which spell what each spells alone
    end-of-route-m17      `M17` where `M16` is due at the end of a route
    defined-twice-alike   an aperture or a tool that is defined again just as before
    pair-after-flash      a coordinate without an operation repeats the last one, a flash or a move too
    code-word             `ICAS` between two `%`, an older word for the code of the text, which says nothing
    drill-words           words of older drill files that say nothing, and comments after the end
    layer-words           other words of older layers that say nothing, or end the text
    repeated-hits         `R` with a count and a step, after a hit
    said-by-the-user      a manifest that names the unit, the digits and the zeros of a drill file
    all-primitives        a macro has the shape by its first primitive, and in its place that by each later one that holds the one so far
    polygons              a regular polygon of a macro is at least the disc inside of it, where the macro is turned by quarters
    polygon-apertures     so is a flash of the standard polygon aperture
    turned                what is turned is at least its centre disc

The slow program is oracle_wide.py in the folder of --oracle, which is not in this repository and knows none of these rows. This script adds them to it,
from their definitions, plainly and slowly. `compare` runs `PROGRAM check --profile wide` on each package and prints where it differs from the slow program with the rows.
`self` asks that what is read without a row has the same answer with it, that no hole that is held without it lacks its ring with it,
and that the greatest discs that a shape covers lie in the copper of its flash, by a reader in floating point.
"""
import argparse
import contextlib
import math
import os
import random
import re
import sys
import tempfile
from typing import NamedTuple

import wide_packages as wide
from wide_packages import MM, STEP, mm

TEXT_ROWS = ["several-in-one-pair", "end-of-route-m17", "defined-twice-alike", "pair-after-flash", "code-word", "drill-words", "layer-words", "repeated-hits", "said-by-the-user"]
COPPER_ROWS = ["all-primitives", "polygons", "polygon-apertures", "turned"]
ROWS = TEXT_ROWS + COPPER_ROWS

ONE = 10**8  # of a value of a macro
QUARTER = 90 * ONE

# floor(10^18 cos(pi / n)) for n from 3 to 12: the disc inside of a regular polygon, in parts of the circle about it.
INSIDE = dict(
    enumerate(
        [
            500000000000000000,
            707106781186547524,
            809016994374947424,
            866025403784438646,
            900968867902419126,
            923879532511286756,
            939692620785908384,
            951056516295153572,
            959492973614497389,
            965925826289068286,
        ],
        3,
    )
)


# ------------------------------------------------------------------------------------------------
# Shapes


class Several(NamedTuple):
    """What a flash counts as, where it has more than one shape: a hole is held where one of them covers both of its ends."""

    shapes: tuple
    name: str = "several"

    def left(self):
        return min(shape.left() for shape in self.shapes)

    def right(self):
        return max(shape.right() for shape in self.shapes)

    def sides(self):
        return self.shapes[0].sides()


class Polygon(NamedTuple):
    """A primitive: a regular polygon about the flash."""

    corners: int
    diameter: int


class Tilted(NamedTuple):
    """A primitive: a rectangle about the flash, turned by other than quarters."""

    width: int
    height: int
    rotation: int


def moved(shape, x, y):
    """A shape about (0, 0), moved."""
    return shape.moved(x, y) if hasattr(shape, "moved") else shape._replace(x=x, y=y)


def held(pad, hole, reach):
    """One shape of the pad covers both ends."""
    shapes = pad.shapes if isinstance(pad, Several) else [pad]
    return any(shape.covers(hole.x1, hole.y1, reach) and shape.covers(hole.x2, hole.y2, reach) for shape in shapes)


@contextlib.contextmanager
def changed(module, **functions):
    """Functions of a module, replaced for a while."""
    before = {name: getattr(module, name) for name in functions}
    for name, function in functions.items():
        setattr(module, name, function)
    try:
        yield
    finally:
        for name, function in before.items():
            setattr(module, name, function)


# ------------------------------------------------------------------------------------------------
# The slow program with the rows

NUMBERED_FORMAT = re.compile(rb"%FSLAN[0-9]G[0-9](X[0-9][0-9]Y[0-9][0-9])D[0-9]M[0-9]\*%")


class Said(NamedTuple):
    """What a manifest says of a drill file."""

    unit: object
    pattern: object
    zeros: object


NOTHING_SAID = Said(None, None, None)
THIRD_MANIFEST = b"role,name,file,first,last,unit,digits,zeros"
UNITS = {b"": None, b"inch": "Inch", b"mm": "Millimetre"}


def said_by(record):
    """What a record says of its file, or None where it can't be read."""
    if len(record) != 8:
        return None
    unit, digits, zeros = record[5:]
    if unit not in UNITS or not re.fullmatch(rb"([1-6]:[1-6])?", digits) or zeros not in (b"", b"LZ", b"TZ") or (record[0] == b"copper" and unit) or (digits + zeros and not unit):
        return None
    return Said(UNITS[unit], (int(digits[:1]), int(digits[2:])) if digits else None, zeros or None)


class Slow:
    """The slow program of the wide profile, and some of the rows."""

    def __init__(self, oracle, rows):
        self.w, self.o, self.rows = oracle, oracle.o, frozenset(rows)
        self.read_layer_before, self.spell_before, self.cut_before = oracle.read_layer, oracle.spell_item, oracle.o.cut
        self.rule_before, self.primitives_before = oracle.o.layer_rule, oracle.primitives
        self.read = {}  # what the last texts were read as, or the fault
        self.repeat_line = re.compile(rb"R" + oracle.o.DIGITS + rb"(?:X" + oracle.o.RUN + rb")?(?:Y" + oracle.o.RUN + rb")?")

    def read_once(self, key, reader):
        """What a text is read as; each is read once for a while."""
        if key not in self.read:
            if len(self.read) > 8:
                self.read.clear()
            try:
                self.read[key] = reader()
            except self.o.Fault as fault:
                self.read[key] = fault
        if isinstance(self.read[key], self.o.Fault):
            raise self.read[key]
        return self.read[key]

    # What a layer spells

    def spell(self):
        """What an item spells, for one text: it knows the last operation."""
        last = None

        def spell_item(item, _):
            nonlocal last
            commands = self.spell_one(item, last)
            for command in commands:
                if isinstance(command, self.o.Operate):
                    last = command.operation
            return commands

        return spell_item

    def spell_one(self, item, last):
        if len(item) > self.o.MAX_ITEM:
            raise self.o.Refused("TooLong")
        if item.startswith(b"%"):
            return self.spell_pair(item)
        word = item[:-1]
        if word == b"M00" and "layer-words" in self.rows:
            return [self.o.Finish()]
        if last in ("Flash", "Move") and "pair-after-flash" in self.rows and b"%" not in word:
            shape = self.o.OPERATE_WORD.fullmatch(word)
            if shape and shape[6] is None and any(run is not None for run in shape.groups()[1:5]):
                return self.o.spell_word(word + self.o.OPERATION_CODES[last], False)
        return self.spell_before(item, last == "Plot")

    def spell_pair(self, item):
        """Of what stands between two `%`."""
        pieces = item[1:-2].split(b"*")
        if "several-in-one-pair" not in self.rows or len(pieces) == 1 or not item.endswith(b"*%") or pieces[0].startswith(b"AM"):
            return self.spell_piece(item)
        commands = []
        for piece in pieces:
            if piece.startswith(b"AM"):
                raise self.o.Refused("BadWord")
            commands += self.spell_piece(b"%" + piece + b"*%")
        return commands

    def spell_piece(self, item):
        if item == b"%ICAS*%" and "code-word" in self.rows:
            return []
        if "layer-words" in self.rows:
            numbered = NUMBERED_FORMAT.fullmatch(item)
            if numbered:
                item = b"%FSLA" + numbered[1] + b"*%"
        return self.spell_before(item, False)

    def cut(self, text):
        """The items; with the old words `M00` ends a text as `M02` does."""
        shape = self.cut_before(text)
        for at, (byte, item) in enumerate(shape.items):
            if item == b"M00*" and "layer-words" in self.rows:
                return self.o.Cut(shape.items[: at + 1], True, text.index(b"*", byte) + 1)
        return shape

    def layer_rule(self, before, command):
        if "defined-twice-alike" in self.rows and isinstance(command, self.o.Define) and before.apertures.get(command.number) == command.template:
            return "InRegion" if before.in_region else None
        return self.rule_before(before, command)

    def read_layer(self, text):
        return self.read_once(text, lambda: self.read_layer_anew(text))

    def read_layer_anew(self, text):
        with changed(self.w, spell_item=self.spell()), changed(self.o, cut=self.cut, layer_rule=self.layer_rule):
            layer = self.read_layer_before(text)
        self.count_further(layer)
        return layer

    # What a flash counts as

    def count_further(self, layer):
        """Gives each flash that is neither clear nor cleared the shapes that the rows give it."""
        shapes = list(self.shapes_of_flashes(layer))
        assert len(shapes) == sum(isinstance(row, self.o.Flash) for row in layer.rows)
        following = iter(shapes)
        for at, row in enumerate(layer.rows):
            if isinstance(row, self.o.Flash):
                found = [moved(shape, row.x, row.y) for shape in next(following)]
                found = [shape for shape in found if self.fits(shape)]
                if found and row.what not in (self.o.Other("Clear"), self.o.Other("Cleared")):
                    layer.rows[at] = self.o.Flash(row.x, row.y, Several(tuple(found)))

    def fits(self, shape):
        if isinstance(shape, self.w.Rounded):
            return self.w.fits(shape)
        return shape.radius <= self.o.MAX_LENGTH // 2

    def shapes_of_flashes(self, layer):
        """For each flash, copies too, the shapes about (0, 0) that the rows give it; none where the slow program knows best."""
        before, mirror = self.o.Before(), b"N"
        for _, _, command in layer.placed:
            if isinstance(command, self.o.Operate) and command.operation == "Flash":
                shapes = self.shapes_of_flash(before, mirror)
                for _ in before.copies():
                    yield shapes
            if isinstance(command, self.o.Mirror):
                mirror = command.axes
            if not isinstance(command, self.w.Clear):
                before.take(command)

    def shapes_of_flash(self, before, mirror):
        template = before.aperture
        if before.scale != ONE:
            return []
        if isinstance(template, self.o.Named):
            return self.shapes_of_macro(before.macros[template.name], template.parameters, before, mirror)
        if any(size > 0 for size in self.o.hole_sizes(template)):
            return []
        sizes = [before.dec_pm(size) for size in self.o.outer_sizes(template)]
        if template.letter == b"P" and "polygon-apertures" in self.rows:
            return self.disc_inside(template.sizes[1] // ONE, sizes[0])
        if template.letter in (b"R", b"O") and "turned" in self.rows and before.turn % QUARTER != 0:
            return [self.turned_rectangle(*sizes)]
        return []

    def disc_inside(self, corners, diameter):
        return [self.o.Disc(0, 0, diameter * INSIDE[corners] // (2 * 10**18))] if diameter <= self.o.MAX_LENGTH else []

    def turned_rectangle(self, width, height):
        """A rectangle about (0, 0), turned by any angle: the disc inside of it."""
        return self.o.Disc(0, 0, min(width, height) // 2)

    def shapes_of_macro(self, pieces, parameters, before, mirror):
        try:
            found = self.primitives(pieces, parameters)
        except self.w.NotJudged:
            return []
        pm = self.o.DEC_PM[before.unit]
        shapes = [self.shape_by(primitive, found, pm) for primitive in (found if "all-primitives" in self.rows else found[:1])]
        shape = None
        for other in shapes:
            if shape is None or (other is not None and not self.is_centred(shape) and self.holds(other, shape)):
                shape = other
        if shape is None or before.turn % QUARTER and not ("turned" in self.rows and self.is_centred(shape)):
            return []
        return [shape if before.turn % QUARTER else self.placed(shape, before.turn, mirror)]

    def shape_by(self, primitive, found, pm):
        """The shape about (0, 0) of a macro by one of its primitives, or None; pm is the length of 10^-8."""
        if isinstance(primitive, (Polygon, Tilted)):
            discs = self.disc_inside(primitive.corners, primitive.diameter * pm) if isinstance(primitive, Polygon) else [self.turned_rectangle(primitive.width * pm, primitive.height * pm)]
            return next((self.w.Rounded(((0, 0),), disc.radius) for disc in discs), None)
        second = found[1:2] if isinstance(primitive, self.w.Box) else []
        others = [it for it in found if it is not primitive]
        shape = self.shape_of_first([primitive, *second, *others] if found[:1] != [primitive] else found)
        if shape is None:
            return None
        return self.w.Rounded(tuple((x * (pm // 2), y * (pm // 2)) for x, y in shape[0]), shape[1] * (pm // 2))

    def is_centred(self, shape):
        return shape.corners == ((0, 0),)

    def holds(self, shape, other):
        return all(shape.covers(x, y, other.rho) for x, y in other.corners)

    def shape_of_first(self, order):
        """The macro's shape by its first primitive, as the slow program says: doubled corners and a diameter, in 10^-8; or None."""
        with changed(self.w, primitives=lambda *_: order):
            return self.w.macro_shape(None, None)

    def placed(self, shape, turn, mirror):
        """Mirrored and turned by quarters."""
        corners = list(shape.corners)
        if b"X" in mirror:
            corners = [(-x, y) for x, y in corners]
        if b"Y" in mirror:
            corners = [(x, -y) for x, y in corners]
        if mirror in (b"X", b"Y"):
            corners.reverse()
        return self.w.Rounded(tuple(self.w.turned(p, turn // QUARTER) for p in corners), shape.rho)

    # Primitives

    def diameter(self, text, variables):
        """A diameter: with the polygons one that is a product as a whole is rounded down."""
        try:
            return self.w.value(text, variables)
        except self.w.NotJudged:
            if "polygons" not in self.rows:
                raise
        tokens = [(m.start(), m[0]) for m in self.w.TOKEN.finditer(text)]
        depth, operators = 0, []
        for at, token in tokens:
            depth += (token == b"(") - (token == b")")
            if depth == 0 and token in (b"+", b"-", b"x", b"X", b"/"):
                operators.append((at, token))
        if not operators or operators[-1][1] not in (b"x", b"X") or any(token in (b"+", b"-") for _, token in operators) or len(tokens) > 1000:
            raise self.w.NotJudged
        at = operators[-1][0]
        value = self.w.value(text[:at], variables) * self.w.value(text[at + 1 :], variables) // ONE
        if abs(value) > self.w.NAT_LIMIT:
            raise self.w.NotJudged
        return value

    def primitives(self, pieces, parameters):
        """The primitives of a macro in order, or NotJudged."""
        variables = {}
        if parameters is not None:
            for number, text in enumerate(parameters.split(b"X"), 1):
                try:
                    variables[number] = self.o.dec_read(text)
                except self.o.Refused:
                    raise self.w.NotJudged from None
        found = []
        for piece in pieces:
            if self.w.is_comment(piece):
                continue
            assignment = re.fullmatch(rb"\$([1-9][0-9]{0,2})=(.*)", piece, re.S)
            if assignment:
                variables[int(assignment[1])] = self.w.value(assignment[2], variables)
            else:
                found.append(self.primitive(piece, variables))
        if not found:
            raise self.w.NotJudged
        return self.judged(found)

    def judged(self, found):
        """The primitives of a macro, unless one of them is a dented outline: then it is not judged."""
        if any(isinstance(it, self.w.Outline) and self.w.convex(it.points) is None for it in found):
            raise self.w.NotJudged
        return found

    def primitive(self, piece, variables):
        code, *texts = piece.split(b",")
        place = {b"1": 1, b"5": 4}.get(code)  # of the diameter
        values = [self.diameter(text, variables) if at == place else self.w.value(text, variables) for at, text in enumerate(texts)]
        if code == b"5" and "polygons" in self.rows:
            if len(values) != 6 or values[0] != ONE or values[1] % ONE or values[1] // ONE not in INSIDE or values[2:4] != [0, 0] or values[4] < 0:
                raise self.w.NotJudged
            return Polygon(values[1] // ONE, values[4])
        if code == b"21" and "turned" in self.rows and len(values) == 6 and values[5] % QUARTER:
            if values[0] != ONE or min(values[1:3]) <= 0 or values[3:5] != [0, 0]:
                raise self.w.NotJudged
            return Tilted(values[1], values[2], values[5])
        plain = b",".join([code] + [self.o.dec_write(value) for value in values])
        return self.primitives_before([plain], None)[0]

    # Drill files

    def read_drill(self, text, mixed=False, said=NOTHING_SAID, unplated=False):
        return self.read_once((text, mixed, said, unplated), lambda: self.read_drill_anew(text, mixed, said, unplated))

    def read_drill_anew(self, text, mixed, said, unplated):
        """As the slow program reads it, and the rows."""
        if len(text) > self.o.MAX_FILE:
            return self.w.WideDrill(self.o.read_drill(text).holes(), [], [])
        reader = DrillReader(self, mixed, said, unplated)
        lines = text.split(b"\n")
        last = lines.pop()
        if last:
            lines.append(last)
        byte = 0
        for place, whole in enumerate(lines, 1):
            try:
                if len(whole) > self.o.MAX_ITEM:
                    raise self.o.Refused("TooLong")
                for command in reader.commands(whole.rstrip(b" \t\r")):
                    reader.judge(command)
                    reader.placed.append(self.o.Placed(place, byte, command))
            except self.o.Refused as refusal:
                raise self.o.Fault(place, byte, refusal.reason) from None
            byte += len(whole) + 1
        if reader.before.part != "after":
            raise self.o.Fault(len(lines) + 1, len(text), "Truncated")
        return self.w.WideDrill(reader.holes, reader.plated, reader.placed)

    # The check

    def read_manifest(self, text):
        """The entries, and for each what it says of its file."""
        records = self.o.csv_records(text)
        if "said-by-the-user" not in self.rows or not records or b",".join(records[0]) != THIRD_MANIFEST:
            return [(entry, NOTHING_SAID) for entry in self.w.read_manifest(text)]
        said = [said_by(record) for record in records[1:]]
        shorter = [records[0][:5]] + [[] if what is None else record[:5] for record, what in zip(records[1:], said)]  # one without fields is refused BadManifest
        with changed(self.o, csv_records=lambda _: shorter):
            return list(zip(self.w.read_manifest(text), said))

    def run_check(self, ring, gap, manifest, profile="wide"):
        assert profile == "wide"
        rules = self.o.rules_new(*(self.o.picometres(self.o.dec_read(word.encode()), "Millimetre") for word in (ring, gap)))
        folder = os.path.dirname(manifest)
        with open(manifest, "rb") as it:
            entries = self.read_manifest(it.read())
        files = []
        for entry, _ in entries:
            with open(os.path.join(folder, os.fsdecode(entry.file)), "rb") as it:
                files.append((entry.role, entry.name, it.read(), entry.span))
        drills = iter([(what, entry.role == "unplated") for entry, what in entries if entry.role != "copper"])

        def read_drill(data, mixed):
            return self.read_drill(data, mixed, *next(drills))

        with changed(self.w, read_layer=self.read_layer, read_drill=read_drill, held=held, primitives=lambda *words: self.judged(self.primitives_before(*words))):
            text, report = self.w.check(files, rules, "wide")
        return files, (text, report)


def says_plated(comment):
    """Whether a comment, without its `;`, says that holes are plated."""
    fields = comment.lstrip(b" ").split(b",")
    return comment == b"TYPE=PLATED" or (fields[0] in (b"#@! TA.AperFunction", b"#@! TF.FileFunction") and fields[1:2] == [b"Plated"])


class DrillReader:
    """Reads a drill file line by line."""

    def __init__(self, slow, mixed, said, unplated):
        self.slow, self.w, self.o, self.rows, self.mixed, self.unplated = slow, slow.w, slow.o, slow.rows, mixed, unplated
        self.before, self.placed, self.holes, self.plated = slow.o.DrillBefore(), [], [], []
        self.route, self.ends, self.plating, self.plating_of_tool, self.stopped = "off", [], "none", {}, False
        self.before.unit, self.before.pattern, self.before.zeros = said

    def commands(self, line):
        """What a line spells."""
        due = {"start": b"M15", "down": b"G01", "up": b"M16"}.get(self.route)
        shape = self.w.ROUTE_POINT.fullmatch(line) if self.before.part == "body" else None
        if shape and shape[2] is None and shape[3] is None:
            shape = None
        if due in (b"M15", b"M16"):
            if line != due and not (due == b"M16" and line == b"M17" and "end-of-route-m17" in self.rows):
                raise self.o.Refused("Routed")
            self.route = "down" if due == b"M15" else "rout"
            return [] if due == b"M15" else [self.o.Slot(*self.ends)]
        if due == b"G01" or (shape and shape[1] == b"G00" and self.route in ("off", "rout") and not self.stopped):
            if not shape or shape[1] != (due or b"G00"):
                raise self.o.Refused("Routed")
            reading = self.o.Reading(self.o.DRILL_ORDER)
            point = [None if run is None else reading.field(self.o.coordinate_read, run, self.before.format) for run in shape.groups()[1:]]
            reading.done()
            self.ends = point if due is None else self.ends + point
            self.route = "start" if due is None else "up"
            return []
        if "drill-words" in self.rows and self.is_old(line):
            return []
        if self.before.part == "before":
            return self.commands_before(line)
        if self.before.part == "body":
            return self.commands_of_body(line)
        command = self.o.spell_line(line, self.before.part, self.before.format)
        return [] if command is None else [command]

    def is_old(self, line):
        """An old word that spells nothing. After `M00` only `M30` may follow, besides empty lines and comments."""
        part = self.before.part
        if self.stopped and line not in (b"", b"M30") and not line.startswith(b";"):
            raise self.o.Refused("BadLine")
        if part == "body" and line == b"M00":
            self.stopped = True
            return True
        return (part in ("header", "body") and line == b"G93X0Y0") or (part == "header" and line == b"R,H") or (part == "after" and line.startswith(b";"))

    def commands_before(self, line):
        """Of a line before `M48`."""
        command = self.o.Finish() if line == b"M30" else self.o.spell_line(line, "before", None)
        return [] if command is None else [command]

    def commands_of_body(self, line):
        repeat = self.slow.repeat_line.fullmatch(line) if "repeated-hits" in self.rows else None
        if repeat and self.placed and isinstance(self.placed[-1].what, self.o.Hit):
            return self.further_hits(*repeat.groups())
        command = self.o.spell_line(line, "body", self.before.format)
        if self.route == "rout" and line == b"G05":
            self.route = "off"
        if self.route == "rout" and isinstance(command, (self.o.Hit, self.o.Slot)):
            raise self.o.Refused("Routed")
        return [] if command is None else [command]

    def further_hits(self, count, across, up):
        reading = self.o.Reading(self.o.DRILL_ORDER)
        number = reading.field(self.o.nat_read, count)
        if number is not None and not 1 <= number <= 10_000:
            reading.refuse("BadNumber")
        dx, dy = (0 if run is None else reading.field(self.o.coordinate_read, run, self.before.format) for run in (across, up))
        reading.done()
        x, y = self.before.x, self.before.y
        return [self.o.Hit(x + at * dx, y + at * dy) for at in range(1, number + 1)]

    def judge(self, command):
        """By the rules; what it does, where it is legal."""
        alike = isinstance(command, self.o.Tool) and "defined-twice-alike" in self.rows and self.before.tools.get(command.number) == command.diameter
        if alike and not (self.mixed and self.plating_of_tool[command.number] != self.plating):
            return
        reason = self.o.drill_rule(self.before, command)
        if reason:
            raise self.o.Refused(reason)
        if self.unplated and isinstance(command, self.o.Comment) and says_plated(command.text):
            raise self.w.Refused2("PlatingConflict")
        if self.mixed:
            self.judge_plating(command)
        if isinstance(command, (self.o.Hit, self.o.Slot)):
            self.holes.append(self.o.hole_of(self.before, command))
        self.before.take(command)

    def judge_plating(self, command):
        if isinstance(command, self.o.Comment) and self.w.plating_of(command.text):
            if self.before.part == "body":
                raise self.w.Refused2("NoPlating")
            self.plating = self.w.plating_of(command.text)
        elif isinstance(command, self.o.Tool):
            self.plating_of_tool[command.number] = self.plating
        elif isinstance(command, (self.o.Hit, self.o.Slot)):
            plating = self.plating_of_tool[self.before.tool]
            if plating == "none":
                raise self.w.Refused2("NoPlating")
            self.plated.append(plating == "plated")


# ------------------------------------------------------------------------------------------------
# Pads of the rows of copper


def up_to(length, step=10):
    """The next whole number of steps."""
    return -(-length // step) * step


def root_up(square):
    root = math.isqrt(square)
    return root if root * root == square else root + 1


def middle_of(hole):
    x, y, u, v, _ = hole
    return (x + u) // 2 // STEP * STEP, (y + v) // 2 // STEP * STEP


def place_near(rng, hole):
    """Where a flash may stand: the middle of a hole, or beside it."""
    x, y = middle_of(hole)
    if rng.random() < 0.5:
        return x, y
    return x + rng.randint(-300, 300) * STEP, y + rng.choice([0, rng.randint(-300, 300)]) * STEP


def ends_of(hole, place):
    """The ends of a hole as a place sees them."""
    (x, y, u, v, _), (a, b) = hole, place
    return [(x - a, y - b), (u - a, v - b)]


def far_of(ends):
    return max(root_up(x * x + y * y) for x, y in ends)


def before_turn(ends, turn, mirror):
    """Where the ends lie for a macro that is mirrored and then turned by quarters."""
    for _ in range(-turn // QUARTER % 4):
        ends = [(-y, x) for x, y in ends]
    return [(-x if "X" in mirror else x, -y if "Y" in mirror else y) for x, y in ends]


def lack(rng):
    """How much wider than asked a pad is: mostly nothing, or a little too little."""
    return rng.choice([0, 0, 0, 0, -10, -10, -1000, 10, 50_000_000])


def put(rng, layer, aperture, place, turn=0, mirror="N", scale="1"):
    x, y = place
    before = [f"%LM{mirror}*%"] * (mirror != "N" or rng.random() < 0.1) + [f"%LR{turn_text(turn)}*%"] * (turn != 0) + [f"%LS{scale}*%"] * (scale != "1")
    after = ["%LMN*%"] * (mirror != "N") + ["%LR0*%"] * (turn != 0) + ["%LS1*%"] * (scale != "1")
    layer.body += [*before, f"D{aperture}*", f"X{x // STEP}Y{y // STEP}D03*", *after]


def turn_text(turn):
    """Degrees, of 10^-8."""
    return mm(turn * 10)


TURNS = [0, 0, 90, 180, 45, 45, 45, 135, 135, 225, 315, 405, -45, -135, -90, 30, 22.5, 60, 120, 210, 45.00000001, 0.00000001, 89.99999999, 359.99999999]
MIRRORS = ["N"] * 5 + ["X", "Y", "XY"]


def any_turn(rng):
    return round(rng.choice(TURNS) * ONE)


def put_turned(rng, layer, hole, ring):
    """A rectangle or an obround, turned so that it just holds a hole, or just does not."""
    rotation, turn, mirror, place = rng.choice([0, any_turn(rng), any_turn(rng)]), rng.choice([0, any_turn(rng)]), rng.choice(MIRRORS), place_near(rng, hole)
    kind = rng.choice(["R", "R", "O", "21", "21", "21", "21", "arms", "off", "with a hole"])
    if rng.random() < 0.15:
        rotation, turn = (QUARTER // 2 * rng.choice([1, 3, 5, -1]) for _ in range(2))
    if kind in ("R", "O", "with a hole"):
        rotation, turn = 0, turn or rotation
    total = ((rotation if mirror in ("N", "XY") else -rotation) + turn) % (2 * QUARTER)
    reach, far = hole[4] + ring, far_of(ends_of(hole, place))
    width = height = up_to(2 * (far + reach))
    if total in (QUARTER // 2, 3 * QUARTER // 2):
        along = max(root_up(up_to((x + y) ** 2, 2) // 2) for x, y in ends_of(hole, place))
        across = max(root_up(up_to((y - x) ** 2, 2) // 2) for x, y in ends_of(hole, place))
        width, height = up_to(2 * (along + reach)), up_to(2 * (across + reach))
        if total != QUARTER // 2:
            width, height = height, width
    elif total % QUARTER == 0:
        far_x, far_y = (max(abs(end[at]) for end in ends_of(hole, place)) for at in (0, 1))
        width, height = (up_to(2 * (it + reach)) for it in ((far_x, far_y) if total == 0 else (far_y, far_x)))
    if rng.random() < 0.4:  # longer one way
        width, height = rng.choice([(width + 10**9, height), (width, height + 10**9), (height, width)])
    more = 2 * lack(rng)
    width, height = rng.choice([(width + more, height), (width, height + more), (width + more, height + more)])
    sizes = f"{mm(width)}X{mm(height)}"
    if kind in ("R", "O"):
        aperture = layer.aperture(f"{kind},{sizes}")
    elif kind == "with a hole":
        aperture = layer.aperture(f"R,{sizes}X{rng.choice(['0', '0.1'])}")
    else:
        centre = rng.choice(["0.00000001,0", "0,0.1", "-1.0,0"]) if kind == "off" else "0,0"
        parts = [f"21,1,{mm(width)},{mm(height)},{centre},{turn_text(rotation)}"]
        if kind == "arms":  # or a rectangle and more, first or behind
            other = [f"21,1,{mm(up_to(width // 2))},{mm(up_to(height * 2))},0,0,{turn_text(rng.choice([rotation, 0]))}"]
            parts = rng.choice([parts + other, other + parts, parts + ["1,1,0.2,0,0"], ["1,1,0.2,0,0"] + parts])
        aperture = layer.macro(parts)
    put(rng, layer, aperture, place, turn, mirror, rng.choice(["1"] * 30 + ["1.1"]))


def put_polygon(rng, layer, hole, ring):
    """A regular polygon about a hole, in whose disc it just lies, or just does not."""
    corners, place = rng.choice([*range(3, 13), 8, 8, 8]), place_near(rng, hole)
    inside = far_of(ends_of(hole, place)) + hole[4] + ring
    diameter = up_to(math.ceil(2 * (inside + lack(rng)) / math.cos(math.pi / corners)))
    turn, mirror, scale = rng.choice([0, 0, any_turn(rng)]), rng.choice(MIRRORS), rng.choice(["1"] * 15 + ["1.1"])
    rotation = turn_text(any_turn(rng))
    way = rng.random()
    if way < 0.27:
        words = f"P,{mm(diameter)}X{corners}" + rng.choice(["", f"X{rotation}", f"X{rotation}X0", f"X{rotation}X0X0", f"X{rotation}X0.1"])
        aperture = layer.aperture(words)
    elif way < 0.45:
        aperture = layer.macro([f"5,1,{corners},0,0,{mm(diameter)},{rotation}"])
    elif way < 0.7:  # a product, mostly of more than eight decimals
        factor = rng.choice(["1.08239", "1.08239", "1.03528", "2", "0.33333333"])
        size = mm(up_to(math.ceil(diameter / float(factor))) + rng.choice([0, 0, -10, 10]))
        text = rng.choice([f"{factor}X$1"] * 4 + [f"$1x{factor}", f"{factor}X$1+0", f"0+{factor}X$1", f"({factor}X$1)", f"{factor}X$1X1", f"$1X{factor}/1", f"$1/1X{factor}", f"-{factor}X$1"])
        parts = [f"5,1,{corners},0,0,{text},{rotation}"]
        if rng.random() < 0.15:
            parts = [f"$2={text}", f"5,1,{corners},0,0,$2,{rotation}"]
        layer.macros.append(f"%AMP{layer.numbers}*" + "*".join(parts) + "*%")
        aperture = layer.aperture(f"P{layer.numbers},{size}")
    elif way < 0.78:  # a disc of a product
        size = mm(up_to(math.ceil(2 * inside / 1.08239)) + rng.choice([0, -10, 10]))
        layer.macros.append(f"%AMP{layer.numbers}*1,1,1.08239X$1,0,0*%")
        aperture = layer.aperture(f"P{layer.numbers},{size}")
    elif way < 0.92:  # nearly one
        parts = [f"5,1,{corners},0,0,{mm(diameter)},{rotation}"]
        parts[0] = rng.choice(
            [parts[0].replace("5,1", "5,0", 1), parts[0].replace("5,1", "5,0", 1), f"5,1,{rng.choice(['2', '13', '3.5', '-3'])},0,0,{mm(diameter)},0", f"5,1,{corners},0.00000001,0,{mm(diameter)},0", f"5,1,{corners},0,0,-{mm(diameter)},0", parts[0] + ",0", f"5,1,{corners},0,0,{mm(diameter)}", f"5,1,{corners},0,0,{mm(diameter)},1/3", f"6,1,{corners},0,0,{mm(diameter)},0"]
        )
        aperture = layer.macro(parts)
    else:  # beside others
        parts = [f"5,1,{corners},0,0,{mm(diameter)},{rotation}", rng.choice(["1,1,0.2,0,0", "21,1,0.2,0.2,0,0,0", "4,1,4,0,0,1,1,1,0,0,1,0,0,0"])]
        aperture = layer.macro(parts[:: rng.choice([1, -1])])
    put(rng, layer, aperture, place, turn, mirror, scale)


ARROW = "4,1,7,0.0,0.0,-0.5,0.5,-0.5,0.2,-1.0,0.2,-1.0,-0.2,-0.5,-0.2,-0.5,-0.5,0.0,0.0,0"


def holder(rng, ends, reach):
    """Primitives that just hold a hole."""
    far_x, far_y = (up_to(max(abs(end[at]) for end in ends) + reach) for at in (0, 1))
    size = up_to(2 * (far_of(ends) + reach))
    return rng.choice(
        [
            [f"1,1,{mm(size)},0,0"],
            [f"21,1,{mm(2 * far_x)},{mm(2 * far_y)},0,0,{rng.choice([0, 180])}"],
            [f"20,1,{mm(2 * far_y)},{mm(-far_x)},0,{mm(far_x)},0,0"],
            [f"20,1,{mm(2 * far_x)},0,{mm(far_y)},0,{mm(-far_y)},0"],
            wide.outline(rng, [(-far_x, -far_y), (far_x, -far_y), (far_x, far_y), (-far_x, far_y)], 0),
            wide.oblong(rng, *ends[0], *ends[1], up_to(2 * reach)),
        ]
    )


def small(rng):
    """A primitive that holds nothing."""
    x, y = mm(rng.randint(-99, 99) * 10**7), mm(rng.randint(-99, 99) * 10**7)
    return rng.choice([f"1,1,0.1,{x},{y}", f"1,1,0.1,{x},{y}", f"20,1,0.1,{x},{y},0,{y},0", f"20,1,0.1,{x},{y},{y},{x},0", f"21,1,0.1,0.1,{x},{y},0", ARROW, f"20,1,0.1,0,0,{x},{y},0"])


def crossed_lines(rng, ends, reach):
    """Two lines and discs at the corners of their common part, or nearly so."""
    corner = up_to(rng.choice([reach // 2, reach // 4, 2 * reach]))
    far_x, far_y = (up_to(max(abs(end[at]) for end in ends) + reach) for at in (0, 1))
    inner_x, inner_y = max(10, far_x - corner), max(10, far_y - corner)
    wide_line = f"20,1,{mm(2 * inner_y)},{mm(-far_x)},0,{mm(far_x)},0,0"
    tall_line = f"20,1,{mm(2 * inner_x)},0,{mm(-far_y)},0,{mm(far_y)},0"
    if rng.random() < 0.1:
        wide_line = f"21,1,{mm(2 * far_x)},{mm(2 * inner_y)},0,0,0"
    discs = [f"1,1,{mm(2 * corner)},{mm(s * inner_x)},{mm(t * inner_y)}" for s in (-1, 1) for t in (-1, 1)]
    if rng.random() < 0.2:
        discs[rng.randrange(4)] = rng.choice(["1,1,0.1,0,0", f"1,1,{mm(2 * corner - 10)},{mm(inner_x)},{mm(inner_y)}"])
    return rng.choice([[wide_line, tall_line], [tall_line, wide_line]]) + discs


def put_all(rng, layer, hole, ring):
    """A macro of several primitives, of which one that is not the first just holds a hole, or just does not."""
    reach, place, turn, mirror = hole[4] + ring + lack(rng), place_near(rng, hole), rng.choice([0] * 8 + [any_turn(rng)]), rng.choice(MIRRORS)
    ends, way = before_turn(ends_of(hole, place), turn, mirror), rng.random()
    if way < 0.25:  # rounded rectangles in another order
        corner = up_to(rng.choice([reach // 2, reach // 4, 10_000]))
        far_x, far_y = (up_to(max(abs(end[at]) for end in ends) + reach - corner) for at in (0, 1))
        parts = wide.rounded_rectangle(rng, far_x, far_y, corner)
        parts = rng.choice([parts[1:] + parts[:1], parts[::-1], rng.sample(parts, len(parts))])
    elif way < 0.5:
        parts = crossed_lines(rng, ends, reach)
        if rng.random() < 0.4:
            rng.shuffle(parts)
    elif way < 0.7:  # the one that holds is about the eighth of its kind
        at = rng.choice([5, 6, 7, 7, 8, 9])
        last = rng.choice([f"1,1,{mm(up_to(2 * (far_of(ends) + reach)))},0,0", f"21,1,{mm(up_to(2 * (far_of(ends) + reach)))},{mm(up_to(2 * (far_of(ends) + reach)))},0,0,0"])
        parts = [f"1,1,0.1,{n}.0,0" if last[0] == "1" else f"21,1,0.1,0.1,{n}.0,0,0" for n in range(1, at)] + [last]
        if rng.random() < 0.4:  # some of another kind, or the same twice
            parts.insert(rng.randint(0, at - 1), rng.choice(["1,1,0.2,0,9.0", "21,1,0.1,0.1,0,9.0,0", "20,1,0.1,0,9.0,1.0,9.0,0", ARROW, parts[0], "4,1,3,0,0,1,0,0,1,0,0,0"]))
    else:
        parts = holder(rng, ends, reach)
        for _ in range(rng.choice([1, 1, 2, 3])):
            parts.insert(rng.choice([0, 0, rng.randint(0, len(parts))]), small(rng))
        if rng.random() < 0.2:
            parts.insert(0, parts[-1])
        if rng.random() < 0.1:
            rng.shuffle(parts)
    if rng.random() < 0.04:  # one that is not judged
        parts.append(rng.choice(["1,0,0.1,0,0", "7,0,0,1,0.5,0.1,0", "20,1,0.1,0,0,1,1,30", "21,1,1,1,0,0,45", "2,1,0.1,0,0,1,1,0"]))
    put(rng, layer, layer.macro(parts), place, turn, mirror, rng.choice(["1"] * 40 + ["1.1"]))


PADS = {"all-primitives": put_all, "polygons": put_polygon, "polygon-apertures": put_polygon, "turned": put_turned}


def in_inches(rng):
    """An octagon as it is written in inches, at a place that a drill file in millimetres can name too."""
    corners, size = rng.choice([8, 8, *range(3, 13)]), rng.randint(2 * 10**6, 10**7)
    factor = rng.choice([1, 1.08239, 1.08239])
    radius = int(size * factor) * 254 * INSIDE[corners] // (2 * 10**18)
    ring = rng.choice([100_000_000, 127_000_000])
    hole = (radius - ring) // 10 * 10 + rng.choice([0, 0, 10, -10])
    inches = f"{size // ONE}.{size % ONE:08d}"
    aperture = f"%ADD10P,{inches}X{corners}X22.5*%" if factor == 1 else f"%ADD10OC8,{inches}*%"
    items = ["%FSLAX24Y24*%", "%MOIN*%", f"%AMOC8*5,1,{corners},0,0,{factor}X$1,22.5*%", aperture, "D10*", "X10000Y20000D03*", "M02*"]
    drill = ["M48", "METRIC", f"T1C{mm(2 * hole)}", "%", "T1", "X25.4Y50.8", "M30"]
    files = {"l1.gbr": items, "d.drl": drill, "m.csv": ["role,name,file", "copper,l1,l1.gbr", "plated,d,d.drl"]}
    return {name: "\n".join(lines) + "\n" for name, lines in files.items()}, ["--ring", mm(ring), "--gap", "0.1"]


# Corners and diameters whose disc would be a picometre larger if the cosine were rounded up.
GREAT_POLYGONS = [(4, 9999993881270), (5, 9999998283300), (6, 9999996954530)]


def great(rng):
    """A polygon of metres, near the limit of lengths, and a hole that it just holds or just does not."""
    corners, diameter = rng.choice([*GREAT_POLYGONS, *GREAT_POLYGONS, (8, 10**13), (8, 10**13 + 10)])
    reach = diameter * INSIDE[corners] // (2 * 10**18) // 5 * 5 + rng.choice([0, 5, 5, 10])
    aperture = rng.choice([f"%ADD10P,{mm(diameter)}X{corners}*%", f"%AMP1*5,1,{corners},0,0,{mm(diameter)},10*%\n%ADD10P1*%"])
    items = ["%FSLAX46Y46*%", "%MOMM*%", aperture, "D10*", "X0Y0D03*", "M02*"]
    drill = ["M48", "METRIC", f"T1C{mm(2 * reach)}", "%", "T1", "X0.0Y0.0", "M30"]
    files = {"l1.gbr": items, "d.drl": drill, "m.csv": ["role,name,file", "copper,l1,l1.gbr", "plated,d,d.drl"]}
    return {name: "\n".join(lines) + "\n" for name, lines in files.items()}, ["--ring", "0.0", "--gap", "0.1"]


# ------------------------------------------------------------------------------------------------
# Texts of the rows of texts

STRAY_PIECES = ["", "", "", "AMX", "AMX*1,1,1,0,0", "LPC", "LPC*LPD", "LPD", "FSTAX46Y46", "FSLAX45Y45", "IPNEG", "MOIN", "X0Y0D03", "ADD10C,0.1", "ADD99C,0.1", "ADD9C,0.1", "ABD12"]
STRAY_PIECES += ["IPPOS", "G04 a", "M02", "SRX1Y1I0J0", "SR", "SRX0Y1I0J0", "TF.FilePolarity,Negative", "TF.FilePolarity,Positive", "LR90*LR0", "LS1.0", "LS0", "OFA0B0", "MIA1", "TD", " LPD"]


def is_extended(line):
    return line.startswith("%") and line.endswith("*%") and not line.startswith("%AM")


def several_in_one(rng, lines):
    """Joins items between `%` that follow each other, and some that spell nothing or should not stand there."""
    joined = []
    for line in lines:
        if joined and is_extended(line) and is_extended(joined[-1]) and rng.random() < 0.6:
            joined[-1] = joined[-1][:-1] + rng.choice(["", "", "\n"]) + line[1:]
        else:
            joined.append(line)
    if rng.random() < 0.35:
        at = rng.choice([n for n, line in enumerate(joined) if is_extended(line)])
        pieces = joined[at][1:-2].split("*")
        pieces.insert(rng.randint(0, len(pieces)), rng.choice(STRAY_PIECES))
        joined[at] = "%" + "*".join(pieces) + rng.choice(["*%"] * 30 + ["%"])
    return joined


def twice_in_layer(rng, lines):
    """Defines some apertures again, alike or nearly so, at once or later."""
    chosen = [line for line in lines if line.startswith("%ADD")]
    for line in rng.sample(chosen, min(len(chosen), rng.choice([1, 1, 2]))):
        again = line
        if rng.random() < 0.25:
            again = rng.choice([line.replace("*%", "0*%"), line.replace("*%", "X0*%"), line.replace("ADD", "ADD0"), line.replace("*%", "1*%"), line.replace("*%", ",*%"), line.replace(".", "0.", 1)])
        first = lines.index(line)
        lines.insert(rng.choice([first + 1, rng.randint(first + 1, len(lines))]), again)
    macros = [line for line in lines if line.startswith("%AM")]
    if macros and rng.random() < 0.08:
        lines.insert(lines.index(macros[0]) + 1, macros[0])
    return lines


def twice_in_drill(rng, lines):
    """Defines a tool again, alike or nearly so."""
    tools = [n for n, line in enumerate(lines) if re.fullmatch(r"T[0-9]+C.*", line)]
    if not tools:
        return lines
    at = rng.choice(tools)
    line = lines[at]
    again = rng.choice([line] * 4 + [line.replace("T", "T0"), line + "0", line + "F200S65", line + "1", "T" + line[1:].replace("C", "S1C")])
    place = rng.choice([at + 1, at + 1, lines.index("%"), rng.randint(at + 1, len(lines))])
    return lines[:place] + [rng.choice(wide.PLATINGS + wide.NEAR_PLATINGS)] * (rng.random() < 0.15) + [again] + lines[place:]


def pair_after_flash(rng, lines):
    """Leaves out some operations, mostly where they repeat the last one."""
    made, last = [], None
    for line in lines:
        operation = re.fullmatch(r"((?:G0[123])?X-?[0-9]+Y-?[0-9]+)(.*)D0([123])\*", line)
        if not operation:
            made.append(line)
            continue
        if last == operation[3] and not operation[2] and rng.random() < 0.7 or rng.random() < 0.04:
            made.append(rng.choice([operation[1]] * 20 + [operation[1] + "I1", operation[1] + "J0", "G01" + operation[1], operation[1] + "D"]) + "*")
        elif operation[3] == "3" and rng.random() < 0.4:  # a move, and a further one, and the flash there
            x, y = re.findall(r"[XY]-?[0-9]+", operation[1])
            made += rng.choice([[f"{x}Y0D02*", f"{y}*", "D03*"], [f"X7Y8D02*", f"{x}*", f"{y}*", "D3*"], [f"{x}D03*", f"{y}*"], [f"{x}{y}D03*", f"{x}{y}*"]])
        else:
            made.append(line)
        last = operation[3]
    if rng.random() < 0.1:
        made.insert(rng.randrange(2, len(made)), rng.choice(["X0*", "X0Y0*", "I5*", "Y1J1*", "G01*", "G02X1*", "D02*"]))
    return made


def selects_once(lines):
    """Without some selections of the same aperture, so that flashes follow each other."""
    made, chosen = [], None
    for line in lines:
        if re.fullmatch(r"D[0-9]{2,}\*", line):
            if line == chosen:
                continue
            chosen = line
        made.append(line)
    return made


def old_words_in_layer(rng, lines):
    if rng.random() < 0.4:
        at = lines.index("%FSLAX46Y46*%")
        lines[at] = rng.choice(["%FSLAN2G2X46Y46D2M2*%"] * 14 + ["%FSLAN2X46Y46*%", "%FSLAN22G2X46Y46D2M2*%", "%FSLAN2G2X46Y45D2M2*%", "%FSLAN2G2X46Y46D2M*%", "%FSTAN2G2X46Y46D2M2*%", "%FSLIN2G2X46Y46D2M2*%", "%FSLAG2N2X46Y46D2M2*%", "%FSLAN0G0X46Y46D0M0*%"])
    if rng.random() < 0.4:
        lines[-1] = rng.choice(["M00*"] * 9 + ["M00*\nM02*", "M00*\n*\n", "M00*%", "M00* ", "M0*", "M01*", "M00", "M00*M00*"])
    if rng.random() < 0.1:
        lines.insert(rng.randrange(len(lines)), "M00*")
    return lines


def code_word(rng, lines):
    for _ in range(rng.choice([1, 1, 2])):
        lines.insert(rng.randrange(len(lines)), rng.choice(["%ICAS*%"] * 14 + ["%ICAX*%", "%ICAS*ICAS*%", "%IC*%", "ICAS*", "%ICASAXBY*%", "%LPD*ICAS*%", "G36*\n%ICAS*%\nG37*"]))
    return lines


def old_words_in_drill(rng, lines):
    end = len(lines) - 1
    for _ in range(rng.choice([1, 1, 2])):
        way = rng.random()
        if way < 0.3:
            lines.insert(rng.randint(1, len(lines)), rng.choice(["G93X0Y0"] * 4 + ["G93X0.0Y0.0", "G93", "G93X0Y0 "]))
        elif way < 0.5:
            lines.insert(rng.choice([1, 2, rng.randint(0, len(lines)), len(lines) - 1]), rng.choice(["R,H"] * 4 + ["R,T", "R,H,", "R,CP"]))
        elif way < 0.8:
            end = lines.index("M30") if "M30" in lines else len(lines)
            lines[end:end] = rng.choice([["M00"]] * 4 + [["M00", ""], ["M00", ""], ["M00", "; a comment"], ["M00", "X1.0Y1.0"], ["M00", "T1"], ["M00", "M00"], ["M00", "G00X1.0Y1.0"], ["M00X0Y0"], ["M0"], ["M00", "G93X0Y0"], ["M00", "%"]])
        else:
            lines += rng.choice([["; the end"], [";"], ["; one", "", ";two"], [" ; a space first"], ["M30"], ["T1"], ["; one", "X1.0"]])
    return lines


def routes_m17(rng, lines):
    lines = [("M17" + rng.choice(["", "", "", "", " ", "\r", "X"])) if line == "M16" and rng.random() < 0.6 else line for line in lines]
    if rng.random() < 0.12:
        lines.insert(rng.randint(1, len(lines)), rng.choice(["M17", "M17", "M16", "M15", "m17", "M17;"]))
    return lines


def put_repeats(rng, holes, gap):
    """Further holes by repeats: the lines behind a round hole, and all holes."""
    lines, every = {}, list(holes)
    for hole in holes:
        x, y, u, v, radius = hole
        if (x, y) != (u, v) or rng.random() < 0.3:
            continue
        count, step = rng.choice([1, 1, 2, 3]), 2 * radius + gap + rng.choice([0, 0, 10, -10, 10**9])
        dx, dy = rng.choice([(step, 0), (-step, 0), (0, step), (step, step)])
        words = rng.choice([f"X{mm(dx)}"] * (dx != 0) + [f"Y{mm(dy)}"] * (dy != 0) + [f"X{mm(dx)}Y{mm(dy)}"])
        dx, dy = dx if "X" in words else 0, dy if "Y" in words else 0
        lines[hole] = [rng.choice([f"R{count}{words}"] * 6 + [f"R0{count}{words}"])]
        copies = [(x + n * dx, y + n * dy, x + n * dx, y + n * dy, radius) for n in range(1, count + 1)]
        if rng.random() < 0.2:  # and again, from the last one
            lines[hole].append(f"R1{words}")
            copies.append((x + (count + 1) * dx, y + (count + 1) * dy) * 2 + (radius,))
        if rng.random() < 0.25:
            lines[hole] = rng.choice(
                [[f"R0{words}"], [f"R10001{words}"], [f"R{words}"], ["R1"], ["R2X1"], ["; a comment", *lines[hole]], ["", *lines[hole]], ["G90", *lines[hole]], ["T1", *lines[hole]], [f"R{count}{words}G85X1.0"], ["R1X1.0.0"], [f"R10000X{mm(10**9)}"], [f"R10001X{mm(10)}"], ["M25"], [f"R1.0{words}"]]
            )
        every += copies[: len(copies) - (rng.random() < 0.05)]
    return lines, every


def with_repeats(lines, repeats):
    made = []
    for line in lines:
        made.append(line)
        for (x, y, *_), more in repeats.items():
            if line == f"X{mm(x)}Y{mm(y)}":
                made += more
    return made


def say(rng, rows, lines):
    """A manifest that says what the drill file does not, or says too, or says otherwise."""
    format_of = rng.choice([(3, 3), (2, 4), (4, 2)])
    zeros = rng.choice(["LZ", "TZ"])
    lines = [in_digits(rng, line, format_of, zeros) for line in lines]
    said = ["mm", f"{format_of[0]}:{format_of[1]}", zeros]
    for at in range(3):  # the file says it instead, or too
        if rng.random() < 0.4:
            unit_line = next(n for n, line in enumerate(lines) if line.startswith("METRIC"))
            if at == 1:
                lines.insert(rng.choice([unit_line, unit_line + 1]), f";FILE_FORMAT={said[1]}")
            elif at == 2:
                lines[unit_line] += f",{zeros}"
            if rng.random() < 0.5:
                said[at] = ""
    if rng.random() < 0.6 and said[0]:
        lines = [line for line in lines if not line.startswith("METRIC")]
    if rng.random() < 0.25:
        lines = [line for line in lines if line != "M48" and (line != "%" or rng.random() < 0.4)]
        if rng.random() < 0.4:  # tools where they are picked
            tools = {line.split("C")[0]: line for line in lines if re.fullmatch(r"T[0-9]+C.*", line)}
            lines = [tools.get(line, line) for line in lines if line not in tools.values()]
    if rng.random() < 0.2:
        at = rng.randrange(3)
        said[at] = rng.choice([["inch", "inch", "inch", "cm", "MM"], ["2:3", "2:3", "4:4", "0:4", "24", "2:7"], ["LZ", "LZ", "TZ", "TZ", "lz"]][at])
    records = [row.split(",") for row in rows]
    span = rng.choice([["", ""], ["", ""], ["1", "1"]])
    third = ["role,name,file,first,last,unit,digits,zeros"]
    third += [",".join([*it, *([""] * 5 if it[0] == "copper" else [*span, *said])]) for it in records[1:]]
    if rng.random() < 0.05:
        third[rng.randrange(1, len(third))] += rng.choice([",", "LZ"])
    return third, lines


def in_digits(rng, line, format_of, zeros):
    """A line with its coordinates as digits alone, where they can be so written."""
    def digits(match):
        value = round(float(match[2]) * 10 ** format_of[1])
        if match[0].count(".") != 1 or abs(value / 10 ** format_of[1] - float(match[2])) > 1e-9 or rng.random() < 0.1:
            return match[0]
        text = f"{abs(value):0{sum(format_of)}d}"
        text = text.rstrip("0") or "0" if zeros == "LZ" else text.lstrip("0") or "0"
        return match[1] + ("-" if value < 0 else "") + text

    return re.sub(r"([XY])(-?[0-9]+\.[0-9]+)", digits, line) if line.startswith(("X", "Y", "G0")) else line


LAYER_TEXTS = {"several-in-one-pair": several_in_one, "code-word": code_word, "defined-twice-alike": twice_in_layer, "layer-words": old_words_in_layer, "pair-after-flash": pair_after_flash}
DRILL_TEXTS = {"end-of-route-m17": routes_m17, "defined-twice-alike": twice_in_drill, "drill-words": old_words_in_drill}


def put_one(rng, layer, hole, row, ring, disc):
    if rng.random() < 0.05:
        layer.clear(disc, hole[0], hole[1])
    repeated = rng.random() < 0.1
    if repeated:
        layer.body.append(f"%SRX{rng.choice([1, 2])}Y{rng.choice([1, 2])}I{mm(hole[4] * 20)}J{mm(hole[4] * 20)}*%")
    if row == "pair-after-flash" and rng.random() < 0.7:
        x, y = middle_of(hole)
        if not layer.same:
            layer.same.append(layer.aperture("C,3.0"))
        layer.body += [f"D{layer.same[0]}*", f"X{x // STEP}Y{y // STEP}D03*"]
    else:
        (PADS.get(row, wide.put_pad) if rng.random() < 0.85 else wide.put_pad)(rng, layer, hole, ring)
    if repeated:
        layer.body.append("%SR*%")
    if rng.random() < 0.02:
        layer.clear(disc, hole[0], hole[1])


def package(rng, row):
    """The files of a package at the border of a row by their names, and the words of its rules."""
    if row in ("polygons", "polygon-apertures") and rng.random() < 0.2:
        return rng.choice([in_inches, in_inches, great])(rng)
    ring, gap = rng.choice([0, 100_000_000, 125_000_000, 127_000_000]), rng.choice([100_000_000, 250_000_000])
    holes, files, rows = wide.make_holes(rng), {}, ["role,name,file"]
    repeats, every = put_repeats(rng, holes, gap) if row == "repeated-hits" else ({}, holes)
    both = row in LAYER_TEXTS and row in DRILL_TEXTS
    for number in range(1, rng.choice([1, 1, 2]) + 1):
        layer = wide.Layer(rng)
        layer.same = []
        disc = layer.aperture("C,0.1")
        for hole in every:
            put_one(rng, layer, hole, row, ring, disc)
        lines = layer.text().split("\n")[:-1]
        if row == "pair-after-flash":
            lines = selects_once(lines)
        if row in LAYER_TEXTS and not (both and rng.random() < 0.4):
            lines = LAYER_TEXTS[row](rng, lines)
        files[f"l{number}.gbr"] = "\n".join(lines) + "\n"
        rows.append(f"copper,l{number},l{number}.gbr")
    role = rng.choice(["plated"] * 7 + ["unplated"] + ["mixed"] * 3)
    lines = with_repeats(wide.make_drill(rng, holes, role == "mixed").split("\n")[:-1], repeats)
    if row in DRILL_TEXTS and "%" in lines and not (both and rng.random() < 0.4):
        lines = DRILL_TEXTS[row](rng, lines)
    rows.append(f"{role},d,d.drl")
    if row == "said-by-the-user" and "METRIC" in lines:
        rows, lines = say(rng, rows, lines)
    files["d.drl"] = "\n".join(lines) + "\n"
    files["m.csv"] = "\n".join(rows) + "\n"
    return files, ["--ring", mm(ring), "--gap", mm(gap)]


def package_of(seed, number, row):
    return package(random.Random(f"{seed}/{row}/{number}"), row)


# ------------------------------------------------------------------------------------------------
# What is asked


def clear_folder(folder):
    for old in os.listdir(folder):
        os.remove(os.path.join(folder, old))


def answer(slow, rules, folder):
    """What the slow program prints, its status, and the report where there is one."""
    oracle = slow.o
    try:
        _, (text, report) = slow.run_check(rules[1], rules[3], os.path.join(folder, "m.csv"), "wide")
        return text, 1 if report.findings else 0, report
    except oracle.PackageFault as fault:
        name = wide.fault_name(folder, fault.index)
        return f"refused file={fault.index + 1} place={fault.fault.place} byte={fault.fault.byte} reason={fault.fault.reason} name={name}\n".encode(), 2, None
    except oracle.Fault as fault:
        return f"refused manifest place={fault.place} reason={fault.reason}\n".encode(), 2, None


def compare(program, oracle, rows, seed, count):
    """The program beside the slow program with the rows, `count` packages for each."""
    slow = Slow(oracle, rows)

    def compare_row(row):
        packages = (package_of(seed, number, row) for number in range(1, count + 1))
        return wide.compare(program, f"seed {seed}, {row}", packages, lambda *asked: answer(slow, *asked)[:2])

    return max([compare_row(row) for row in rows])


def lacks(report):
    """The holes that lack their ring, by layer, and the gaps."""
    rings = {(finding.layer, finding.hole) for finding in report.findings if finding.name == "RING"}
    return rings, [finding for finding in report.findings if finding.name != "RING"]


def readings(slow, files):
    """What each file of a package spells, its holes too; None where it is refused."""
    read = {}
    for name, text in files.items():
        try:
            if name.endswith(".gbr"):
                read[name] = slow.read_layer(text.encode()).placed
            elif name.endswith(".drl"):
                drill = slow.read_drill(text.encode())
                read[name] = (drill.placed, drill.holes)
        except slow.o.Fault:
            read[name] = None
    return read


def broken_laws(before, after, row):
    """The laws that an answer with a row breaks, of the answer without it."""
    (text, status, report), (text_after, status_after, report_after) = before, after
    if status == 2:
        return []
    if status_after == 2:
        return ["what was read is refused"]
    broken = ["another answer of what was read"] if row in TEXT_ROWS and text != text_after else []
    (rings, gaps), (rings_after, gaps_after) = lacks(report), lacks(report_after)
    broken += ["a hole that was held lacks its ring"] if not rings_after <= rings else []
    return broken + (["other gaps"] if gaps != gaps_after else [])


def try_laws(oracle, rows, seed, count):
    none, every, wrong = Slow(oracle, []), Slow(oracle, rows), 0
    with tempfile.TemporaryDirectory() as folder:
        for row in rows:
            one, figures = Slow(oracle, [row]), dict.fromkeys(["refused", "read only with it", "held only with it", "passes only with it", "refused differently", "tried"], 0)
            for number in range(1, count + 1):
                clear_folder(folder)
                files, rules = package_of(seed, number, row)
                wide.write(files, rules, folder)
                without, with_it, with_all = (answer(slow, rules, folder) for slow in (none, one, every))
                broken = broken_laws(without, with_it, row) + broken_laws(with_it, with_all, None)
                broken += ["the slow program without rows is another one"] if number % 5 == 0 and not row.startswith("said") and answer(Plain(oracle), rules, folder)[:2] != without[:2] else []
                spelled, further = readings(none, files), readings(one, files)
                broken += [f"{name} spells another thing" for name, what in spelled.items() if what is not None and further[name] != what]
                figures["tried"] += tried_copper(one, random.Random(f"{seed}/{number}"), files, broken)
                if broken:
                    wrong += 1
                    print(f"seed {seed}, {row}, package {number}: {broken}")
                figures["refused"] += with_it[1] == 2
                figures["read only with it"] += without[1] == 2 and with_it[1] != 2
                figures["refused differently"] += without[1] == 2 == with_it[1] and without[0] != with_it[0]
                figures["passes only with it"] += without[1] != 0 and with_it[1] == 0
                if 2 not in (without[1], with_it[1]):
                    figures["held only with it"] += len(lacks(without[2])[0] - lacks(with_it[2])[0])
            print(f"{row}: {count} packages; " + ", ".join(f"{name} {figure}" for name, figure in figures.items()))
    print(f"{wrong} packages break a law")
    return 1 if wrong else 0


class Plain:
    """The slow program as it is."""

    def __init__(self, oracle):
        self.o, self.run_check = oracle.o, oracle.run_check


# ------------------------------------------------------------------------------------------------
# Copper in floating point: a reader of macros and apertures that shares nothing with the above


def number_of(text, variables):
    text = re.sub(r"\$([0-9]+)", lambda m: f"variables[{m[1]}]", text.replace("X", "x").replace("x", "*"))
    text = re.sub(r"(?<![0-9.\[])0+(?=[0-9])", "", text)
    return float(eval(text, {"variables": variables}))  # pylint: disable=eval-used


def outside_of_segment(x, y, a, b, u, v):
    """How far a point lies along and across a segment: less than 0 along, more than its length, and the distance of its line."""
    length = math.hypot(u - a, v - b) or 1e-30
    return ((x - a) * (u - a) + (y - b) * (v - b)) / length, abs((x - a) * (v - b) - (y - b) * (u - a)) / length, length


def is_in_polygon(x, y, points):
    """By the number of crossings of a ray."""
    inside = False
    for (a, b), (u, v) in zip(points, points[1:] + points[:1]):
        if (b > y) != (v > y) and x < a + (u - a) * (y - b) / (v - b):
            inside = not inside
    return inside


def is_dark(code, fields, x, y):
    """Whether a point lies in a primitive, all in one unit, with a little more about it."""
    f = list(fields)
    rotation = 0 if code == "1" and len(f) < 5 else f.pop()
    turn = -math.radians(rotation)
    x, y = x * math.cos(turn) - y * math.sin(turn), x * math.sin(turn) + y * math.cos(turn)
    if not f or f[0] != 1:
        return False
    little = 2e-8
    if code == "1":
        return math.hypot(x - f[2], y - f[3]) <= f[1] / 2 + little
    if code == "20":
        along, across, length = outside_of_segment(x, y, *f[2:6])
        return -little <= along <= length + little and across <= f[1] / 2 + little
    if code == "21":
        return abs(x - f[3]) <= f[1] / 2 + little and abs(y - f[4]) <= f[2] / 2 + little
    turns = [2 * math.pi * at / f[1] for at in range(int(f[1]))]
    corners = [(f[4] / 2 * math.cos(it), f[4] / 2 * math.sin(it)) if code == "5" else (f[2 + 2 * at], f[3 + 2 * at]) for at, it in enumerate(turns)]
    near = any(-little <= along <= length + little and across <= little for along, across, length in (outside_of_segment(x, y, *p, *q) for p, q in zip(corners, corners[1:] + corners[:1])))
    return near or is_in_polygon(x, y, corners)


def parts_of(template, pieces):
    """An aperture as primitives: codes, and fields as numbers."""
    texts, variables = texts_of(template, pieces)
    return [(text.split(",")[0], [number_of(field, variables) for field in text.split(",")[1:]]) for text in texts]


def texts_of(template, pieces):
    """An aperture as primitives, and its variables."""
    if pieces is not None:
        parameters = [] if template.parameters is None else [float(text) for text in template.parameters.decode().split("X")]
        variables, found = dict(enumerate(parameters, 1)), []
        for piece in pieces:
            piece = piece.decode()
            if re.match(r"\$[0-9]+=", piece):
                name, text = piece.split("=", 1)
                variables[int(name[1:])] = number_of(text, variables)
            elif not re.match(r"0( |$)", piece):
                found.append(piece)
        return found, variables
    sizes = [str(size / ONE) for size in template.sizes]
    if template.letter == b"P":
        return [f"5,1,{sizes[1]},0,0,{sizes[0]},{sizes[2] if len(sizes) > 2 else 0}"], {}
    if template.letter == b"R":
        return [f"21,1,{sizes[0]},{sizes[1]},0,0,0"], {}
    if template.letter == b"C":
        return [f"1,1,{sizes[0]},0,0"], {}
    width, height = template.sizes[0] / ONE, template.sizes[1] / ONE
    radius = min(width, height) / 2
    far_x, far_y = width / 2 - radius, height / 2 - radius
    discs = [f"1,1,{2 * radius:.9f},{s * far_x:.9f},{s * far_y:.9f}" for s in (-1, 1)]
    return [*discs, f"20,1,{2 * radius:.9f},{-far_x:.9f},{-far_y:.9f},{far_x:.9f},{far_y:.9f},0"], {}


def flashes_of(slow, layer):
    """Each flash of a layer with what a reader in floating point needs."""
    before, mirror = slow.o.Before(), b"N"
    for _, _, command in layer.placed:
        if isinstance(command, slow.o.Operate) and command.operation == "Flash":
            template = before.aperture
            pieces = before.macros[template.name] if isinstance(template, slow.o.Named) else None
            for _ in before.copies():
                yield template, pieces, mirror.decode(), before.turn / ONE, slow.o.DEC_PM[before.unit] * ONE
        if isinstance(command, slow.o.Mirror):
            mirror = command.axes
        if not isinstance(command, slow.w.Clear):
            before.take(command)


def tried_copper(slow, rng, files, broken):
    """Tries of each shape of a flash whether the greatest discs that it covers lie in the copper; and how many points there were."""
    tried = 0
    try:
        layers = [slow.read_layer(text.encode()) for name, text in files.items() if name.endswith(".gbr")]
    except slow.o.Fault:
        return 0
    for layer in layers:
        flashes = [row for row in layer.rows if isinstance(row, slow.o.Flash)]
        for row, (template, pieces, *way) in zip(flashes, flashes_of(slow, layer)):
            if isinstance(row.what, Several):
                parts = parts_of(template, pieces)
                for shape in row.what.shapes:
                    tried += 16
                    if not all(is_copper(point, row, way, parts) for point in rims(rng, shape, row)):
                        broken.append(f"a shape of the flash at {row.x}, {row.y} is not in its copper: {shape}")
    return tried


def rims(rng, shape, row):
    """Points at the rims of the greatest discs that a shape covers about the flash and about another point."""
    size = max(shape.sides())
    for x, y in ((row.x, row.y), (row.x + rng.randint(-size, size) // 3, row.y + rng.randint(-size, size) // 3)):
        if shape.covers(x, y, 0):
            least, above = 0, size
            while above - least > max(1, size >> 20):
                reach = (least + above) // 2
                least, above = (reach, above) if shape.covers(x, y, reach) else (least, reach)
            for _ in range(8):
                angle = rng.random() * 2 * math.pi
                yield x + least * math.cos(angle), y + least * math.sin(angle)


def is_copper(point, row, way, parts):
    """Whether a point lies in the flash."""
    mirror, turn, unit = way
    x, y = (point[0] - row.x) / unit, (point[1] - row.y) / unit
    back = -math.radians(turn)
    x, y = x * math.cos(back) - y * math.sin(back), x * math.sin(back) + y * math.cos(back)
    x, y = (-x if "X" in mirror else x), (-y if "Y" in mirror else y)
    return any(is_dark(*part, x, y) for part in parts)


def first_line(text):
    """The reason or the finding that comes first, or PASS."""
    lines = text.decode("utf-8", "replace").split("\n")[:-1]
    return next((line for line in lines if line.startswith(("refused", "RING", "GAP"))), lines[-1])


def dialects(oracle, rows, parent, rules):
    """For each package in a folder what the slow program says with the rows and without, and which rows it needs for it."""
    none, every = Slow(oracle, []), Slow(oracle, rows)
    words = ["PASS", "FINDINGS", "refused"]
    for name in sorted(os.listdir(parent)):
        folder = os.path.join(parent, name)
        text, status, _ = answer(every, rules, folder)
        text_before, status_before, _ = answer(none, rules, folder)
        needs = [row for row in rows if answer(Slow(oracle, [it for it in rows if it != row]), rules, folder)[:2] != (text, status)]
        print(f"{name}: {words[status]}: {first_line(text)}")
        if (text, status) != (text_before, status_before):
            print(f"    without rows {words[status_before]}: {first_line(text_before)}; needs {', '.join(needs)}")
    return 0


def main():
    words = argparse.ArgumentParser(description=__doc__, formatter_class=argparse.RawDescriptionHelpFormatter)
    words.add_argument("what", choices=["write", "compare", "self", "dialects"])
    words.add_argument("target", nargs="?", default="-", help="a folder to write to, the program (- for none), or a folder of packages")
    words.add_argument("--seed", default="1")
    words.add_argument("--count", type=int, default=300, help="of packages for each row")
    words.add_argument("--rows", default=",".join(ROWS))
    words.add_argument("--ring", default="0.1")
    words.add_argument("--gap", default="0.2")
    words.add_argument("--oracle", help="the folder of oracle_wide.py")
    given = words.parse_intermixed_args()
    rows = [row for row in given.rows.split(",") if row]
    if not set(rows) <= set(ROWS):
        words.error("rows are " + ", ".join(ROWS))
    if given.what == "write":
        for number in range(1, given.count + 1):
            for row in rows:
                wide.write(*package_of(given.seed, number, row), os.path.join(given.target, f"{row}-{number:05d}"))
        return 0
    sys.path.insert(0, given.oracle)
    import oracle_wide  # pylint: disable=import-outside-toplevel,import-error

    if given.what == "self":
        return try_laws(oracle_wide, rows, given.seed, given.count)
    if given.what == "dialects":
        return dialects(oracle_wide, rows, given.target, ["--ring", given.ring, "--gap", given.gap])
    return compare(None if given.target == "-" else given.target, oracle_wide, rows, given.seed, given.count)


if __name__ == "__main__":
    with contextlib.suppress(BrokenPipeError):
        sys.exit(main())
