#!/usr/bin/env python3
"""Writes the board of this folder, and what the commands say of it.

    examples/board/make.py [FOLDER]     into this folder, or into another one
    examples/board/make.py --rows       prints the runs of examples/runs.txt on it as rows of crates/worked_examples/data/examples.txt

Made are gerbers/ (two copper layers, a drill file of plated and one of unplated holes, an outline), board.csv, and expected/.
What is expected is written down from how the board is made, not from what a program answers. checks/examples runs the
commands and compares. Lengths are whole nanometres (nm) here.

The board has four DIP sockets, a header, vias, a jack with a slot, parts on its top, mounting holes. Its ring is 0.15 mm and its
gap 0.25 mm, but for four faults, each of which is a finding of one kind:

1. via 17 is drilled 0.001 mm beside its pads: the ring is 0.149 mm on both layers;
2. pin 8 of the first socket has no pad on the bottom;
3. pin 1 of the header has pads with rounded corners, which are made by a macro and are not judged;
4. vias 60 and 61 are 0.5 mm from each other: their holes leave 0.2 mm.
"""
import os
import sys

TOP = os.path.dirname(os.path.realpath(__file__))
MM = 1_000_000
RING, GAP = 150_000, 250_000


def grid(columns, rows, x, y, step_x, step_y):
    return [(x + i * step_x, y + j * step_y) for i in range(columns) for j in range(rows)]


# Vias in rows below the sockets; the last two are too close to each other.
VIAS = grid(20, 6, 6 * MM, 5 * MM, 4_500_000, 2 * MM)
VIAS[60] = (VIAS[59][0] + 500_000, VIAS[59][1])
SOCKETS = [
    grid(2, 20, x * MM, 22 * MM, 15_240_000, 2_540_000) for x in (8, 32, 56, 80)
]
HEADER = grid(20, 2, 20 * MM, 78 * MM, 2_540_000, 2_540_000)
JACK = [(100 * MM, 80 * MM), (100 * MM, 86 * MM)]
PARTS = grid(10, 4, 27 * MM, 24 * MM, 350_000 * 20, 5 * MM)
MOUNTING = [(3 * MM, 3 * MM), (107 * MM, 3 * MM), (3 * MM, 87 * MM), (107 * MM, 87 * MM)]
OFF_CENTRE, NO_PAD = 16, 7

MACRO = [
    "AMRoundRect",
    "0 a rectangle with round corners: its size in x and in y, and the radius",
    "21,1,$1-$3-$3,$2,0,0,0",
    "21,1,$1,$2-$3-$3,0,0,0",
    "1,1,$3+$3,$1/2-$3,$2/2-$3",
    "1,1,$3+$3,$3-$1/2,$2/2-$3",
    "1,1,$3+$3,$1/2-$3,$3-$2/2",
    "1,1,$3+$3,$3-$1/2,$3-$2/2",
]
# Number, definition, and how the table of `show` lists a flash.
APERTURES = {
    "trace": (10, "C,0.25", None),
    "via": (11, "C,0.6", ("disc", 600_000, 600_000)),
    "pin": (12, "C,1.6", ("disc", 1_600_000, 1_600_000)),
    "first pin": (13, "R,1.6X1.6", ("rect", 1_600_000, 1_600_000)),
    "header": (14, "O,1.7X2.2", ("obround", 1_700_000, 2_200_000)),
    "rounded": (15, "RoundRect,1.7X2.2X0.25", ("macro", None, None)),
    "jack": (16, "O,4.2X2.4", ("obround", 4_200_000, 2_400_000)),
    "part": (17, "R,1.2X0.9", ("rect", 1_200_000, 900_000)),
}


def millimetres(nm):
    """A length as reports and tables have it."""
    return f"{'-' * (nm < 0)}{abs(nm) // MM}.{abs(nm) % MM:06}000"


def short(nm):
    """A length as canonical drill files have it: at least one decimal, and no zeros at the end."""
    return f"{abs(nm) // MM}.{f'{abs(nm) % MM:06}'.rstrip('0') or '0'}"


class Text:
    """A file as an exporter writes it, and its canonical text."""

    def __init__(self):
        self.lines, self.canonical = [], []

    def add(self, line, canonical=None):
        self.lines.append(line)
        self.canonical.append(line if canonical is None else canonical)

    def skipped(self, line):
        self.lines.append(line)


class Layer(Text):
    def __init__(self, function):
        super().__init__()
        self.flashes, self.aperture = [], None
        self.add("G04 Made by examples/board/make.py*")
        self.add(f"%TF.FileFunction,{function}*%")
        self.add("%TF.FilePolarity,Positive*%")
        self.skipped("%IPPOS*%")
        self.add("%FSLAX46Y46*%")
        self.add("%MOMM*%")
        self.add("%LPD*%")
        self.add("G01*")

    def define(self):
        self.add("%" + "".join(f"{it}*\n" for it in MACRO)[:-1] + "%")
        for number, definition, _ in APERTURES.values():
            self.add(f"%ADD{number}{definition}*%")

    def select(self, name):
        if self.aperture != name:
            self.aperture = name
            number = APERTURES[name][0]
            self.add(f"G54D{number}*" if name == "via" else f"D{number}*", f"D{number}*")

    def flash(self, name, x, y):
        self.select(name)
        self.add(f"X{x}Y{y}D03*")
        self.flashes.append((*APERTURES[name][2], x, y))

    def draw(self, points):
        self.select("trace")
        self.path(points)

    def region(self, points):
        self.add("G36*")
        self.path([*points, points[0]])
        self.add("G37*")

    def path(self, points):
        (x, y), *others = points
        self.add(f"X{x}Y{y}D02*")
        for x, y in others:
            self.add(f"X{x}Y{y}D01*")

    def end(self):
        self.skipped("*")
        self.add("M02*")

    def table(self):
        rows = ["flash,what,x,y,width,height"]
        for number, (what, width, height, x, y) in enumerate(self.flashes, 1):
            sides = f"{millimetres(width)},{millimetres(height)}" if width else ","
            rows.append(f"{number},{what},{millimetres(x)},{millimetres(y)},{sides}")
        return rows

    def counts(self):
        other = sum(what == "macro" for what, *_ in self.flashes)
        return f"layer pads={len(self.flashes) - other} other={other}"


class Drill(Text):
    def __init__(self, function, tools):
        super().__init__()
        self.holes, self.tools = [], tools
        self.add("M48")
        self.add(f"; #@! TF.FileFunction,{function}")
        self.skipped("FMAT,2")
        self.add("METRIC")
        for number, diameter in tools.items():
            self.add(f"T{number}C{diameter / MM:.3f}", f"T{number}C{short(diameter)}")
        self.add("%")
        self.skipped("G90")

    def pick(self, number):
        self.add(f"T{number}")
        self.diameter = self.tools[number]

    def hit(self, x, y):
        self.add(f"X{x / MM:.3f}Y{y / MM:.3f}", f"X{short(x)}Y{short(y)}")
        self.holes.append((x, y, x, y, self.diameter))

    def slot(self, x, y, to_x, to_y):
        self.add(f"X{x / MM:.3f}Y{y / MM:.3f}G85X{to_x / MM:.3f}Y{to_y / MM:.3f}", f"X{short(x)}Y{short(y)}G85X{short(to_x)}Y{short(to_y)}")
        self.holes.append((x, y, to_x, to_y, self.diameter))

    def end(self):
        self.add("T0")
        self.add("M30")

    def table(self):
        return ["hole,x1,y1,x2,y2,diameter"] + [",".join([str(number), *map(millimetres, it)]) for number, it in enumerate(self.holes, 1)]

    def counts(self, plated):
        slots = sum(it[:2] != it[2:4] for it in self.holes)
        return f"drill plated={'yes' if plated else 'no'} round={len(self.holes) - slots} slots={slots}"


def copper(function, is_top):
    layer = Layer(function)
    layer.define()
    for x, y in VIAS:
        layer.flash("via", x, y)
    for socket, pins in enumerate(SOCKETS):
        for pin, (x, y) in enumerate(pins):
            if is_top or (socket, pin) != (0, NO_PAD):
                layer.flash("pin" if pin else "first pin", x, y)
    for pin, (x, y) in enumerate(HEADER):
        layer.flash("header" if pin else "rounded", x, y)
    for x, y in JACK:
        layer.flash("jack", x, y)
    for x, y in PARTS if is_top else []:
        layer.flash("part", x, y)
    if is_top:
        for column in range(0, 114, 6):
            layer.draw(VIAS[column : column + 6])
    else:
        layer.region([(84 * MM, 76 * MM), (94 * MM, 76 * MM), (94 * MM, 88 * MM), (84 * MM, 88 * MM)])
        for row in range(6):
            layer.draw(VIAS[row::6][:10])
    layer.end()
    return layer


def outline():
    layer = Layer("Profile,NP")
    layer.add("%ADD10C,0.1*%")
    layer.add("D10*")
    layer.path([(0, 0), (110 * MM, 0), (110 * MM, 90 * MM), (0, 90 * MM), (0, 0)])
    layer.end()
    return layer


def plated():
    drill = Drill("Plated,1,2,PTH", {1: 300_000, 2: 800_000, 3: 1_000_000, 4: 1_200_000})
    drill.pick(1)
    for number, (x, y) in enumerate(VIAS):
        drill.hit(x + 1_000 * (number == OFF_CENTRE), y)
    drill.pick(2)
    for x, y in (it for pins in SOCKETS for it in pins):
        drill.hit(x, y)
    drill.pick(3)
    for x, y in HEADER:
        drill.hit(x, y)
    drill.pick(4)
    for x, y in JACK:
        drill.slot(x - 900_000, y, x + 900_000, y)
    drill.end()
    return drill


def unplated():
    drill = Drill("NonPlated,1,2,NPTH", {1: 3_200_000})
    drill.pick(1)
    for x, y in MOUNTING:
        drill.hit(x, y)
    drill.end()
    return drill


def finding(layer, hole, holes):
    x, y, _, _, diameter = holes[hole]
    return f"RING layer={layer} drill=3 hole={hole + 1} x={millimetres(x)} y={millimetres(y)} diameter={millimetres(diameter)}"


def file_lines(files):
    """The lines of a report and of a measure on the files."""
    top, bottom, pth, npth = files
    return [
        f"file 1 {top.counts()} name=board-F_Cu.gbr",
        f"file 2 {bottom.counts()} name=board-B_Cu.gbr",
        f"file 3 {pth.counts(True)} name=board-PTH.drl",
        f"file 4 {npth.counts(False)} name=board-NPTH.drl",
    ]


def report(files, ring, off_centre):
    """The report at a ring, at which a hole 0.001 mm off its pads is a finding or not."""
    pth = files[2]
    off = [OFF_CENTRE] * off_centre
    no_pad, rounded = len(VIAS) + NO_PAD, len(VIAS) + sum(map(len, SOCKETS))
    findings = [finding(1, it, pth.holes) for it in [*off, rounded]]
    findings += [finding(2, it, pth.holes) for it in [*off, no_pad, rounded]]
    findings += ["GAP drill=3 hole=60 drill=3 hole=61"]
    return [
        f"rules ring={millimetres(ring)} gap={millimetres(GAP)}",
        *file_lines(files),
        *findings,
        f"FINDINGS {len(findings)}",
    ]


def length(nm):
    """A length as the report for people has it: no zeros at the end of its decimals."""
    return f"{'-' * (nm < 0)}{short(nm)}".removesuffix(".0")


def report_for_people(files):
    """The report for people at the ring and the gap of the board. Its findings are numbered as they come."""
    top, bottom, pth, _ = files
    no_pad, rounded = len(VIAS) + NO_PAD, len(VIAS) + sum(map(len, SOCKETS))

    def at(hole):
        x, y, _, _, diameter = pth.holes[hole]
        return f"hole {hole + 1} of board-PTH.drl, {length(diameter)} at {length(x)},{length(y)}"

    def flash(layer, x, y):
        return next(number for number, it in enumerate(layer.flashes, 1) if it[3:] == (x, y))

    def rings(layer, number, name, holes):
        off = flash(layer, *VIAS[OFF_CENTRE])
        found = [f"{at(OFF_CENTRE)}: annular ring {length(RING - 1_000)} (rule {length(RING)}), off centre: flash {off}, disc 0.6x0.6, hole off by 0.001,0"]
        found += [f"{at(hole)}: no pad at the hole" for hole in holes]
        found += [f"{at(rounded)}: annular ring not judged, only a macro flash: flash {flash(layer, *HEADER[0])}"]
        lines = [f"  #{finding} {words}" for finding, words in enumerate(found, number)]
        return [f"annular ring on {name}: {len(found)} of {len(pth.holes)} holes below the rule", *lines]

    return [
        f"rules: annular ring {length(RING)} mm, hole to hole {length(GAP)} mm",
        *rings(top, 1, "board-F_Cu.gbr", []),
        *rings(bottom, 3, "board-B_Cu.gbr", [no_pad]),
        "hole to hole: 1 gap too small",
        f"  #6 {at(59)}, and {at(60)}: gap 0.2 (rule {length(GAP)})",
        "2 off centre: the pad is large enough for a hole at its centre; drill files are rounded: see `ringcheck explain ring`",
        "2 only a macro flash: --profile wide counts macros whose shape is known, such as rounded rectangles; or choose circle, oval or rectangle: see `ringcheck explain macro`",
        "1 no pad at the hole: no pad was flashed here, or it is drawn or of a shape that is not judged, or the drill file has another origin or format: see `ringcheck explain none`",
        f"smallest ring {length(RING - 1_000)} (rule {length(RING)})",
        f"smallest gap 0.2 (rule {length(GAP)})",
        f"no annular ring is met: 3 findings are of holes with no pad that counts (without them: {length(RING - 1_000)}); hole to hole 0.2 is met",
        "2 of these 6 findings disappear with --profile wide, which counts pads with rounded corners",
        "FINDINGS 6",
    ]


def measure(files):
    """The measure: of each kind of hole half of its pad's lesser side less half of the hole, but for the faults."""
    first_pin = len(VIAS) + 1
    first_of_header = first_pin + sum(map(len, SOCKETS))
    first_of_jack = first_of_header + len(HEADER)
    # Diameter, holes, the least ring, and the first hole that has it. The header's first pin is bare.
    kinds = [
        (300_000, len(VIAS), RING - 1_000, OFF_CENTRE + 1),
        (800_000, first_of_header - first_pin, 400_000, first_pin),
        (1_000_000, len(HEADER), 350_000, first_of_header + 1),
        (1_200_000, len(JACK), 600_000, first_of_jack),
    ]
    lines = file_lines(files)
    for layer in (1, 2):
        bare = {first_of_header: 1_000_000} if layer == 1 else {first_of_header: 1_000_000, first_pin + NO_PAD: 800_000}
        for diameter, holes, ring, hole in kinds:
            count = sum(it == diameter for it in bare.values())
            counts = f"holes={holes} bare={count} least={millimetres(ring)} hole={hole}"
            lines.append(f"ring layer={layer} drill=3 diameter={millimetres(diameter)} {counts}")
    lines.append(f"gap least={millimetres(200_000)} drill=3 hole=60 drill=3 hole=61")
    return [*lines, f"meets ring=none gap={millimetres(200_000)} held={millimetres(RING - 1_000)}"]


def made():
    """Each file of this folder but this one, by its path, as its lines."""
    top, bottom, pth, npth = files = (copper("Copper,L1,Top", True), copper("Copper,L2,Bot", False), plated(), unplated())
    found = {}
    for name, it in zip(("F_Cu.gbr", "B_Cu.gbr", "PTH.drl", "NPTH.drl", "Edge_Cuts.gbr"), (*files, outline())):
        found[f"gerbers/board-{name}"] = "\n".join(it.lines).split("\n")
    manifest = ["role,name,file"]
    for role, name in (("copper", "F_Cu.gbr"), ("copper", "B_Cu.gbr"), ("plated", "PTH.drl"), ("unplated", "NPTH.drl")):
        manifest.append(f"{role},board-{name},gerbers/board-{name}")
    found["board.csv"] = manifest
    found["expected/manifest-why.csv"] = [
        "file,role,because",
        "gerbers/board-B_Cu.gbr,copper,file function Copper",
        "gerbers/board-Edge_Cuts.gbr,-,file function Profile",
        "gerbers/board-F_Cu.gbr,copper,file function Copper",
        "gerbers/board-NPTH.drl,unplated,file function NonPlated",
        "gerbers/board-PTH.drl,plated,file function Plated",
    ]
    found["expected/check-0.15.txt"] = report(files, RING, True)
    found["expected/check-0.149.txt"] = report(files, RING - 1_000, False)
    found["expected/report-0.15.txt"] = report_for_people(files)
    found["expected/measure.txt"] = measure(files)
    found["expected/show-top.csv"] = top.table()
    found["expected/show-pth.csv"] = pth.table()
    found["expected/rewrite-top.gbr"] = "\n".join(top.canonical).split("\n")
    found["expected/rewrite-pth.drl"] = pth.canonical
    return found


def rows(files):
    """The runs of examples/runs.txt in this folder, as rows of the worked examples."""
    printed = []
    for path in files:
        if not path.startswith("expected/"):
            printed += [f"base {os.path.basename(path)}", *(f"| {line}" for line in files[path])]
    with open(f"{TOP}/../runs.txt", encoding="utf-8") as it:
        runs = [[part.strip() for part in line.split("|")] for line in it if line.startswith("board |")]
    for _, status, expected, words in runs:
        names = sorted(it for it in files if it.startswith("gerbers/"))
        words = words.replace("gerbers/*", " ".join(names))
        printed += ["", f"example board: {words}"]
        printed += [f"file {path} from {os.path.basename(path)}" for path in files if not path.startswith("expected/")]
        printed += [f"run {words}", f"status {status}", *(f"> {line}" for line in files[expected])]
    return printed


def main(words):
    files = made()
    if words == ["--rows"]:
        print("\n".join(rows(files)))
        return
    for path, lines in files.items():
        path = f"{words[0] if words else TOP}/{path}"
        os.makedirs(os.path.dirname(path), exist_ok=True)
        with open(path, "w", encoding="ascii", newline="\n") as it:
            it.write("".join(f"{line}\n" for line in lines))


if __name__ == "__main__":
    main(sys.argv[1:])
