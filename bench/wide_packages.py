#!/usr/bin/env python3
"""Makes packages that stand at the border of what the wide profile counts and reads.

    wide_packages.py write --seed S --count N FOLDER      writes each package to a folder of its own, FOLDER/00001 and so on
    wide_packages.py compare --seed S --count N --oracle FOLDER PROGRAM
    wide_packages.py measures --seed S --count N PROGRAM

A package has a manifest m.csv, its files, and a file `rules` with the words of the ring and the gap. Its pads are macros of the bodies that
exporters write (rounded and oblong rectangles, lines, outlines, two arms), bodies that are nearly such, contours that are convex, nearly convex, open, or
painted with arcs, and usual pads; turned, mirrored, repeated, and cleared before or after. Its holes and slots, at any angle, are just held by such a pad,
or lack a picometre or a step; slots are written by G85 or by routing, and some drill files say in comments what is plated, or nearly do. `compare` runs `PROGRAM check --profile wide` on each, and a slow program
that is not in this repository (oracle_wide.py in the folder of --oracle), and prints where they differ. `measures` runs `PROGRAM measure` on each in both profiles, and
`PROGRAM check` at the ring and the gap that the measure says are met, one step below the limit and one above, and prints where a check is not as measured.
"""
import argparse
import contextlib
import json
import math
import os
import random
import subprocess
import sys
import tempfile

STEP = 1_000  # a nanometre, the step of the layers, in pm
MM = 10**9


def mm(pm):
    """A length of whole 10 pm in millimetres."""
    sign, pm = ("-", -pm) if pm < 0 else ("", pm)
    text = f"{sign}{pm // MM}.{pm % MM:09d}".rstrip("0")
    return text + "0" if text.endswith(".") else text


def rounded_rectangle(rng, half_x, half_y, radius):
    """RoundRect: an outline, a disc at each corner, a line along each side; or one that is nearly so."""
    corners = [(-half_x, -half_y), (half_x, -half_y), (half_x, half_y), (-half_x, half_y)]
    sizes = [2 * radius] * 8
    if rng.random() < 0.3:  # one disc or line is smaller, larger or lacks
        sizes[rng.randrange(8)] = rng.choice([None, 2 * radius - 10, 2 * radius + 10, radius])
    points = ",".join(f"{mm(x)},{mm(y)}" for x, y in corners + corners[:1])
    parts = [f"4,1,4,{points},0"]
    discs = [f"1,1,{mm(s)},{mm(x)},{mm(y)}" for s, (x, y) in zip(sizes, corners) if s is not None]
    lines = [f"20,1,{mm(s)},{mm(x)},{mm(y)},{mm(u)},{mm(v)},0" for s, (x, y), (u, v) in zip(sizes[4:], corners, corners[1:] + corners[:1]) if s is not None]
    more = discs + lines
    if rng.random() < 0.2:
        rng.shuffle(more)
    return parts + more


def centre_of_arc(rng, across, up):
    """The centre of an arc as its start sees it, whose end lies so far away: amid, equally far from both, or nearer to one, just so much that it is none."""
    x, y, way = across // 2, up // 2, rng.random()
    if way < 0.3:  # moved across the way to the end
        turn = rng.choice([-2, -1, 1, 2])
        x, y = x - turn * (up // 2), y + turn * (across // 2)
    elif way < 0.5:  # moved so that the radii differ by about 2 um
        near = rng.choice([-1, 1]) * (1_000 + rng.choice([-1, 0, 0, 1, 2]))
        x, y = (x + near, y) if abs(across) > abs(up) else (x, y + near)
    elif way < 0.6:  # elsewhere
        x, y = rng.choice([(0, 0), (x, -y), (y, x), (across, up), (2 * x, y)])
    return x, y


def oblong(rng, x, y, u, v, width):
    """HorizOval: a line and a disc at each of its ends."""
    parts = [f"20,1,{mm(width)},{mm(x)},{mm(y)},{mm(u)},{mm(v)},0", f"1,1,{mm(width)},{mm(x)},{mm(y)}", f"1,1,{mm(width)},{mm(u)},{mm(v)}"]
    if rng.random() < 0.15:
        del parts[rng.choice([1, 2])]
    if rng.random() < 0.1:
        parts[0], parts[1] = parts[1], parts[0]
    return parts


def outline(rng, points, turn):
    points = list(points)
    if rng.random() < 0.15:  # a corner twice
        at = rng.randrange(len(points))
        points.insert(at, points[at])
    if rng.random() < 0.1:  # a corner amid a side
        at = rng.randrange(len(points))
        (x, y), (u, v) = points[at], points[(at + 1) % len(points)]
        points.insert(at + 1, ((x + u) // 20 * 10, (y + v) // 20 * 10))
    closed = points + points[:1] if rng.random() < 0.97 else points + [(points[0][0] + 10, points[0][1])]
    return [f"4,1,{len(closed) - 1}," + ",".join(f"{mm(x)},{mm(y)}" for x, y in closed) + f",{turn}"]


def convex_points(rng, size):
    """Corners of a convex polygon round (0, 0), and often one that is moved a little, so that it is nearly convex."""
    count = rng.choice([3, 4, 4, 5, 6, 8])
    angles = sorted(rng.random() * 2 * math.pi for _ in range(count))
    points = [(round(size * math.cos(a) / STEP) * STEP, round(size * math.sin(a) / STEP) * STEP) for a in angles]
    if rng.random() < 0.35:
        at = rng.randrange(count)
        x, y = points[at]
        points[at] = (x * rng.choice([1, 2, 3, -1]) // 4 // STEP * STEP, y // 2 // STEP * STEP)
    if rng.random() < 0.3:
        points.reverse()
    return points


class Layer:
    """A layer that is written, object by object."""

    def __init__(self, rng):
        self.rng, self.macros, self.apertures, self.body, self.numbers = rng, [], [], [], 10

    def aperture(self, words):
        self.apertures.append(f"%ADD{self.numbers}{words}*%")
        self.numbers += 1
        return self.numbers - 1

    def macro(self, parts):
        name = f"M{len(self.macros)}"
        if self.rng.random() < 0.2:
            parts = ["0 a comment", *parts]
        self.macros.append(f"%AM{name}*" + "*".join(parts) + "*%")
        return self.aperture(name)

    def flash(self, aperture, x, y):
        rng = self.rng
        turn, mirror = rng.choice([0] * 8 + [90, 180, 270, 45]), rng.choice(["N"] * 8 + ["X", "Y", "XY"])
        scale = rng.choice(["1"] * 20 + ["1.1"])
        before = [f"%LM{mirror}*%"] * (mirror != "N") + [f"%LR{turn}*%"] * (turn != 0) + [f"%LS{scale}*%"] * (scale != "1")
        after = ["%LMN*%"] * (mirror != "N") + ["%LR0*%"] * (turn != 0) + ["%LS1*%"] * (scale != "1")
        self.body += [*before, f"D{aperture}*", f"X{x // STEP}Y{y // STEP}D03*", *after]
        return turn, mirror

    def contour(self, points, x, y):
        rng, steps = self.rng, [((x + u) // STEP, (y + v) // STEP) for u, v in points]
        closed = steps + steps[:1] if rng.random() < 0.9 else steps
        words = [f"X{closed[0][0]}Y{closed[0][1]}D02*"] if rng.random() < 0.97 else []
        way = rng.random()
        for (u, v), (s, t) in zip(closed, closed[1:]):
            if way < 0.25:  # arcs, of which the centre lies amid
                across, up = centre_of_arc(rng, s - u, t - v)
                words.append(f"{rng.choice(['G03', 'G03', 'G02'])}X{s}Y{t}I{across}J{up}D01*")
            else:
                words.append(f"X{s}Y{t}D01*")
        if rng.random() < 0.07:  # a second contour in the region
            words += [f"G01X{closed[0][0] + 9}Y{closed[0][1]}D02*", f"X{closed[0][0] + 99}Y{closed[0][1]}D01*", f"X{closed[0][0] + 9}Y{closed[0][1] + 99}D01*",
                      f"X{closed[0][0] + 9}Y{closed[0][1]}D01*"]
        quadrant = ["G75*"] if way < 0.25 and rng.random() < 0.85 else []
        self.body += [*quadrant, "G36*", *words, "G37*", "G01*"]

    def clear(self, disc, x, y):
        self.body += ["%LPC*%", f"D{disc}*", f"X{x // STEP}Y{y // STEP}D0{self.rng.choice([3, 3, 2])}*", *(["%LPD*%"] if self.rng.random() < 0.95 else [])]

    def text(self):
        items = ["%TF.FileFunction,Copper,L1,Top*%"] * (self.rng.random() < 0.5) + ["%FSLAX46Y46*%", "%MOMM*%", *self.macros, *self.apertures, "G01*", *self.body, "M02*"]
        return "\n".join(items) + "\n"


def slack(rng):
    """How much wider than asked a pad is: mostly nothing, or a little too little or too much."""
    return rng.choice([0, 0, 0, 0, 10, -10, 1000, -1000, 50_000_000])


def put_pad(rng, layer, hole, ring):
    """A pad about a hole or a slot, that just holds it or just does not."""
    x, y, u, v, radius = hole
    reach = radius + ring + slack(rng)
    middle_x, middle_y = (x + u) // 2 // STEP * STEP, (y + v) // 2 // STEP * STEP
    ends = (x - middle_x, y - middle_y, u - middle_x, v - middle_y)
    far_x, far_y = max(abs(ends[0]), abs(ends[2])), max(abs(ends[1]), abs(ends[3]))
    kind = rng.choice(["round", "oblong", "outline", "contour", "rectangle", "disc", "cross", "usual"])
    if kind == "round":
        corner = rng.choice([reach // 20 * 10, reach // 40 * 10, 10_000])
        layer.flash(layer.macro(rounded_rectangle(rng, far_x + (reach - corner) // 10 * 10, far_y + (reach - corner) // 10 * 10, corner)), middle_x, middle_y)
    elif kind == "oblong":
        layer.flash(layer.macro(oblong(rng, *ends, 2 * reach)), middle_x, middle_y)
    elif kind in ("outline", "contour"):
        size = (math.isqrt(far_x * far_x + far_y * far_y) + reach) * rng.choice([2, 3, 3]) // 2 // STEP * STEP
        points = rng.choice([lambda: convex_points(rng, size), lambda: [(-far_x - reach, -far_y - reach), (far_x + reach, -far_y - reach), (far_x + reach, far_y + reach), (-far_x - reach, far_y + reach)]])()
        points = [(p // STEP * STEP, q // STEP * STEP) for p, q in points]
        if kind == "outline":
            layer.flash(layer.macro(outline(rng, points, rng.choice([0, 0, 0, 90, 180, 45]))), middle_x, middle_y)
        else:
            layer.contour(points, middle_x, middle_y)
    elif kind == "rectangle":
        layer.flash(layer.macro([f"21,1,{mm(2 * (far_x + reach))},{mm(2 * (far_y + reach))},0,0,{rng.choice([0, 0, 90, 180])}"]), middle_x, middle_y)
    elif kind == "disc":
        size = math.isqrt(far_x * far_x + far_y * far_y) + reach
        layer.flash(layer.macro([rng.choice([f"1,1,{mm(2 * size)},0,0", f"$1={mm(size)}*1,1,$1+$1,0,0", f"1,1,{mm(size)}x2,0,0", f"1,{rng.choice([1, 0])},{mm(2 * size)},0,0,0"])]), middle_x, middle_y)
    elif kind == "cross":
        corner, wide, tall = reach // 20 * 10, far_x + reach, far_y + reach
        discs = [f"1,1,{mm(2 * corner)},{mm(s * (wide - corner))},{mm(t * (tall - corner))}" for s in (-1, 1) for t in (-1, 1)]
        layer.flash(layer.macro([f"21,1,{mm(2 * wide)},{mm(2 * (tall - corner))},0,0,0", f"21,1,{mm(2 * (wide - corner))},{mm(2 * tall)},0,0,0", *discs]), middle_x, middle_y)
    else:
        letter = rng.choice("RO")
        layer.flash(layer.aperture(f"{letter},{mm(2 * (far_x + reach))}X{mm(2 * (far_y + reach))}"), middle_x, middle_y)


def put_hole(rng, lines, hole, routed):
    x, y, u, v, _ = hole
    if (x, y) == (u, v):
        lines.append(f"X{mm(x)}Y{mm(y)}")
    elif routed:
        lines += [f"G00X{mm(x)}Y{mm(y)}", "M15", f"G01X{mm(u)}Y{mm(v)}", "M16"]
    else:
        lines.append(f"X{mm(x)}Y{mm(y)}G85X{mm(u)}Y{mm(v)}")


# What a comment may say of the plating of the tools after it, and comments that are nearly such.
PLATINGS = [";TYPE=PLATED", ";TYPE=NON_PLATED", "; #@! TA.AperFunction,Plated,PTH,ViaDrill", "; #@! TA.AperFunction,NonPlated,NPTH,ComponentDrill"]
NEAR_PLATINGS = ["; #@! TD", ";#@! TD.AperFunction,", "; #@! TA.AperFunction", "; #@! TA.AperFunctions,Plated", "; TYPE=PLATED", ";TYPE=PLATED,", "; #@! TF.FileFunction,Plated,1,2,PTH", "; a comment"]


def plating_words(rng):
    """The comments before a tool of a mixed file: mostly one that says what its holes are."""
    chosen = [rng.choice(PLATINGS)] if rng.random() < 0.9 else []
    if rng.random() < 0.15:
        chosen.insert(rng.randrange(len(chosen) + 1), rng.choice(NEAR_PLATINGS))
    return chosen


def make_drill(rng, holes, mixed):
    if rng.random() < 0.04:
        return "%\nM30\n"
    tools = sorted({hole[4] for hole in holes})
    lines = ["M48", "METRIC"]
    for n, radius in enumerate(tools, 1):
        lines += [*(plating_words(rng) if mixed else []), f"T{n}C{mm(2 * radius)}"]
    lines.append("%")
    if mixed and rng.random() < 0.1:
        lines.append(rng.choice(PLATINGS + NEAR_PLATINGS))
    for n, radius in enumerate(tools, 1):
        lines.append(f"T{n}")
        mine = [hole for hole in holes if hole[4] == radius]
        drilled, routed = [it for it in mine if rng.random() < 0.6 or it[:2] == it[2:4]], []
        routed = [it for it in mine if it not in drilled]
        for hole in drilled:
            put_hole(rng, lines, hole, False)
        for hole in routed:
            put_hole(rng, lines, hole, True)
        if routed and rng.random() < 0.95:
            lines.append("G05")
    if rng.random() < 0.05:
        lines.insert(rng.randrange(4, len(lines) + 1), rng.choice(["G00X1.0Y1.0", "M15", "G01X1.0", "M16", "G05", "; a comment", "", "G02X1.0Y1.0A1.0"]))
    return "\n".join(lines + ["M30"]) + "\n"


def make_holes(rng):
    holes = []
    for n in range(rng.choice([1, 1, 2, 3, 4])):
        x, y = rng.randint(-20, 20) * MM + 40 * n * MM, rng.randint(-20, 20) * MM
        radius = rng.choice([100_000_000, 200_000_000, 375_000_000])
        u, v = x, y
        if rng.random() < 0.55:
            length = rng.choice([10_000_000, 500_000_000, 1_000_000_000])
            u, v = rng.choice([(x + length, y), (x, y + length), (x + length, y + length), (x + 3 * length, y - 4 * length), (x - length, y + STEP)])
        holes.append((x, y, u, v, radius))
    return holes


def package(rng):
    """The files of a package by their names, and the words of its rules."""
    ring, gap = rng.choice([0, 100_000_000, 125_000_000, 127_000_000]), rng.choice([100_000_000, 250_000_000])
    holes, files, rows = make_holes(rng), {}, ["role,name,file"]
    for number in range(1, rng.choice([1, 1, 2]) + 1):
        layer = Layer(rng)
        disc = layer.aperture("C,0.1")
        for hole in holes:
            if rng.random() < 0.1:
                layer.clear(disc, hole[0], hole[1])
            repeated = rng.random() < 0.1
            if repeated:
                layer.body.append(f"%SRX{rng.choice([1, 2])}Y{rng.choice([1, 2])}I{mm(hole[4] * 20)}J{mm(hole[4] * 20)}*%")
            put_pad(rng, layer, hole, ring)
            if rng.random() < 0.04:
                layer.clear(disc, hole[0], hole[1])
            if repeated:
                layer.body.append("%SR*%")
        files[f"l{number}.gbr"] = layer.text()
        rows.append(f"copper,l{number},l{number}.gbr")
    role = rng.choice(["plated"] * 7 + ["unplated"] + ["mixed"] * 3)
    files["d.drl"] = make_drill(rng, holes, role == "mixed")
    rows.append(f"{role},d,d.drl")
    files["m.csv"] = "\n".join(rows) + "\n"
    return files, ["--ring", mm(ring), "--gap", mm(gap)]


def write(files, rules, folder):
    os.makedirs(folder, exist_ok=True)
    for name, text in {**files, "rules": " ".join(rules) + "\n"}.items():
        with open(os.path.join(folder, name), "w", encoding="ascii") as out:
            out.write(text)


def expected(oracle, rules, folder):
    """What the slow program prints, and its status."""
    try:
        _, (text, report) = oracle.run_check(rules[1], rules[3], os.path.join(folder, "m.csv"), "wide")
        return text, 1 if report.findings else 0
    except oracle.o.PackageFault as fault:
        name = fault_name(folder, fault.index)
        return f"refused file={fault.index + 1} place={fault.fault.place} byte={fault.fault.byte} reason={fault.fault.reason} name={name}\n".encode(), 2


def fault_name(folder, index):
    with open(os.path.join(folder, "m.csv"), encoding="ascii") as it:
        return it.read().split("\n")[1 + index].split(",")[1]


def compare(program, said, packages, answer):
    """The program beside a slow program: `answer` gives what that prints of a package in a folder by its rules, and its status."""
    differ, statuses, number = 0, {}, 0
    with tempfile.TemporaryDirectory() as folder:
        for number, (files, rules) in enumerate(packages, 1):
            for old in os.listdir(folder):
                os.remove(os.path.join(folder, old))
            write(files, rules, folder)
            text, status = answer(rules, folder)
            statuses[status] = statuses.get(status, 0) + 1
            if program:
                ran = subprocess.run([program, "check", "--profile", "wide", *rules, "m.csv"], cwd=folder, stdout=subprocess.PIPE, check=False)
                if (ran.stdout, ran.returncode) != (text, status):
                    differ += 1
                    print(f"differs: {said}, package {number}: {ran.returncode} {ran.stdout[-200:]!r} in place of {status} {text[-200:]!r}")
    print(f"{said}: {number} packages, {differ} differ; statuses of the slow program: {dict(sorted(statuses.items()))}", flush=True)
    return 1 if differ else 0


def run_json(program, folder, profile):
    """The measure of the package in a folder, as JSON, and its status."""
    words = [program, "measure", "--profile", profile, "--format", "json", "m.csv"]
    ran = subprocess.run(words, cwd=folder, stdout=subprocess.PIPE, check=False)
    return json.loads(ran.stdout), ran.returncode


def check_status(program, folder, profile, rules):
    """The status of a check under a ring and a gap in steps of 10 pm, the finest of a rule."""
    ring, gap = (f"{steps // 10**8}.{steps % 10**8:08d}" for steps in rules)
    words = [program, "check", "--profile", profile, "--ring", ring, "--gap", gap, "m.csv"]
    return subprocess.run(words, cwd=folder, stdout=subprocess.DEVNULL, check=False).returncode


def is_met(limit, steps):
    return limit == "any" or (limit != "none" and steps * 10 <= limit)


def rules_round(meets):
    """Rings and gaps in steps of 10 pm: the least rule, the greatest that is met, and the next."""
    ring, gap = ((limit if isinstance(limit, int) else MM) // 10 for limit in (meets["ring_pm"], meets["gap_pm"]))
    rings = sorted({0, max(0, ring), max(0, ring + 1)})
    return [(r, g) for r in rings for g in sorted({1, max(1, gap), max(1, gap + 1)})]


def wrong_checks(program, folder, profile):
    """How many checks are made, and the rules under which a check is not as the measure says."""
    measure, status = run_json(program, folder, profile)
    if measure["result"] == "refused":
        return 1, [] if check_status(program, folder, profile, (0, 1)) == status == 2 else ["refused"]
    meets = measure["meets"]
    tried = rules_round(meets)
    wanted = ((rules, 0 if is_met(meets["ring_pm"], rules[0]) and is_met(meets["gap_pm"], rules[1]) else 1) for rules in tried)
    return len(tried), [rules for rules, want in wanted if check_status(program, folder, profile, rules) != want]


def measures(program, seed, count):
    made, wrong = 0, 0
    with tempfile.TemporaryDirectory() as folder:
        for number in range(1, count + 1):
            for old in os.listdir(folder):
                os.remove(os.path.join(folder, old))
            write(*package(random.Random(f"{seed}/{number}")), folder)
            for profile in ("strict", "wide"):
                checks, found = wrong_checks(program, folder, profile)
                made, wrong = made + checks, wrong + len(found)
                if found:
                    print(f"not as measured: seed {seed}, package {number}, profile {profile}: {found}")
    print(f"{count} packages, {made} checks, {wrong} not as measured")
    return 1 if wrong else 0


def main():
    words = argparse.ArgumentParser(description=__doc__, formatter_class=argparse.RawDescriptionHelpFormatter)
    words.add_argument("what", choices=["write", "compare", "measures"])
    words.add_argument("target", help="a folder to write to, or the program; - for none")
    words.add_argument("--seed", default="1")
    words.add_argument("--count", type=int, default=1000)
    words.add_argument("--oracle", help="the folder of oracle_wide.py")
    given = words.parse_args()
    if given.what == "write":
        for number in range(1, given.count + 1):
            write(*package(random.Random(f"{given.seed}/{number}")), os.path.join(given.target, f"{number:05d}"))
        return 0
    if given.what == "measures":
        return measures(given.target, given.seed, given.count)
    sys.path.insert(0, given.oracle)
    import oracle_wide  # pylint: disable=import-outside-toplevel,import-error

    packages = (package(random.Random(f"{given.seed}/{number}")) for number in range(1, given.count + 1))
    return compare(None if given.target == "-" else given.target, f"seed {given.seed}", packages, lambda *asked: expected(oracle_wide, *asked))


if __name__ == "__main__":
    with contextlib.suppress(BrokenPipeError):
        sys.exit(main())
