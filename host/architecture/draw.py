#!/usr/bin/env python3
"""draw.py [--check] [CRATES PICTURE]: draws the crates as an SVG picture, floor by floor, from top to bottom.

CRATES is crates.txt, PICTURE is docs/architecture.svg. In CRATES a line `NAME: DEP DEP ..` is a crate, `NAME staticlib: DEP ..` too, and a `#` line right
above a crate's line begins a floor. In the picture a line goes from a crate down to one that depends on it; a dependency that another path gives already is not
drawn. A crate that names one of a later floor is refused. With --check nothing is written: the picture must be the one that would be drawn now."""
import sys
from pathlib import Path

ROOT = Path(__file__).resolve().parents[2]
KIT = {"check"}
# Of each floor the colour of its band, and the one of its boxes and of the lines that leave them.
TONES = [("#eef3fb", "#33639f"), ("#eff7ef", "#35793b"), ("#fdf4e7", "#a8690c"), ("#f7effa", "#7d449a"),
         ("#eaf7f7", "#1b7a7d"), ("#fdefef", "#ad4040"), ("#f3f3f1", "#66665e"), ("#f1f1fb", "#5a5ab0")]
# A letter's width, a box's height, the room between rows, inside a band, for the floors' names, above the first band, and between boxes.
LETTER, HIGH, GAP, PAD, LEFT, TOP, EDGE = 7.3, 24, 22, 13, 128, 16, 14
FONT = 'font-family="DejaVu Sans, Verdana, Helvetica, Arial, sans-serif"'
CAPTION = ["Made of crates.txt by host/architecture/draw.py. A line goes from a crate down to one that depends on it.",
           "A dependency that another path gives already is not drawn."]


class Wrong(Exception):
    pass


def read(text):
    """The floors, each a name and its crates, and of each crate the crates that it names."""
    floors, needs, heading = [], {}, None
    for number, line in enumerate(text.splitlines(), 1):
        if line.startswith("#"):
            heading = line.strip("# ")
            continue
        name, colon, rest = line.partition(":")
        if colon:
            name = name.split()[0]  # behind it may stand that it is a static library
            if heading is not None:
                floors.append((heading, []))
            if not floors:
                raise Wrong(f"line {number}: {name} stands on no floor: there is no # line right above it or an earlier crate")
            if name in needs:
                raise Wrong(f"line {number}: {name} is there twice")
            floors[-1][1].append(name)
            needs[name] = [other for other in rest.split() if other not in KIT]
        heading = None
    return floors, needs


def one_way(floors, needs):
    """Refuses a crate that names none of the list's, or one of a later floor: data goes one way."""
    floor = {name: at for at, (_, names) in enumerate(floors) for name in names}
    for name, others in needs.items():
        for other in others:
            if other not in floor:
                raise Wrong(f"{name} names {other}, which is no crate of the list")
            if floor[other] > floor[name]:
                raise Wrong(f"{name}, of the floor '{floors[floor[name]][0]}', names {other}, of a later floor, '{floors[floor[other]][0]}'")


def below(needs):
    """Of each crate all that it depends on, by whatever path."""
    known = {}

    def visit(name, path):
        if name in path:
            raise Wrong(f"{name} depends on itself: {' '.join(path)} {name}")
        if name not in known:
            known[name] = set().union(*({other} | visit(other, [*path, name]) for other in needs[name]), set())
        return known[name]

    for name in needs:
        visit(name, [])
    return known


def drawn(needs):
    """Of each crate those dependencies that no other dependency has below it."""
    known = below(needs)
    return {name: [o for o in others if not any(o in known[p] for p in others)] for name, others in needs.items()}


def rows_of(floors, needs):
    """The row of each crate: below all rows of earlier floors, and below what it names on its own floor."""
    row, start = {}, 0

    def put(name, names):
        if name not in row:
            row[name] = max([start] + [put(other, names) + 1 for other in needs[name] if other in names])
        return row[name]

    for _, names in floors:
        start = 1 + max(put(name, names) for name in names)
    return row


class Layout:
    """Boxes in rows, and threads: a line that passes a row has a place of its own in it. All lines that leave one crate share one thread. Each row is
    arranged so that lines cross little, and placed so that they run straight."""

    def __init__(self, floors, needs):
        self.needs, self.row = drawn(needs), rows_of(floors, needs)
        self.rows = [[] for _ in range(1 + max(self.row.values()))]
        for name, at in self.row.items():
            self.rows[at].append(name)
        self.above = {name: [] for name in self.row}
        for name, others in self.needs.items():
            for other in others:
                self.above[name].append(self.thread(other, self.row[name] - 1))
        self.under = {spot: [] for spot in self.above}
        for spot, others in self.above.items():
            for other in others:
                self.under[other].append(spot)
        self.arrange()
        self.place()

    def thread(self, name, at):
        """What stands for a crate in a later row: the place where its thread passes."""
        if at == self.row[name]:
            return name
        spot = (name, at)
        if spot not in self.above:
            self.above[spot] = [self.thread(name, at - 1)]
            self.rows[at].append(spot)
        return spot

    def crossings(self):
        count = 0
        for upper, lower in zip(self.rows, self.rows[1:]):
            at = {spot: i for i, spot in enumerate(upper)}
            ends = [at[other] for spot in lower for other in sorted(self.above[spot], key=at.get)]
            count += sum(a > b for i, a in enumerate(ends) for b in ends[i + 1:])
        return count

    def arrange(self):
        """Each spot goes to the middle of those that it is tied to, row by row, downwards and upwards; the best of all rounds stays. Then neighbours are
        exchanged as long as that helps."""
        best = (self.crossings(), [list(row) for row in self.rows])
        for turn in range(24):
            tied = self.above if turn % 2 == 0 else self.under
            for this in (range(1, len(self.rows)) if turn % 2 == 0 else range(len(self.rows) - 2, -1, -1)):
                near = {spot: i for i, spot in enumerate(self.rows[this - 1 if turn % 2 == 0 else this + 1])}
                own = {spot: i for i, spot in enumerate(self.rows[this])}
                middle = {spot: sum(near[o] for o in tied[spot]) / len(tied[spot]) if tied[spot] else own[spot] for spot in own}
                self.rows[this].sort(key=lambda spot: (middle[spot], own[spot]))
            best = min(best, (self.crossings(), [list(row) for row in self.rows]), key=lambda b: b[0])
        self.rows, helped = best[1], True
        while helped:
            helped = False
            for row in self.rows:
                for i in range(len(row) - 1):
                    before = self.crossings()
                    row[i], row[i + 1] = row[i + 1], row[i]
                    if self.crossings() < before:
                        helped = True
                    else:
                        row[i], row[i + 1] = row[i + 1], row[i]

    def wide(self, spot):
        return LETTER * len(spot) + 18 if isinstance(spot, str) else 4

    def settle(self, row, wish, weight):
        """The places nearest to the wished ones that keep the row's order and its gaps: neighbours that would meet move together."""
        off, at = [], 0.0
        for i, spot in enumerate(row):
            at += (self.wide(row[i - 1]) + self.wide(spot)) / 2 + EDGE if i else 0
            off.append(at)
        groups = []
        for i, spot in enumerate(row):
            groups.append([wish[spot] - off[i], weight[spot], 1])
            while len(groups) > 1 and groups[-2][0] >= groups[-1][0]:
                (a, w, n), (b, v, m) = groups[-2], groups[-1]
                groups[-2:] = [[(a * w + b * v) / (w + v), w + v, n + m]]
        flat = [a for a, _, n in groups for _ in range(n)]
        return {spot: flat[i] + off[i] for i, spot in enumerate(row)}

    def place(self):
        """Each box wishes to stand in the middle of what it is tied to, each thread to run straight down; rounds of that bring them near to it."""
        weight = {spot: 1 if isinstance(spot, str) else 12 for spot in self.above}
        self.x = {}
        for row in self.rows:
            self.x.update(self.settle(row, {spot: 0 for spot in row}, weight))
        threads = {}
        for spot in self.above:
            threads.setdefault(spot if isinstance(spot, str) else spot[0], []).append(spot)
        for turn in range(150):
            for this in (self.rows if turn % 2 == 0 else reversed(self.rows)):
                wish = {}
                for spot in this:
                    tied = self.above[spot] + self.under[spot]
                    if not isinstance(spot, str):
                        tied = [o for s in threads[spot[0]][1:] for o in [s] * 3 + self.above[s] + self.under[s]]
                    wish[spot] = sum(self.x[o] for o in tied) / len(tied) if tied else self.x[spot]
                self.x.update(self.settle(this, wish, weight))
        least = min(self.x[spot] - self.wide(spot) / 2 for spot in self.x)
        self.x = {spot: round(x - least + LEFT + 12) for spot, x in self.x.items()}
        self.width = max(self.x[spot] + self.wide(spot) / 2 for spot in self.x)


def svg(floors, needs):
    layout = Layout(floors, needs)
    y, bands, at, row = {}, [], TOP, 0
    tone = {name: TONES[i % len(TONES)] for i, (_, names) in enumerate(floors) for name in names}
    for heading, names in floors:
        top, at, last = at, at + PAD, max(layout.row[name] for name in names)
        while row <= last:
            y[row], at, row = at, at + HIGH + GAP, row + 1
        at += PAD - GAP
        bands.append((heading, tone[names[0]], top, at))
        at += 8
    wide, high = round(layout.width + 26), at + 18 * len(CAPTION) + 8
    out = [f'<svg xmlns="http://www.w3.org/2000/svg" viewBox="0 0 {wide} {high}" width="{wide}" height="{high}" {FONT} role="img">',
           "<title>The crates, floor by floor</title>", f'<rect width="{wide}" height="{high}" fill="#ffffff"/>']
    for heading, (pale, dark), top, end in bands:
        out.append(f'<rect x="8" y="{top}" width="{wide - 16}" height="{end - top}" rx="6" fill="{pale}"/>')
        out.append(f'<text x="20" y="{(top + end) // 2 + 5}" font-size="13" font-weight="bold" fill="{dark}">{heading}</text>')
    for spot, others in layout.above.items():
        own = isinstance(spot, str)
        here, to = layout.row[spot] if own else spot[1], layout.x[spot]
        for other in others:
            source, start = (other if isinstance(other, str) else other[0]), layout.x[other]
            leave, meet = y[here - 1] + HIGH, y[here]
            bend = (meet - leave) // 2
            path = f"M{start} {leave}C{start} {leave + bend} {to} {meet - bend} {to} {meet}" + ("" if own else f"V{meet + HIGH}")
            out.append(f'<path d="{path}" fill="none" stroke="{tone[source][1]}" stroke-width="1.3" stroke-opacity="0.75"/>')
    for name, others in needs.items():
        x, box, (_, dark) = layout.x[name], layout.wide(name), tone[name]
        top = y[layout.row[name]]
        said = f"{name}: {' '.join(others)}" if others else name
        out.append(f'<g><title>{said}</title><rect x="{x - box / 2:.1f}" y="{top}" width="{box:.1f}" height="{HIGH}" rx="4" '
                   f'fill="#ffffff" stroke="{dark}" stroke-width="1.2"/>')
        out.append(f'<text x="{x}" y="{top + 16}" font-size="12" text-anchor="middle" fill="#1c1c1c">{name}</text></g>')
    for i, line in enumerate(CAPTION):
        out.append(f'<text x="20" y="{at + 12 + 18 * i}" font-size="12" fill="#444444">{line}</text>')
    return "\n".join([*out, "</svg>", ""])


def main(words):
    check = words[:1] == ["--check"]
    crates, picture = map(Path, words[check:] or [ROOT / "crates.txt", ROOT / "docs" / "architecture.svg"])
    try:
        floors, needs = read(crates.read_text())
        one_way(floors, needs)
        made = svg(floors, needs)
        if not check:
            picture.write_text(made)
        elif not picture.exists() or picture.read_text() != made:
            raise Wrong(f"{picture.name} is not the picture of these crates any more: host/architecture/draw.py draws it anew")
    except Wrong as why:
        sys.exit(f"architecture: {crates.name}: {why}")
    if check:
        print(f"architecture: {len(needs)} crates on {len(floors)} floors, none names a later floor, and the picture shows them")


if __name__ == "__main__":
    main(sys.argv[1:])
