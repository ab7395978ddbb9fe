"""The two maps of the crates: their groups, and all of them."""
import textwrap
from html import escape

from . import crates

INK, LINE = "#5b6270", "#8a8f98"


def svg(width, height, size, lines, boxes):
    return "\n".join(
        [
            f'<svg xmlns="http://www.w3.org/2000/svg" viewBox="0 0 {width:.0f} {height:.0f}" width="{width:.0f}" height="{height:.0f}" font-family="sans-serif" font-size="{size}">',
            '<rect width="100%" height="100%" fill="white"/>',
            f'<g fill="none" stroke="{LINE}">',
            *lines,
            "</g>",
            *boxes,
            "</svg>",
            "",
        ]
    )


def line(upper, lower):
    """From the foot of one box to the head of another."""
    (x, y), (u, v) = upper, lower
    bend = (v - y) / 2
    return f'<path d="M{x:.0f} {y:.0f} C{x:.0f} {y + bend:.0f} {u:.0f} {v - bend:.0f} {u:.0f} {v:.0f}"/>'


class Groups:
    """A box for each group: its words, what it is, its crates. As high as its text needs, one row for each level."""

    WIDE, GAP, BETWEEN, EDGE, STEP, CHARACTERS = 386, 14, 22, 12, 14, 58
    COLOURS = {"laws_": "#e8e2f4", "tests_": "#f2f2f2", "bench_": "#f2f2f2", "scenes_": "#f2f2f2"}

    def __init__(self):
        self.groups, depends = crates.read()
        self.edges = crates.between_groups(self.groups, depends)

    def text(self, group):
        """What stands behind the words of a box, and its further lines: what the group is, and its crates without the word that all
        names of the group begin with."""
        shared = group.words if group.words.endswith("_") and "," not in group.words else ""
        names = textwrap.wrap(", ".join(it.removeprefix(shared) for it in group.crates), self.CHARACTERS)
        if len(group.words) + len(group.about) > self.CHARACTERS + 4:
            return "", [(it, True) for it in textwrap.wrap(group.about, self.CHARACTERS)] + [(it, False) for it in names]
        return group.about, [(it, False) for it in names]

    def draw(self):
        rows, levels = {}, crates.levels(self.edges)
        for i, level in levels.items():
            rows.setdefault(level, []).append(i)
        texts = {i: self.text(group) for i, group in enumerate(self.groups)}
        high = {i: 24 + self.STEP * len(lines) for i, (_, lines) in texts.items()}
        width = 2 * self.EDGE + max(len(row) for row in rows.values()) * (self.WIDE + self.GAP) - self.GAP
        places, top = {}, self.EDGE
        for level in sorted(rows, reverse=True):
            left = (width - len(rows[level]) * (self.WIDE + self.GAP) + self.GAP) / 2
            for k, i in enumerate(sorted(rows[level])):
                places[i] = (left + k * (self.WIDE + self.GAP), top)
            top += max(high[i] for i in rows[level]) + self.BETWEEN
        foot = lambda i: (places[i][0] + self.WIDE / 2, places[i][1] + high[i])
        head = lambda i: (places[i][0] + self.WIDE / 2, places[i][1])
        side = lambda i: (places[i][0] + self.WIDE, places[i][1] + high[i] / 2)
        near = crates.direct(self.edges, crates.below(self.edges))
        edges = [(i, it) for i in sorted(near) for it in sorted(near[i])]
        lines = [line(foot(i), head(it)) if levels[i] - levels[it] == 1 else self.aside(side(i), head(it)) for i, it in edges]
        boxes = [it for i in sorted(places) for it in self.box(places[i], high[i], self.groups[i].words, *texts[i])]
        return svg(width, top - self.BETWEEN + self.EDGE, 11, lines, boxes)

    def aside(self, side, head):
        """From the side of one box down the gap beside it, so past boxes between, to the head of another."""
        (x, y), (u, v) = side, head
        gap, turn = x + self.GAP / 2, v - self.BETWEEN / 2
        return f'<path d="M{x:.0f} {y:.0f} H{gap:.0f} V{turn:.0f} H{u:.0f} V{v:.0f}"/>'

    def box(self, place, high, words, about, lines):
        x, y = place
        colour = next((it for start, it in self.COLOURS.items() if words.startswith(start)), "#dcebf7")
        yield f'<rect x="{x:.0f}" y="{y:.0f}" width="{self.WIDE}" height="{high}" rx="5" fill="{colour}" stroke="{INK}"/>'
        behind = f'<tspan dx="8" font-weight="normal" font-style="italic" font-size="11">{escape(about)}</tspan>' if about else ""
        yield f'<text x="{x + 8:.0f}" y="{y + 16:.0f}" font-weight="bold" font-size="12">{escape(words)}{behind}</text>'
        for k, (text, italic) in enumerate(lines, 1):
            style = ' font-style="italic"' if italic else ""
            yield f'<text x="{x + 8:.0f}" y="{y + 16 + self.STEP * k:.0f}"{style}>{escape(text)}</text>'


class Layers:
    """A box for each crate, in three columns: laws on the left, the vat in the middle, what uses it on the right."""

    WIDE, HIGH, GAP, ROW, EDGE = 158, 26, 10, 58, 24
    COLUMNS = [("laws", "#e8e2f4"), ("the vat", "#dcebf7"), ("traces, scripts, programs, tests", "#e6f1de")]

    def __init__(self):
        groups, self.depends = crates.read()
        titles = [it.words for it in groups]
        right = next(i for i, words in enumerate(titles) if words.startswith("trace_"))
        self.column = {name: 2 if i >= right else 0 if group.words.startswith("laws_") else 1 for i, group in enumerate(groups) for name in group.crates}

    def places(self):
        """The left upper corner of each box; where each column begins; and how wide and high the whole is."""
        levels, rows = crates.levels(self.depends), {}
        for name, level in levels.items():
            rows.setdefault((self.column[name], level), []).append(name)
        widths = [max(len(names) for (at, _), names in rows.items() if at == i) for i in range(len(self.COLUMNS))]
        lefts = [self.EDGE + sum(it * (self.WIDE + self.GAP) + 3 * self.GAP for it in widths[:i]) for i in range(len(self.COLUMNS))]
        top, found = max(levels.values()), {}
        for (at, level), names in rows.items():
            start = lefts[at] + (widths[at] - len(names)) * (self.WIDE + self.GAP) / 2
            for i, name in enumerate(sorted(names)):
                found[name] = (start + i * (self.WIDE + self.GAP), self.EDGE + 30 + (top - level) * self.ROW)
        return found, lefts, lefts[-1] + widths[-1] * (self.WIDE + self.GAP) + self.EDGE, self.EDGE + 30 + (top + 1) * self.ROW

    def draw(self):
        found, lefts, width, height = self.places()
        near = crates.direct(self.depends, crates.below(self.depends))
        foot = lambda it: (found[it][0] + self.WIDE / 2, found[it][1] + self.HIGH)
        head = lambda it: (found[it][0] + self.WIDE / 2, found[it][1])
        lines = [line(foot(name), head(it)) for name in sorted(near) for it in sorted(near[name])]
        boxes = [f'<text x="{left:.0f}" y="{self.EDGE}" font-size="15" font-weight="bold">{title}</text>' for left, (title, _) in zip(lefts, self.COLUMNS)]
        for name, (x, y) in sorted(found.items()):
            colour = self.COLUMNS[self.column[name]][1]
            boxes.append(f'<rect x="{x:.0f}" y="{y:.0f}" width="{self.WIDE}" height="{self.HIGH}" rx="4" fill="{colour}" stroke="{INK}"/>')
            boxes.append(f'<text x="{x + self.WIDE / 2:.0f}" y="{y + 17:.0f}" text-anchor="middle">{escape(name)}</text>')
        return svg(width, height, 12, lines, boxes)
