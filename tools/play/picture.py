"""A derivation or a structure that the program accepts as a picture of its own, in SVG."""
from __future__ import annotations

import re
from collections.abc import Iterator
from html import escape
from math import hypot
from pathlib import Path

from exercise import formula_of
from sequent import Branch, Derivation, head_of
from shown import LOGICS, Reader, world

ROW, LETTER, GAP = 22, 8.4, 28  # pixels: height of a line, width of a letter, space between branches
STYLE = ("text{font:14px 'DejaVu Sans',sans-serif;fill:#1d2430}.T{fill:#0b6b3a;font-weight:700}.F{fill:#9c2a10;font-weight:700}"
         ".dim{fill:#59616d;font-size:12px}.at{fill:#2b4fa8;font-size:12px}marker path{fill:#7a828e}line,path{stroke:#7a828e;stroke-width:1.4}"
         "rect.world{fill:#f4f7fc;stroke:#2b4fa8;stroke-width:1.4}rect.root{fill:#fff3c4}")


def page(width: float, height: float, title: str, parts: list[str]) -> str:
    return (f'<svg xmlns="http://www.w3.org/2000/svg" width="{width:.0f}" height="{height:.0f}" viewBox="0 0 {width:.0f} {height:.0f}" role="img">'
            f'<title>{escape(title)}</title><style>{STYLE}</style><rect width="100%" height="100%" fill="#fff"/>' + "\n".join(parts) + "</svg>\n")


class Tree:
    """Each branch has a column, as broad as its lines and its forks need."""

    def __init__(self, root: Branch, reader: Reader) -> None:
        self.reader, self.bottom = reader, 0.0
        self.parts: list[str] = []
        self.widths: dict[int, float] = {}
        self.width = self.measured(root)
        self.draw(root, GAP, 60)

    def lines(self, branch: Branch) -> list[str]:
        return [f"{e.number} {e.sign} {self.reader.formula(e.formula)} {world(e.label) if e.label else ''} {e.source}" for e in branch.entries]

    def measured(self, branch: Branch) -> float:
        own = max((len(line) + 5 for line in self.lines(branch)), default=4) * LETTER
        below = sum(self.measured(b) for b in branch.fork) + GAP * max(0, len(branch.fork) - 1)
        self.widths[id(branch)] = max(own, below)
        return self.widths[id(branch)]

    def draw(self, branch: Branch, left: float, top: float) -> None:
        middle = left + self.widths[id(branch)] / 2
        for e in branch.entries:
            at = f'<tspan class="at" dx="8">{escape(world(e.label))}</tspan>' if e.label else ""
            source = f'<tspan class="dim" dx="10">{e.source}</tspan>' if e.source else ""
            self.parts.append(f'<text x="{middle:.1f}" y="{top:.1f}" text-anchor="middle"><tspan class="dim">{e.number}</tspan>'
                              f'<tspan class="{e.sign}" dx="6">{e.sign}</tspan><tspan dx="6">{escape(self.reader.formula(e.formula))}</tspan>{at}{source}</text>')
            top += ROW
        if branch.closed:
            self.parts.append(f'<text x="{middle:.1f}" y="{top:.1f}" text-anchor="middle"><tspan class="F">✕</tspan>'
                              f'<tspan class="dim" dx="6">{branch.closed.entry}, {branch.closed.other}</tspan></text>')
            top += ROW
        self.bottom = max(self.bottom, top)
        inner = left + (self.widths[id(branch)] - sum(self.widths[id(b)] for b in branch.fork) - GAP * max(0, len(branch.fork) - 1)) / 2
        for below in branch.fork:
            there = inner + self.widths[id(below)] / 2
            self.parts.append(f'<line x1="{middle:.1f}" y1="{top - ROW + 8:.1f}" x2="{there:.1f}" y2="{top + 10:.1f}"/>')
            self.draw(below, inner, top + ROW + 6)
            inner += self.widths[id(below)] + GAP


def tree_svg(file: Path, text: str, logic: str, reader: Reader) -> str:
    formula = formula_of(file, logic)
    made = Derivation(logic, formula)
    for step in head_of(text)[1]:
        made.apply(step)
    tree = Tree(made.root, reader)
    title = f"A derivation in {LOGICS[logic]}: {reader.formula(formula)}"
    head = f'<text x="{GAP}" y="28" class="dim">{escape(title)}</text>'
    return page(max(tree.width, len(title) * 7.4) + 2 * GAP, tree.bottom + 20, title, [head, *tree.parts])


# ---- structures


class Structure:
    """What a structure's text says, which the program has judged."""

    def __init__(self, text: str, reader: Reader) -> None:
        self.reach: dict[int, list[int]] = {}
        self.there: dict[int, list[str]] = {}
        self.functions: list[str] = []
        self.elements = int((re.search(r"^elements (\d+)", text, re.M) or ["", "1"])[1])
        for line in text.split("\n"):
            words = re.findall(r"'(?:\\.|[^'\\])*'|\S+", line)
            if words[:1] == ["relation"]:
                self.reach[int(words[1])] = [int(w) for w in words[2:]]
            if words[:1] == ["domain"]:
                self.there[int(words[1])] = ["elements " + ", ".join(words[2:])]
            if words[:1] == ["predicate"] and len(words) > 4:
                self.there[int(words[3])] += list(self.atoms(reader, words[1], int(words[2]), words[4]))
            if words[:1] == ["function"]:
                self.functions.append(self.function(reader, words[1], int(words[2]), words[3:]))

    def atoms(self, reader: Reader, name: str, arity: int, bits: str) -> Iterator[str]:
        for place, bit in enumerate(bits):
            if bit == "1" and name != "$$o":
                elements = tuple(("fun", str(n), ()) for n in self.elements_at(place, arity))
                yield reader.formula(("equal", *elements) if name == "=" else ("atom", name.strip("'"), elements))

    def elements_at(self, place: int, arity: int) -> list[int]:
        return [place // self.elements ** i % self.elements + 1 for i in reversed(range(arity))]

    def function(self, reader: Reader, word: str, arity: int, values: list[str]) -> str:
        name = reader.name("function", word.strip("'"))
        if not arity:
            return f"{name} = {values[0]}"
        return ", ".join(f"{name}({', '.join(map(str, self.elements_at(i, arity)))}) = {v}" for i, v in enumerate(values))

    def rows(self) -> list[list[int]]:
        """The worlds by their distance from the root."""
        rows, seen = [[1]], {1}
        while len(seen) < len(self.reach):
            row = sorted({v for w in rows[-1] for v in self.reach[w]} - seen) or sorted(set(self.reach) - seen)
            rows.append(row)
            seen |= set(row)
        return rows


def structure_svg(file: Path, text: str, logic: str, reader: Reader) -> str:
    s = Structure(text, reader)
    title = f"A structure in {LOGICS[logic]} in which this is false at the root: {reader.formula(formula_of(file, logic))}"
    total = all(len(r) == len(s.reach) for r in s.reach.values())
    loops = all(w in r for w, r in s.reach.items())
    boxes, parts, top, width = {}, [], 60.0, len(title) * 7.4
    for row in s.rows():
        left, tallest = float(GAP), 0.0
        for w in row:
            lines = [f"{w}{' (root)' if w == 1 else ''}", *s.there[w]]
            size = max(len(line) for line in lines) * LETTER + 20, len(lines) * ROW + 10
            boxes[w] = (left, top, *size)
            shape = "world root" if w == 1 else "world"
            parts.append(f'<rect class="{shape}" x="{left:.0f}" y="{top:.0f}" width="{size[0]:.0f}" height="{size[1]:.0f}" rx="10"/>')
            parts += [f'<text x="{left + 10:.0f}" y="{top + 21 + i * ROW:.0f}">{escape(line)}</text>' for i, line in enumerate(lines)]
            left, tallest = left + size[0] + 70, max(tallest, size[1])
        top, width = top + tallest + 60, max(width, left)
    arrows = [] if total and len(boxes) > 1 else [arrow(boxes[a], boxes[b]) for a, r in s.reach.items() for b in r if a != b]
    notes = ["each world reaches each"] if total and len(boxes) > 1 else ["each world reaches itself too"] if loops and len(boxes) > 1 else \
        [] if len(boxes) == 1 and loops else [f"world {w} reaches itself" for w, r in s.reach.items() if w in r]
    foot = [f'<text x="{GAP}" y="{top - 20 + i * ROW:.0f}" class="dim">{escape(note)}</text>' for i, note in enumerate(notes + s.functions)]
    tip = '<defs><marker id="tip" viewBox="0 0 10 10" refX="9" refY="5" markerWidth="8" markerHeight="8" orient="auto"><path d="M0 0L10 5L0 10z" fill="#7a828e"/></marker></defs>'
    head = f'<text x="{GAP}" y="28" class="dim">{escape(title)}</text>'
    return page(width + 2 * GAP, top + ROW * len(foot), title, [tip, head, *arrows, *parts, *foot])


def arrow(a: tuple[float, ...], b: tuple[float, ...]) -> str:
    """From the edge of a box to that of another."""
    ax, ay, bx, by = a[0] + a[2] / 2, a[1] + a[3] / 2, b[0] + b[2] / 2, b[1] + b[3] / 2
    length = hypot(bx - ax, by - ay) or 1.0

    def edge(box: tuple[float, ...], x: float, y: float, dx: float, dy: float) -> tuple[float, float]:
        by_x = box[2] / 2 / abs(dx) if dx else 1e9
        by_y = box[3] / 2 / abs(dy) if dy else 1e9
        reach = min(by_x, by_y)
        return x + dx * reach, y + dy * reach

    dx, dy = (bx - ax) / length, (by - ay) / length
    x1, y1 = edge(a, ax, ay, dx, dy)
    x2, y2 = edge(b, bx, by, -dx, -dy)
    return f'<path d="M{x1:.0f} {y1:.0f}L{x2:.0f} {y2:.0f}" marker-end="url(#tip)"/>'


def svg_of(file: Path, text: str, logic: str, reader: Reader) -> str:
    return (structure_svg if text.startswith("leancop structure ") else tree_svg)(file, text, logic, reader)
