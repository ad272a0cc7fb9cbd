"""Pictures of the slices of a set: as text, as a drawing in SVG, and as a page in HTML."""

from __future__ import annotations

import html
from typing import Dict, List, NamedTuple, Sequence, Tuple

from ..common.recovery_set import Member, RecoverySet

IN_PLACE, MOVED, NOT_KNOWN, MISSING = range(4)      # from the best to the worst
WORDS = ["in place", "moved", "not known", "missing"]
SIGNS = "#+?."
COLOURS = ["\x1b[32m", "\x1b[33m", "\x1b[35m", "\x1b[31m"]
PLAIN = "\x1b[0m"
LINES = 4           # the greatest number of lines for a file
NARROW = 48         # a line of fewer characters is too short for the words of all signs
FILLS = ["#2e7d32", "#e08600", "#7a7a7a", "#c62828"]
# A square, half of one, a bar, and a frame: paths from their upper left corners, 9 by 9.
SHAPES = ["h9v9h-9z", "v9h9z", "m0 3h9v3h-9z", "h9v9h-9zm2 2v5h5v-5z"]
PITCH = 10
COLUMNS = 64        # cells in a row of a drawing
ROWS = 8
MOST_NAME = 40      # the most characters of a name in a drawing
LETTER = 7.3        # the width of a character there


class Map(NamedTuple):
    """The states of a file's slices and, by number, the name and offset where a moved one is."""
    file: Member
    states: List[int]
    where: Dict[int, Tuple[str, int]]


def _tally(states: Sequence[int]) -> str:
    """Returns how many slices are in each state, in words."""
    return ", ".join(f"{states.count(state)} {WORDS[state]}" for state in range(4) if state in states) or "no slices"


def _need(the_set: RecoverySet, states: Sequence[int]) -> str:
    return f"need {states.count(MISSING) + states.count(NOT_KNOWN)} have {the_set.have}"


def _all_states(maps: Sequence[Map]) -> List[int]:
    return [state for each in maps for state in each.states]


def _spans(length: int, most: int) -> List[Tuple[int, int]]:
    """Cuts a list of this length into at most `most` parts, and returns their beginnings and ends."""
    count = min(length, most)
    return [(at * length // count, (at + 1) * length // count) for at in range(count)]


def _cut(name: str, most: int) -> str:
    return name if len(name) <= most else name[:max(most - 2, 0)] + ".."


# As text: a sign for each slice, or for several in a row.

def _paint(signs: str, colour: bool) -> str:
    """Returns a line of signs, in colours if these are asked for."""
    if not colour:
        return signs
    text, last = "", ""
    for sign in signs:
        text += sign if sign == last else COLOURS[SIGNS.index(sign)] + sign
        last = sign
    return text + PLAIN


def _lines_of_file(each: Map, width: int, colour: bool) -> List[str]:
    """Returns the lines of a file: its name and how much of it is there, and the signs of its slices."""
    parts = _spans(len(each.states), width * LINES)
    most = max((end - begin for begin, end in parts), default=1)
    about = f": {_tally(each.states)}" + (f"; up to {most} slices a sign" if most > 1 else "")
    signs = "".join(SIGNS[max(each.states[begin:end])] for begin, end in parts)
    rows = [_paint(signs[at:at + width], colour) for at in range(0, len(signs), width)]
    fits = len(each.file.shown + about) <= width
    head = [each.file.shown + about] if fits else [_cut(each.file.shown, width), _cut(about[2:], width)]
    return ["", *head, *rows]


def lines_of(the_set: RecoverySet, maps: Sequence[Map], width: int, colour: bool) -> List[str]:
    """Returns the lines of the whole picture."""
    states = _all_states(maps)
    signs = [f"{_paint(sign, colour)} {word}" for sign, word in zip(SIGNS, WORDS)]
    lines = [the_set.line, ("  " if width >= NARROW else "\n").join(signs)]
    for each in maps:
        lines += _lines_of_file(each, width, colour)
    return [*lines, "", f"{_tally(states)}; {_need(the_set, states)}"]


# As drawings: a cell for each slice, or for several in a row.

def _place_of(at: int) -> str:
    """Returns the corner of a cell in a grid."""
    return f"{at % COLUMNS * PITCH} {at // COLUMNS * PITCH}"


def _grid(each: Map, has_titles: bool) -> Tuple[List[str], int]:
    """Returns the cells of a file, and how many rows they take. Each cell has a title that says what it means, or
    all cells of a state are one."""
    parts = _spans(len(each.states), COLUMNS * ROWS)
    worst = [max(each.states[begin:end]) for begin, end in parts]
    cells: List[str] = []
    if has_titles:
        for at, (begin, end) in enumerate(parts):
            cells.append(f'<path fill="{FILLS[worst[at]]}" d="M{_place_of(at)}{SHAPES[worst[at]]}">'
                         f"<title>{html.escape(_cell_title(each, begin, end))}</title></path>")
    else:
        for state in range(4):
            path = "".join(f"M{_place_of(at)}{SHAPES[state]}" for at, now in enumerate(worst) if now == state)
            if path:
                cells.append(f'<path fill="{FILLS[state]}" d="{path}"/>')
    return cells, -(-len(parts) // COLUMNS)


def _cell_title(each: Map, begin: int, end: int) -> str:
    if end - begin > 1:
        return f"slices {begin} to {end - 1}: {_tally(each.states[begin:end])}"
    if begin in each.where:
        name, offset = each.where[begin]
        return f"slice {begin}: moved, in {name} at {offset}"
    return f"slice {begin}: {WORDS[each.states[begin]]}"


def _legend() -> List[str]:
    """Returns the shapes with their words, in a line."""
    parts: List[str] = []
    at = 0
    for fill, shape, word in zip(FILLS, SHAPES, WORDS):
        parts += [f'<path fill="{fill}" d="M{at} 0{shape}"/>', f'<text x="{at + 14}" y="9">{word}</text>']
        at += 30 + 8 * len(word)
    return parts


def svg_of(the_set: RecoverySet, maps: Sequence[Map]) -> str:
    """Returns a drawing of all files with their names."""
    states = _all_states(maps)
    labels = [f"{_cut(each.file.shown, MOST_NAME)}: {_tally(each.states)}" for each in maps]
    labels.append(f"{_tally(states)}; {_need(the_set, states)}")
    parts, y = [f'<g transform="translate(10 10)">{"".join(_legend())}</g>'], 40
    for each, label in zip(maps, labels):
        cells, rows = _grid(each, False)
        parts += [f'<text x="10" y="{y}">{html.escape(label)}</text>',
                  f'<g transform="translate(10 {y + 6})">{"".join(cells)}</g>']
        y += rows * PITCH + 24
    parts.append(f'<text x="10" y="{y}">{labels[-1]}</text>')
    columns = min(COLUMNS, max((len(each.states) for each in maps), default=0))
    width = 20 + max(340, columns * PITCH, round(LETTER * max(map(len, labels))))
    return "\n".join([
        f'<svg xmlns="http://www.w3.org/2000/svg" width="{width}" height="{y + 12}" viewBox="0 0 {width} {y + 12}"'
        ' font-family="monospace" font-size="12" fill="#222">',
        f"<title>The slices of set {the_set.id}</title>",
        '<rect width="100%" height="100%" fill="#fff"/>', *parts, "</svg>", ""])


class Run(NamedTuple):
    """Moved slices that also follow one another in another file: the first and the last, the name of that file, and the
    offset of the first."""
    first: int
    last: int
    name: str
    offset: int

    def text(self) -> str:
        numbers = f"slice {self.first}" if self.first == self.last else f"slices {self.first} to {self.last}"
        return f"{numbers} in {html.escape(self.name)} from {self.offset}"


def _runs(each: Map, size: int) -> List[Run]:
    """Returns where the moved slices of a file are."""
    runs: List[Run] = []
    for number, (name, offset) in sorted(each.where.items()):
        last = runs[-1] if runs else None
        if last and last[1:] == (number - 1, name, offset - (number - last.first) * size):
            runs[-1] = last._replace(last=number)
        else:
            runs.append(Run(number, number, name, offset))
    return runs


def page_of(the_set: RecoverySet, maps: Sequence[Map]) -> str:
    """Returns a page with a drawing of each file."""
    states = _all_states(maps)
    parts = ["<!DOCTYPE html>", '<html lang="en"><head><meta charset="utf-8">', f"<title>Set {the_set.id}</title>",
             "<style>body{font:14px monospace;background:#fff;color:#222}h2{font-size:1em;overflow-wrap:anywhere}"
             "li{overflow-wrap:anywhere}</style></head><body>",
             f"<p>{the_set.line}</p>", f"<p>{_tally(states)}; {_need(the_set, states)}</p>",
             f'<svg width="640" height="14">{"".join(_legend())}</svg>']
    for each in maps:
        cells, rows = _grid(each, True)
        parts += [f"<h2>{html.escape(each.file.shown)}: {_tally(each.states)}</h2>",
                  f'<svg width="{COLUMNS * PITCH}" height="{rows * PITCH}">{"".join(cells)}</svg>']
        runs = _runs(each, the_set.size)
        if runs:
            parts.append("<details><summary>where moved slices are</summary><ul>")
            parts += [f"<li>{run.text()}</li>" for run in runs]
            parts.append("</ul></details>")
    return "\n".join([*parts, "</body></html>", ""])
