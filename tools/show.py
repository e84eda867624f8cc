#!/usr/bin/env python3
"""Draws generations of cells, in the terminal or as an SVG.

    show.py [FILE ..] [--about] [--svg FILE [--animate]] [--width COLUMNS] [--status]

A FILE is a history (rows of 0 and 1, an empty line between generations), a search file, patterns in RLE, one behind the other, or a
picture in plaintext (.cells), Life 1.05 or Life 1.06.
With no FILE the standard input is read, so `lls search .. | show.py` works; its answers `no pattern` and `undecided` are handed on, and
so is the line that `lls least`, `lls most` and `lls open` print above a pattern.

In the terminal two rows share a line. A file with cells that aren't known is drawn one row a line and two columns a cell: `??`
is an unknown cell, a name stands for itself, and a mark as in search files says that the rule needn't hold into the cell.

--svg draws a strip of the generations instead, one strip a file, into FILE or for `-` to the standard output, in which cells of one
name have one colour, and their opposites a darker one; --animate draws one generation after the other in one place.
--about says of known generations, in words in place of a drawing, how many cells live in each and in what box, and which is the first
generation again, where one is, and where.
--width is the terminal's width, where it isn't to be found out.
--status ends with the status of the search whose answer is drawn, which a pipe hides: 10 where there is a pattern, 20 behind `no pattern`, 30 behind `undecided`
and a line that begins with `at most` or `at least`.
"""
import argparse
import colorsys
import re
import shutil
import sys

import ending
from refute import read_search_file
from pictures import BadPicture, is_picture, pictures_of

CELL = re.compile(r"(?:[01*]|-?[A-Za-z][A-Za-z0-9]{0,31})'?")
# The answers that show no pattern, with the status of the search.
ANSWERS = {"no pattern": 20, "undecided": 30}
PATTERN, UNDECIDED = 10, 30
HEADLINE = re.compile(r"(?:least|at most|most|at least) [0-9]+|B\S*/S\S*")


class BadInput(Exception):
    """A text that can't be drawn, with why."""


def cut_headline(text):
    """Returns the line above a pattern that `least`, `most` or `open` found, or none, in a list, and what stands below."""
    line, _, below = text.partition("\n")
    return ([line], below) if HEADLINE.fullmatch(line) else ([], text)


def read_generations(text):
    """Returns the generations of a text of any of these forms, all as words of search files."""
    if is_picture(text):
        try:
            pictures = [picture.rows for picture in pictures_of(text)]
        except BadPicture as fault:
            raise BadInput(str(fault)) from None
        if not any(rows and rows[0] for rows in pictures):
            raise BadInput("a picture without cells")
        return same_sizes([[[str(cell) for cell in row] for row in rows] for rows in pictures])
    generations = read_search_file(text)
    if not generations:
        raise BadInput("no rows of cells")
    for word in (word for rows in generations for row in rows for word in row):
        if not CELL.fullmatch(word):
            raise BadInput(f"no cell: {word!r}")
    return same_sizes(generations)


def same_sizes(generations):
    """Fills up smaller generations with dead cells, since an RLE may leave them out."""
    height = max(len(rows) for rows in generations)
    width = max(len(row) for rows in generations for row in rows)
    filled = [[row + ["0"] * (width - len(row)) for row in rows] for rows in generations]
    return [rows + [["0"] * width for _ in range(height - len(rows))] for rows in filled]


def is_known(generations):
    return all(word in ("0", "1") for rows in generations for row in rows for word in row)


# Drawing in the terminal.


def half_blocks(rows):
    """Returns the lines of a generation, two rows a line."""
    below = rows[1:] + [["0"] * len(rows[0])]
    blocks = {("0", "0"): " ", ("1", "0"): "▀", ("0", "1"): "▄", ("1", "1"): "█"}
    return ["".join(blocks[pair] for pair in zip(rows[y], below[y])) for y in range(0, len(rows), 2)]


def wide_cells(rows):
    """Returns the lines of a generation, one row a line."""
    blocks = {"0": " ·", "1": "██", "*": "??"}
    cells = [[blocks.get(word, word) for word in row] for row in rows]
    size = max([2] + [len(cell) for row in cells for cell in row])
    return ["".join(cell.rjust(size) for cell in row) for row in cells]


def framed(number, lines):
    """Returns lines with a frame round them and a generation's number above."""
    width = len(lines[0])
    rim = "─" * width
    return [str(number).ljust(width + 2), f"┌{rim}┐"] + [f"│{line}│" for line in lines] + [f"└{rim}┘"]


def drawn(generations, columns):
    """Returns the lines of all generations, as many side by side as the columns hold."""
    draw = half_blocks if is_known(generations) else wide_cells
    pictures = [framed(number, draw(rows)) for number, rows in enumerate(generations)]
    beside = max(1, (columns + 1) // (len(pictures[0][0]) + 1))
    lines = []
    for start in range(0, len(pictures), beside):
        lines += [" ".join(parts).rstrip() for parts in zip(*pictures[start : start + beside])]
    return lines


# In words.


def live_cells(rows):
    return {(y, x) for y, row in enumerate(rows) for x, word in enumerate(row) if word.rstrip("'") == "1"}


def corner(cells):
    """Returns the top row and the leftmost column of the box of some cells."""
    return min(y for y, _ in cells), min(x for _, x in cells)


def moved_to(first, later):
    """Returns how far the later cells are from the first to the right and down, where they are the first ones moved, or None."""
    if not first or not later:
        return (0, 0) if first == later else None
    down, right = (b - a for a, b in zip(corner(first), corner(later)))
    return (right, down) if {(y + down, x + right) for y, x in first} == later else None


def about(generations):
    """Returns the lines that say what is seen of a history."""
    all_cells = [live_cells(rows) for rows in generations]
    lines = []
    for number, cells in enumerate(all_cells):
        box = ""
        if cells:
            (top, left), bottom, right = corner(cells), max(y for y, _ in cells), max(x for _, x in cells)
            box = f" in a box of {right - left + 1} by {bottom - top + 1} at column {left}, row {top}"
        lines.append(f"generation {number}: {len(cells)} live{box}")
    for number, cells in enumerate(all_cells[1:], 1):
        shift = moved_to(all_cells[0], cells)
        if shift is not None:
            where = "" if shift == (0, 0) else f", moved by {shift[0]},{shift[1]}"
            return lines + [f"generation {number} is generation 0 again{where}"]
    return lines + ["no later generation is generation 0 again"] * (len(generations) > 1)


# Drawing as an SVG.

SIZE = 16
STYLE = """<style>
.ground { fill: #ffffff; } .grid { stroke: #c8ccd0; stroke-width: 1; } .live { fill: #1f4e79; } .open { fill: #f3dfae; }
.mark { fill: none; stroke: #b03a2e; } text { font: 11px sans-serif; fill: #404448; text-anchor: middle; }
</style>"""


def escaped(text):
    return text.replace("&", "&amp;").replace("<", "&lt;").replace(">", "&gt;")


def colours_of(files):
    """Returns a colour for each name of some files, and one for its opposite, round the colour wheel."""
    words = (word.rstrip("'").removeprefix("-") for generations in files for rows in generations for row in rows for word in row)
    names = list(dict.fromkeys(word for word in words if word not in ("0", "1", "*")))
    colours = {}
    for number, name in enumerate(names):
        for word, light in ((name, 0.82), (f"-{name}", 0.6)):
            parts = colorsys.hls_to_rgb(number / len(names), light, 0.7)
            colours[word] = "#" + "".join(f"{round(255 * part):02x}" for part in parts)
    return colours


def cell_elements(word, x, y, colours):
    """Returns the elements of one cell whose top left corner is given."""
    plain, square = word.rstrip("'"), f'x="{x}" y="{y}" width="{SIZE}" height="{SIZE}"'
    elements = []
    if plain == "1":
        elements.append(f'<rect class="live" {square}/>')
    elif plain != "0":
        text, colour = "?" if plain == "*" else escaped(plain), f' style="fill:{colours[plain]}"' if plain in colours else ""
        # A longer name is written smaller, so that it stays in its cell.
        size = f' style="font-size:{28 // len(plain)}px"' if len(plain) > 2 else ""
        elements.append(f'<rect class="open" {square}{colour}/><text x="{x + SIZE / 2:g}" y="{y + 12}"{size}>{text}</text>')
    if word.endswith("'"):
        elements.append(f'<circle class="mark" cx="{x + SIZE / 2:g}" cy="{y + SIZE / 2:g}" r="{SIZE / 2 - 2:g}"/>')
    return elements


def generation_elements(rows, number, left, top, colours):
    """Returns the elements of a generation, with its number below the grid."""
    height, width = len(rows) * SIZE, len(rows[0]) * SIZE
    elements = [f'<rect class="ground" x="{left}" y="{top}" width="{width}" height="{height}"/>']
    for y, row in enumerate(rows):
        for x, word in enumerate(row):
            elements += cell_elements(word, left + x * SIZE, top + y * SIZE, colours)
    lines = [f"M{left} {top + y * SIZE}h{width}" for y in range(len(rows) + 1)]
    lines += [f"M{left + x * SIZE} {top}v{height}" for x in range(len(rows[0]) + 1)]
    elements.append(f'<path class="grid" d="{"".join(lines)}"/>')
    elements.append(f'<text x="{left + width / 2:g}" y="{top + height + 13}">{number}</text>')
    return elements


def document(width, height, elements):
    head = f'<svg xmlns="http://www.w3.org/2000/svg" width="{width}" height="{height}" viewBox="0 0 {width} {height}">'
    return "\n".join([head, STYLE, f'<rect class="ground" width="{width}" height="{height}"/>', *elements, "</svg>", ""])


def strips(files):
    """Returns an SVG with one strip a file, its generations side by side."""
    elements, top, right, colours = [], SIZE, 0, colours_of(files)
    for generations in files:
        step = (len(generations[0][0]) + 1) * SIZE
        for number, rows in enumerate(generations):
            elements += generation_elements(rows, number, SIZE + number * step, top, colours)
        right = max(right, SIZE + len(generations) * step)
        top += (len(generations[0]) + 2) * SIZE
    return document(right, top, elements)


def animation(files):
    """Returns an SVG that shows one generation after the other, the files side by side."""
    elements, left, bottom, colours = [], SIZE, 0, colours_of(files)
    for generations in files:
        # Where the last generation is the first one again, it would be seen twice in a row.
        is_closed = len(generations) > 1 and generations[-1] == generations[0]
        count = len(generations) - is_closed
        for number, rows in enumerate(generations[:count]):
            values = ";".join("visible" if number == shown else "hidden" for shown in range(count))
            shown = "visible" if number == 0 else "hidden"
            elements.append(f'<g visibility="{shown}">')
            elements.append(
                f'<animate attributeName="visibility" calcMode="discrete" values="{values}" '
                f'dur="{count / 2:g}s" repeatCount="indefinite"/>'
            )
            elements += generation_elements(rows, number, left, SIZE, colours) + ["</g>"]
        left += (len(generations[0][0]) + 1) * SIZE
        bottom = max(bottom, (len(generations[0]) + 3) * SIZE)
    return document(left, bottom, elements)


def phase_note(headline, generations):
    """Says of a line that tells the fewest or the most live cells of generation 0 which later generation has fewer or more, or returns None."""
    said = re.fullmatch(r"(least|at most|most|at least) ([0-9]+)", headline[0] if headline else "")
    if not said or not is_known(generations):
        return None
    word, number = said[1], int(said[2])
    counts = [len(live_cells(rows)) for rows in generations]
    best = (min if word in ("least", "at most") else max)(counts)
    if best == counts[0]:
        return None
    bound = f"0:-{best}" if best < number else f"0:{best}-"
    more = f"`--live {bound}` goes on" if word.startswith("at ") else "`tools/pose.py --fewest phase` asks for any phase"
    return f"generation {counts.index(best)} has {best}: where the file is the same in each generation, {more}"


def read_inputs(names):
    """Returns the texts of the named files, or that of the standard input."""
    if not names:
        return [sys.stdin.read()]
    texts = []
    for name in names:
        with open(name, encoding="utf-8", errors="replace") as file:
            texts.append(file.read())
        if "\0" in texts[-1]:
            raise BadInput(f"{name} is no text")
    return texts


def write(name, text):
    if name == "-":
        sys.stdout.write(text)
        return
    with open(name, "w", encoding="utf-8") as file:
        file.write(text)


def main():
    parser = argparse.ArgumentParser(description=__doc__, formatter_class=argparse.RawDescriptionHelpFormatter)
    parser.add_argument("files", metavar="FILE", nargs="*")
    parser.add_argument("--about", action="store_true")
    parser.add_argument("--svg", metavar="FILE")
    parser.add_argument("--animate", action="store_true")
    parser.add_argument("--width", metavar="COLUMNS", type=int)
    parser.add_argument("--status", action="store_true")
    words = parser.parse_args()
    if words.animate and not words.svg:
        parser.error("--animate goes with --svg FILE")
    if words.about and words.svg:
        parser.error("--about and --svg don't go together")
    sys.stdout.reconfigure(encoding="utf-8")
    try:
        texts = read_inputs(words.files)
        if len(texts) == 1 and texts[0].strip() in ANSWERS:
            print(texts[0].strip())
            return ANSWERS[texts[0].strip()] if words.status else 0
        headlines, texts = zip(*map(cut_headline, texts))
        is_open = any(line.startswith(("at most", "at least")) for headline in headlines for line in headline)
        status = 0 if not words.status else UNDECIDED if is_open else PATTERN
        files = [read_generations(text) for text in texts]
        if words.about:
            if not all(map(is_known, files)):
                raise BadInput("--about is for generations that are known; this one has unknown or tied cells")
            print("\n".join(line for headline, generations in zip(headlines, files) for line in headline + about(generations)))
            return status
        if words.svg:
            write(words.svg, animation(files) if words.animate else strips(files))
            return status
    except OSError as fault:
        sys.exit(f"show.py: {fault.filename}: {fault.strerror}")
    except BadInput as fault:
        sys.exit(f"show.py: {fault}")
    columns = words.width or shutil.get_terminal_size().columns
    for headline, generations in zip(headlines, files):
        print("\n".join(headline + drawn(generations, columns)))
        note = phase_note(headline, generations)
        if note:
            print(f"show.py: note: {note}", file=sys.stderr)
    return status


if __name__ == "__main__":
    ending.run(main, __doc__)
