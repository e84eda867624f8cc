#!/usr/bin/env python3
"""Draws the crates of crates.txt as a picture: each stands above those that it uses.

    crates.py [FILE]

Writes SVG to FILE, or to the standard output. A line goes from a crate to each one that it uses, unless that is below another one that it uses. Crates of tests are left out.
"""
import re

import ending

WIDTH, HEIGHT, ACROSS, DOWN = 118, 26, 14, 40


def uses_in(text):
    """Returns the crates of crates.txt, each with those of them that it uses."""
    lines = re.findall(r"^(\w+)[^#:\n]*:([^#\n]*)", text, re.M)
    names = {name for name, _ in lines}
    return {name: [it for it in uses.split() if it in names] for name, uses in lines if not name.endswith("_tests")}


def below(uses, crate):
    return {it for one in uses[crate] for it in (one, *below(uses, one))}


def direct(uses, crate):
    """Returns the crates that a crate uses and that stand below no other one that it uses."""
    return [it for it in uses[crate] if not any(it in below(uses, other) for other in uses[crate])]


def heights(uses):
    """Returns how many crates stand below each in the longest chain."""
    found = {}
    for crate in uses:
        found[crate] = 1 + max((found[it] for it in uses[crate]), default=-1)
    return found


def placed(uses):
    """Returns the middle of each crate's box: a row for each height, in it by the middle of what it uses."""
    height, across = heights(uses), {}
    rows = [[crate for crate in uses if height[crate] == level] for level in range(max(height.values()) + 1)]
    widest = max(map(len, rows))
    for row in rows:
        wish = {crate: sum(across[it] for it in direct(uses, crate)) / max(1, len(direct(uses, crate))) for crate in row}
        for place, crate in enumerate(sorted(row, key=lambda crate: (wish[crate], crate))):
            across[crate] = place + (widest - len(row)) / 2
    size = (widest * (WIDTH + ACROSS) + ACROSS, len(rows) * (HEIGHT + DOWN) + ACROSS)
    middle = lambda crate: (ACROSS + WIDTH / 2 + across[crate] * (WIDTH + ACROSS), size[1] - ACROSS - HEIGHT / 2 - height[crate] * (HEIGHT + DOWN))
    return {crate: middle(crate) for crate in uses}, size


def drawn(uses):
    places, (width, height) = placed(uses)
    lines = [f'<line x1="{places[crate][0]:g}" y1="{places[crate][1] + HEIGHT / 2:g}" x2="{places[it][0]:g}" y2="{places[it][1] - HEIGHT / 2:g}"/>' for crate in uses for it in direct(uses, crate)]
    boxes = [f'<rect x="{x - WIDTH / 2:g}" y="{y - HEIGHT / 2:g}" width="{WIDTH}" height="{HEIGHT}" rx="4"/><text x="{x:g}" y="{y + 4:g}">{crate}</text>' for crate, (x, y) in places.items()]
    style = "line{stroke:#888}rect{fill:#fff;stroke:#333}text{font:12px sans-serif;text-anchor:middle;fill:#111}"
    return "\n".join([f'<svg xmlns="http://www.w3.org/2000/svg" viewBox="0 0 {width:g} {height:g}" width="{width:g}" height="{height:g}">', "<title>The crates, each above those that it uses</title>",
                      f"<style>{style}</style>", f'<rect width="{width:g}" height="{height:g}" style="stroke:none"/>', *lines, *boxes, "</svg>", ""])


def main():
    names = ending.words(__doc__, "FILE..")
    with open("crates.txt", encoding="utf-8") as file:
        picture = drawn(uses_in(file.read()))
    if names:
        with open(names[0], "w", encoding="utf-8") as out:
            out.write(picture)
    else:
        print(picture, end="")


if __name__ == "__main__":
    ending.run(main, __doc__)
