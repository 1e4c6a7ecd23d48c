#!/usr/bin/env python3
"""Draws the pictures of docs/pictures that are SVG, from tools/pictures.json.

python3 tools/pictures.py            draws them anew
python3 tools/pictures.py --check    says whether they are what this draws; the status is 1 if not

A picture has a size, a title, and items in their order:

["box", KIND, X, Y, WIDTH, HEIGHT, LINE..]    a box; its first line is bold
["text", KIND, X, Y, LINE..]                  lines that begin at X; those of kind "middle" stand around X
["path", KIND, LABEL, X1, Y1, X2, Y2, ..]     straight lines with an arrow's head; the label stands at the first
["shape", KIND, X1, Y1, X2, Y2, ..]           a closed shape

Words between backticks are names. Each has to be a crate, a function or a type of some src/, or a page or a
definition of some specs/.
"""
import json
import pathlib
import re
import sys
from xml.sax.saxutils import escape

from definitions import crates, read_pages
from rules import contracts

TOP = pathlib.Path(__file__).resolve().parent.parent
DATA = TOP / "tools" / "pictures.json"
FOLDER = TOP / "docs" / "pictures"
LINE = 18
NAME = re.compile(r"`([^`]+)`")
TYPE = re.compile(r"^pub (?:struct|enum|trait) (\w+)", re.M)

LIGHT = {"ground": "#ffffff", "ink": "#1f2328", "soft": "#59636e", "plain": "#f6f8fa", "blue": "#ddf4ff", "green": "#dafbe1",
         "orange": "#fff1e5", "edge": "#6e7781"}
DARK = {"ground": "#0d1117", "ink": "#e6edf3", "soft": "#9aa4af", "plain": "#161b22", "blue": "#12304f", "green": "#143a22",
        "orange": "#46290f", "edge": "#8b949e"}
FILLS = ("plain", "blue", "green", "orange")


def colours(theme):
    """Returns the style of a theme."""
    fills = "".join(f".{kind}{{fill:{theme[kind]};stroke:{theme['edge']}}}" for kind in FILLS)
    return (f".ground{{fill:{theme['ground']}}}text{{fill:{theme['ink']}}}.soft{{fill:{theme['soft']}}}{fills}"
            f".line,.dashed{{stroke:{theme['edge']};fill:none}}.head{{fill:{theme['edge']}}}")


STYLE = (
    "text{font:13px Helvetica,Arial,sans-serif}.bold{font-weight:bold}.name{font-family:Consolas,Menlo,monospace;font-size:12px}"
    ".middle{text-anchor:middle}.line,.dashed{stroke-width:1.5}.dashed,.gone{stroke-dasharray:5 4}.gone{fill:none}"
    + colours(LIGHT) + "@media (prefers-color-scheme:dark){" + colours(DARK) + "}"
)


def line_of(text, x, y, kinds):
    """Returns a line of text, whose names stand in another font."""
    parts = NAME.split(text)
    spans = [f'<tspan class="name">{escape(part)}</tspan>' if at % 2 else escape(part) for at, part in enumerate(parts)]
    return f'<text x="{x}" y="{y}" class="{kinds}">{"".join(spans)}</text>'


def text_of(kind, x, y, *lines):
    return [line_of(line, x, y + at * LINE, kind) for at, line in enumerate(lines)]


def box_of(kind, x, y, width, height, *lines):
    drawn = [f'<rect x="{x}" y="{y}" width="{width}" height="{height}" rx="5" class="{kind}"/>']
    return drawn + [line_of(line, x + 10, y + 20 + at * LINE, "soft" if at else "bold") for at, line in enumerate(lines)]


def path_of(kind, label, *at):
    points = " ".join(f"{x},{y}" for x, y in zip(at[::2], at[1::2]))
    drawn = [f'<polyline points="{points}" class="{kind}" marker-end="url(#head)"/>']
    x, y = (at[0] + at[2]) / 2, (at[1] + at[3]) / 2
    upright = at[0] == at[2]
    lines = label.split("|") if label else []
    top = y + 4 - LINE * (len(lines) - 1) / 2 if upright else y - 6 - LINE * (len(lines) - 1)
    return drawn + text_of("soft" if upright else "soft middle", x + 8 if upright else x, top, *lines)


def shape_of(kind, *at):
    points = " ".join(f"{x},{y}" for x, y in zip(at[::2], at[1::2]))
    return [f'<polygon points="{points}" class="{kind}"/>']


ITEMS = {"box": box_of, "text": text_of, "path": path_of, "shape": shape_of}


def drawn(picture):
    """Returns the SVG of a picture."""
    width, height = picture["size"]
    lines = [
        f'<svg xmlns="http://www.w3.org/2000/svg" width="{width}" height="{height}" viewBox="0 0 {width} {height}" role="img">',
        f"<title>{escape(picture['title'])}</title>",
        f"<style>{STYLE}</style>",
        '<defs><marker id="head" viewBox="0 0 8 8" refX="7" refY="4" markerWidth="8" markerHeight="8" orient="auto">'
        '<path d="M0 0L8 4L0 8z" class="head"/></marker></defs>',
        f'<rect width="{width}" height="{height}" rx="8" class="ground"/>',
    ]
    for what, *rest in picture["items"]:
        lines += ITEMS[what](*rest)
    return "\n".join([*lines, "</svg>"]) + "\n"


def unknown_names(pictures):
    """Returns the names of the pictures that the repository does not have."""
    pages = read_pages()
    known = {*crates(), *(page for _, page in pages)}
    known.update(name for page in pages.values() for name in page.owners)
    known.update(name for each in contracts() for name in (each.name, each.name.partition("::")[2]))
    for file in (TOP / "crates").glob("*/src/**/*.rt"):
        known.update(TYPE.findall(file.read_text(encoding="utf-8")))
    return sorted({name for name in NAME.findall(json.dumps(pictures)) if name not in known})


def main():
    pictures = json.loads(DATA.read_text(encoding="utf-8"))
    if unknown := unknown_names(pictures):
        sys.exit(f"tools/pictures.json has names that are nowhere: {', '.join(unknown)}")
    if sys.argv[1:] not in ([], ["--check"]):
        sys.exit(__doc__)
    FOLDER.mkdir(exist_ok=True)
    for name, picture in pictures.items():
        file = FOLDER / f"{name}.svg"
        if not sys.argv[1:]:
            file.write_text(drawn(picture), encoding="utf-8")
        elif not file.exists() or file.read_text(encoding="utf-8") != drawn(picture):
            sys.exit(f"docs/pictures/{name}.svg is not what tools/pictures.py draws: run it")
    if extra := {file.stem for file in FOLDER.glob("*.svg")} - set(pictures):
        sys.exit(f"docs/pictures has pictures that tools/pictures.json lacks: {', '.join(sorted(extra))}")


if __name__ == "__main__":
    main()
