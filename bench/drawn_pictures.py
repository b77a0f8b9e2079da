"""Reads the pictures of `treedraw` back, in DOT and in SVG.

A picture is read as the tree of drawn_shape.py, and as its paint: the same form with True for each slot or separator in a colour of its own.
"""
import re
from collections import defaultdict
from typing import NamedTuple
from xml.etree import ElementTree

from drawn_shape import SPENT, UNUSED

HEADS = ("digraph tree {", "  graph [", "  node [", "  edge [", "}")
NODE = re.compile(r"  node(\d+) \[label=<<table [^>]*><tr>(.*)</tr></table>>\];")
CHILD = re.compile(r'<td port="c(\d+)"( bgcolor="[^"]*")?>(\d+|\+)</td>')
LEAF = re.compile(r"  leaf(\d+) \[label=<<table [^>]*>(.*)</table>>\];")
SLOT = re.compile(r'<tr><td( bgcolor="(?:#aceebb|#ffcecb)")?(?: bgcolor="#d1d9e0")?>(\d+|///| )</td></tr>')
EDGE = re.compile(r"  node(\d+):c(\d+) -> ((?:leaf|node)\d+);")
LINK = re.compile(r"  leaf(\d+) -> leaf(\d+) \[.*\];")
LEVEL = re.compile(r"<tr><td>(\d+)</td><td>(\d+)</td><td>(\d+)</td><td>(\d+)</td><td>(\d+)</td>")
WORDS = re.compile(r"level (\d+): (\d+) arrays, (\d+) keys, (\d+) spent of (\d+) slots")
RETIRED = "<td>retired</td>"
SVG = "{http://www.w3.org/2000/svg}"
END = {"dot": r"(?<=^}\n)", "svg": r"(?<=^</svg>\n)"}
# How a cell of SVG without a text is read, by its class.
EMPTY = {"free": UNUSED, "spent": SPENT, "gone": SPENT}
PAINTED = ("new", "gone")


class Malformed(Exception):
    """A picture that isn't one of a tree."""


def number_of(text):
    return int(text) if text.isdecimal() else text


def node_of(cells, child_of):
    """A node of cells, each with its text and whether it is painted, and of the part under each, with its paint."""
    texts = [text for text, _ in cells]
    if texts[-1:] != ["+"] * bool(texts) or "+" in texts[:-1]:
        raise Malformed(f"the cells {texts}")
    parts = [child_of(place) for place in range(len(cells))]
    tree = ("node", tuple(map(number_of, texts[:-1])), tuple(it[0] for it in parts))
    return tree, ("node", tuple(painted for _, painted in cells[:-1]), tuple(it[1] for it in parts))


def leaf_of(cells):
    """A leaf of slots, each with its text and whether it is painted."""
    return ("leaf", tuple(number_of(text) for text, _ in cells)), ("leaf", tuple(painted for _, painted in cells))


def rows_of(text):
    """The rows of a picture in DOT: cells of nodes, slots of leaves, edges and links."""
    cells, slots, edges, links = {}, {}, {}, []
    for line in text.splitlines():
        if match := NODE.fullmatch(line):
            cells[match[1]] = [] if match[2] == RETIRED else [(it[2], bool(it[1])) for it in CHILD.findall(match[2])]
        elif match := LEAF.fullmatch(line):
            slots[match[1]] = [(it[1], bool(it[0])) for it in SLOT.findall(match[2])]
        elif match := EDGE.fullmatch(line):
            edges[match[1], int(match[2])] = match[3]
        elif match := LINK.fullmatch(line):
            links.append((int(match[1]), int(match[2])))
        elif not line.startswith(HEADS):
            raise Malformed(f"the line {line!r}")
    return cells, slots, edges, links


def read_dot(text):
    """The tree of a picture in DOT, and its paint."""
    cells, slots, edges, links = rows_of(text)
    met = []

    def part(name):
        number = name[4:]
        if name.startswith("leaf"):
            met.append(int(number))
            return leaf_of(slots[number])
        return node_of(cells[number], lambda place: part(edges.pop((number, place))))

    tree = part(f"node{max(map(int, cells))}") if cells else (None, None)
    if met != list(range(len(slots))) or edges or links != [(it, it + 1) for it in range(len(slots) - 1)]:
        raise Malformed("a leaf, an edge or a link too many or too few")
    return tree


class Cell(NamedTuple):
    """A cell of a picture in SVG."""

    x: int
    y: int
    width: int
    height: int
    kind: str
    text: str

    def read(self):
        return self.text or EMPTY[self.kind], self.kind in PAINTED


def cells_of(top):
    """The cells of a picture in SVG, and the four numbers of each of its paths, by its class."""
    cells, paths = [], defaultdict(list)
    for it in top:
        if it.tag == f"{SVG}rect":
            cells.append(Cell(*(int(it.get(name)) for name in ("x", "y", "width", "height")), it.get("class"), ""))
        elif it.tag == f"{SVG}text" and it.get("class") is None:
            cells[-1] = cells[-1]._replace(text=it.text)
        elif it.tag == f"{SVG}path":
            paths[it.get("class")].append(tuple(map(int, re.findall(r"\d+", it.get("d")))))
    return cells, paths


def check_room(top, cells):
    """Each cell is within its picture, and covers no other."""
    width, height = int(top.get("width")), int(top.get("height"))
    for it in cells:
        if it.x + it.width > width or it.y + it.height > height:
            raise Malformed(f"a cell outside at {it.x}, {it.y}")
    cells = sorted(cells)
    for at, one in enumerate(cells):
        for other in cells[at + 1 :]:
            if other.x >= one.x + one.width:
                break
            if other.y < one.y + one.height and one.y < other.y + other.height:
                raise Malformed(f"two cells at {other.x}, {other.y}")


def grouped(cells, slots):
    """The rows of nodes and the columns of leaves, each by the middle of its upper edge. Leaves have the last so many rows."""
    heights = sorted({it.y for it in cells})
    lowest = set(heights[-slots:]) if len(heights) > slots else set()
    rows, columns = [], defaultdict(list)
    for cell in sorted(cells, key=lambda it: (it.y, it.x)):
        if cell.y in lowest:
            columns[cell.x].append(cell)
        elif rows and rows[-1][-1].y == cell.y and rows[-1][-1].x + cell.width == cell.x:
            rows[-1].append(cell)
        else:
            rows.append([cell])
    nodes = {(it[0].x + len(it) * it[0].width // 2, it[0].y): it for it in rows}
    return nodes, {(it[0].x + it[0].width // 2, it[0].y): it for it in columns.values()}


def read_svg(text, slots):
    """The tree of a picture in SVG, whose leaves have so many slots, and its paint."""
    top = ElementTree.fromstring(text)
    cells, paths = cells_of(top)
    check_room(top, cells)
    nodes, leaves = grouped(cells, slots)
    edges = {(x, y): (to, below) for x, y, to, below in paths["edge"]}
    met = []

    def part(place):
        if place in leaves:
            met.append(place)
            return leaf_of([it.read() for it in leaves[place]])
        row = nodes.pop(place)
        if [it.kind for it in row] == ["spent"]:
            return node_of([], None)
        ends = [(it.x + it.width // 2, it.y + it.height) for it in row]
        return node_of([it.read() for it in row], lambda at: part(edges.pop(ends[at])))

    tree = part(min(nodes, key=lambda it: it[1])) if nodes else (None, None)
    columns = [leaves[it] for it in met]
    links = [(a[0].x + a[0].width, a[0].y + a[0].height // 2, b[0].x) for a, b in zip(columns, columns[1:])]
    if met != sorted(leaves) or nodes or edges or links != sorted(paths["link"] + paths["joined"]):
        raise Malformed("a leaf, a node, an edge or a link too many or too few")
    return tree


def levels_of_dot(text):
    """The numbers of each level of a large tree in DOT, the root first."""
    return [tuple(map(int, it)) for it in LEVEL.findall(text)]


def levels_of_svg(text):
    """The numbers of each level of a large tree in SVG, the root first."""
    return [tuple(map(int, it)) for it in WORDS.findall(text)]


def flaw_of(read, expected):
    """What is wrong with a picture, which a call reads, or nothing."""
    tree, paint = expected
    try:
        found, painted = read()
    except (KeyError, IndexError, Malformed, ElementTree.ParseError) as flaw:
        return f"isn't a tree: {flaw!r}"
    if found != tree:
        return f"shows {found}, expected {tree}"
    return f"paints {painted}, expected {paint}" if paint is not False and painted != paint else ""


def flaw_of_dot(text, expected):
    return flaw_of(lambda: read_dot(text), expected)


def flaw_of_svg(text, expected, slots):
    return flaw_of(lambda: read_svg(text, slots), expected)


def without_a_slot(text):
    """A picture without one of its unused slots."""
    return re.sub(r'<tr><td> </td></tr>|<rect [^>]*class="free"/>\n', "", text, count=1)


def pictures_of(text, language):
    """The pictures of a text, one behind the other."""
    return re.split(END[language], text, flags=re.M)[:-1]
