"""The drawing of a structure, as one SVG element.

Each class is a box with its members, their links and its facts. An application is an edge with
the function's name on it, or a small node where it is applied to several elements or to none.

Boxes stand in columns: what a thing belongs to, and what a function is applied to, stands left of
it. Names on edges have columns of their own, and an edge crosses a column only at a place that is
kept free for it, so that no edge runs through a box or a name.

`draw` takes a structure with the attributes `links`, `marks`, `members` (the elements of each root,
the root first), `facts` (those of each root: type and parents), `func_apps` (function, parents,
arguments, result), `pred_apps` (predicate, parents, arguments) and the method `root`; a naming
with the methods `element`, `function`, `predicate` and `fact`; and the two facts of each root that
has a conflict.
"""

import math
import unicodedata
from html import escape

# A structure with more is large: of it only the classes with conflicts are drawn. More edges than
# that cannot be told apart.
MOST_ELEMENTS = 40
MOST_EDGES = 120
# What a box shows at most; the tables of the page have the rest.
MOST_FACTS = 8
MOST_MEMBERS = 12  # in a large structure

TEXT, SMALL = 13, 12  # sizes of text
LONGEST = 260  # width of a name or of a fact, before it is cut
PAD = 10
PILL = 24  # height of a member
ROW, CLASH_ROW = 19, 24  # height of a fact, and of one of a conflict
BELOW, BESIDE = 14, 6  # between a member and those that link to it, and between these
INDENT = 22
SLOT = 11  # between the ends of edges at one side of a box
APART = {"bend": 9, "label": 10, "class": 14, "apply": 14}  # between things in a column
CLASSES_APART = 20
SHELF = 1000  # wished width of the drawing
GAP = 34  # between parts of the drawing
HIGHEST = 1200  # wished height of a column

# Widths of the characters from the space on in hundredths of the size, the larger of those in two
# common fonts, so that a text has room in other fonts too.
WIDTHS = [int(width) for width in """
    32 40 46 84 64 95 78 27 39 39 50 84 32 36 32 34 64 64 64 64 64 64 64 64 64 64 34 34 84 84 84 56
    102 68 69 72 77 67 61 78 75 29 50 67 56 86 75 79 67 79 72 67 61 73 68 99 69 67 69 39 34 39 84 56
    50 61 63 55 63 62 35 63 63 28 28 58 28 97 63 61 63 63 41 52 39 63 59 82 59 59 52 64 34 64 84
    """.split()]
BOLD = 1.12

STYLE = """
.drawing { display: block; font-size: 13px; }
.drawing text { fill: var(--text); }
.drawing .box { fill: var(--box); stroke: var(--edge); stroke-width: 1.3; }
.drawing .rule { stroke: var(--edge); stroke-width: 1; opacity: .55; }
.drawing .pill { fill: var(--page); stroke: var(--soft); stroke-width: 1.2; }
.drawing .root > .pill { fill: var(--root); stroke: var(--text); stroke-width: 1.8; }
.drawing .root > text { font-weight: bold; }
.drawing .marked > .pill { stroke-dasharray: 5 3; }
.drawing .more { font-size: 12px; font-style: italic; fill: var(--soft); }
.drawing .conflict > .box { fill: var(--bad-soft); stroke: var(--bad); stroke-width: 3.5; }
.drawing .clash-row { fill: var(--page); stroke: var(--bad); stroke-width: 1; }
.drawing .clash-text { font-weight: bold; }
.drawing .sign { fill: var(--bad); }
.drawing .sign-mark { fill: none; stroke: var(--page); stroke-width: 1.7; stroke-linecap: round; }
.drawing .sign-text { font-size: 12px; font-weight: bold; fill: var(--bad); }
.drawing path.link, .drawing path.fact, .drawing path.apply { fill: none; }
.drawing path.link { stroke: var(--text); stroke-width: 1.4; }
.drawing path.fact { stroke: var(--soft); stroke-width: 1.2; stroke-dasharray: 5 4; }
.drawing path.fact.clash { stroke: var(--bad); stroke-width: 2.4; stroke-dasharray: 8 4; }
.drawing path.apply { stroke: var(--apply); stroke-width: 1.6; }
.drawing .label text { font-size: 12px; font-style: italic; fill: var(--apply); }
.drawing .node { fill: var(--apply-soft); stroke: var(--apply); stroke-width: 1.4; }
.drawing .number { font-size: 12px; }
.drawing .node-name { font-size: 12px; font-style: italic; font-weight: bold; }
.drawing .tip-link { fill: var(--text); }
.drawing .tip-apply { fill: var(--apply); }
.drawing .tip-fact { fill: none; stroke: var(--soft); stroke-width: 1.4; }
.drawing .tip-clash { fill: var(--bad); }
.drawing .legend text { font-size: 12px; }
"""

DEFS = """<defs>
<marker id="tip-link" viewBox="0 0 8 8" refX="7.5" refY="4" markerWidth="8" markerHeight="8"
 markerUnits="userSpaceOnUse" orient="auto"><path class="tip-link" d="M0 0L8 4L0 8z"/></marker>
<marker id="tip-apply" viewBox="0 0 10 10" refX="9.5" refY="5" markerWidth="10" markerHeight="10"
 markerUnits="userSpaceOnUse" orient="auto"><path class="tip-apply" d="M0 1L10 5L0 9z"/></marker>
<marker id="tip-fact" viewBox="0 0 10 10" refX="9" refY="5" markerWidth="10" markerHeight="10"
 markerUnits="userSpaceOnUse" orient="auto"><path class="tip-fact" d="M2 1L9 5L2 9"/></marker>
<marker id="tip-clash" viewBox="0 0 12 12" refX="11" refY="6" markerWidth="12" markerHeight="12"
 markerUnits="userSpaceOnUse" orient="auto"><path class="tip-clash" d="M0 1L12 6L0 11z"/></marker>
</defs>"""


def is_large(structure):
    edges = sum(len(parents) for facts in structure.facts.values() for _, parents in facts)
    edges += sum(len(parents + arguments) + 1 for _, parents, arguments, _ in structure.func_apps)
    edges += sum(len(parents + arguments) for _, parents, arguments in structure.pred_apps)
    return len(structure.links) > MOST_ELEMENTS or edges > MOST_EDGES


def draw(structure, naming, conflicts, title, desc):
    """The SVG of a structure, or None where there is nothing to draw. `title` and `desc` say what
    it shows."""
    if is_large(structure):
        boxes = [ClassBox(structure, naming, root, conflicts[root], MOST_MEMBERS)
                 for root in structure.members if root in conflicts]
        widest = max((box.width for box in boxes), default=0)
        for box in boxes:
            box.width = widest
        parts = [Part([box], []) for box in boxes]
    else:
        parts = parts_of(*graph(structure, naming, conflicts))
    if not parts:
        return None
    width = shelve(parts)
    shapes = [shape for part in parts for shape in part.svg()]
    items = legend_items(parts, is_large(structure))
    legend, height = legend_svg(items, width, max(part.bottom for part in parts) + GAP)
    return "\n".join([
        f'<svg xmlns="http://www.w3.org/2000/svg" class="drawing" role="img"'
        f' aria-labelledby="drawing-title drawing-desc" width="{width}" height="{height}"'
        f' viewBox="0 0 {width} {height}">',
        f'<title id="drawing-title">{escape(title)}</title>',
        f'<desc id="drawing-desc">{escape(desc)}</desc>',
        DEFS, *shapes, *legend, "</svg>"])


# Text.


def text_width(text, size=TEXT, is_bold=False):
    """About how wide a text is, rather too wide than too narrow."""
    width = 0
    for char in text:
        if " " <= char <= "~":
            width += WIDTHS[ord(char) - 32]
        elif unicodedata.combining(char) == 0:
            width += 102 if unicodedata.east_asian_width(char) in "WF" else 80
    return width * size / 100 * (BOLD if is_bold else 1)


def cut(text, most=LONGEST, size=TEXT, is_bold=False):
    """A text, or as much of it as has room."""
    if text_width(text, size, is_bold) <= most:
        return text
    while text and text_width(text + "…", size, is_bold) > most:
        text = text[:-1]
    return text + "…"


def text_at(x, y, text, css="", anchor="", whole=""):
    """A text. Where it was cut, `whole` is what it was before."""
    given = (f' class="{css}"' if css else "") + (f' text-anchor="{anchor}"' if anchor else "")
    title = f"<title>{escape(whole)}</title>" if whole not in ("", text) else ""
    return f'<text x="{number(x)}" y="{number(y)}"{given}>{escape(text)}{title}</text>'


def number(value):
    return f"{value:.1f}".removesuffix(".0")


# Nodes: boxes, names on edges, and places that are kept free for an edge.


class Node:
    """A place that is kept free for an edge, and what all nodes have."""

    kind = "bend"

    def __init__(self, width=0, height=0):
        self.width, self.height = width, height
        self.x = self.y = self.rank = 0

    def offset(self, port):
        """How far below the top an edge ends."""
        return self.height / 2

    def svg(self):
        return []


class Label(Node):
    """The names of the functions that give one element for another, on their edge."""

    kind = "label"

    def __init__(self, names, title):
        self.lines = []
        for name in names:
            name = cut(name, size=SMALL)
            joined = f"{self.lines[-1]}, {name}" if self.lines else name
            if self.lines and text_width(joined, SMALL) <= 110:
                self.lines[-1] = joined
            else:
                self.lines.append(name)
        self.title = title
        width = max(text_width(line, SMALL) for line in self.lines)
        super().__init__(width + 8, 16 * len(self.lines))

    def svg(self):
        lines = [text_at(self.x + self.width / 2, self.y + 12 + 16 * row, line, anchor="middle")
                 for row, line in enumerate(self.lines)]
        return [f'<g class="label"><title>{escape(self.title)}</title>', *lines, "</g>"]


class ApplyNode(Node):
    """An application to several elements or to none; the numbers in it say their order."""

    kind = "apply"

    def __init__(self, name, inputs, title):
        self.name = cut(name, size=SMALL, is_bold=True)
        self.inputs = inputs
        self.title = title
        numbers = 16 if inputs > 1 else 0
        super().__init__(text_width(self.name, SMALL, True) + 24 + numbers,
                         max(PILL + 2, 16 * inputs + 6))

    def offset(self, port):
        if port is None:
            return self.height / 2
        return self.height / 2 + 16 * (port - (self.inputs - 1) / 2)

    def svg(self):
        numbers = self.inputs if self.inputs > 1 else 0
        middle = self.x + self.width / 2 + (8 if numbers else 0)
        return [f'<g class="application"><title>{escape(self.title)}</title>',
                f'<rect class="node" x="{number(self.x)}" y="{number(self.y)}"'
                f' width="{number(self.width)}" height="{number(self.height)}" rx="13"/>',
                *(text_at(self.x + 8, self.y + self.offset(row) + 4, str(row + 1), "number")
                  for row in range(numbers)),
                text_at(middle, self.y + self.height / 2 + 4, self.name, "node-name", "middle"),
                "</g>"]


class ClassBox(Node):
    """A class: its members with their links, and its facts."""

    kind = "class"

    def __init__(self, structure, naming, root, conflict, most_members=None, holding=()):
        self.root = root
        self.conflict = conflict
        self.members = structure.members[root]
        self.naming = naming
        self.pills = {}  # element: (x, y, width, text), from the corner of the box
        self.links = []  # (element, what it links to, path)
        self.marks = {el for el in self.members if structure.marks[el]}
        shown = self.place_members(structure, most_members or len(self.members))
        width = max(x + pill for x, _, pill, _ in self.pills.values())
        bottom = max(y for _, y, _, _ in self.pills.values()) + PILL
        if conflict:
            x, _, pill, _ = self.pills[root]
            width = max(width, x + pill + 14 + 20 + text_width("conflict", SMALL, True))
        self.notes = []  # (y, text) of what is not a fact or not shown
        if shown < len(self.members):
            self.notes.append((bottom + 16, f"and {len(self.members) - shown} more names"))
            bottom += ROW
        width = max([width, *(PAD + text_width(text, SMALL) for _, text in self.notes)])
        self.rule = bottom + 8
        self.facts = []  # (fact with roots as parents, text, y, whether it is one of the conflict)
        below = self.place_facts(structure, holding, MOST_FACTS if most_members is None else 2)
        for _, text, _, is_clash in self.facts:
            width = max(width, PAD + 25 * is_clash + text_width(text, TEXT, is_clash))
        for _, text in self.notes:
            width = max(width, PAD + text_width(text, SMALL))
        height = below + 6 if below > self.rule + 5 else bottom + 9
        super().__init__(width + PAD, height)

    def place_members(self, structure, most):
        """Members under what they link to. Answers how many are placed."""
        linking = {}
        for el in self.members:
            if el != self.root:
                linking.setdefault(structure.links[el], []).append(el)
        y, last = 9, None
        waiting = [(self.root, PAD, None)]
        while waiting and len(self.pills) < most:
            el, x, after = waiting.pop()
            text = cut(self.naming.element(el), is_bold=el == self.root)
            if after is not None:
                y += PILL + (BELOW if last == after else BESIDE)
            width = max(40, text_width(text, TEXT, el == self.root) + 18)
            self.pills[el] = x, y, width, text
            if after is not None:
                px, py, _, _ = self.pills[after]
                end = py + PILL
                if x == px:  # the only one, straight below
                    path = f"M{number(x + 16)} {y}V{end}"
                else:
                    path = f"M{number(x)} {number(y + PILL / 2)}H{number(px + 11)}V{end}"
                self.links.append((el, after, path))
            last = el
            under = linking.get(el, [])
            inward = x if len(under) == 1 else x + INDENT
            waiting += [(child, inward, el) for child in reversed(under)]
        return len(self.pills)

    def place_facts(self, structure, holding, most):
        """The facts, those of a conflict first, then what holds of the class alone. Answers where
        they end."""
        facts = structure.facts.get(self.root, [])
        as_roots = [(typ, tuple(map(structure.root, parents))) for typ, parents in facts]
        clashing = [place for place, fact in enumerate(as_roots) if fact in (self.conflict or ())]
        others = [place for place in range(len(facts)) if place not in clashing]
        y = self.rule + 5
        for place in (clashing + others)[:most]:
            is_clash = place in clashing
            text = cut(self.naming.fact(*facts[place]), is_bold=is_clash)
            self.facts.append((as_roots[place], text, y, is_clash))
            y += CLASH_ROW if is_clash else ROW
        if len(facts) > most:
            more = len(facts) - most
            self.notes.append((y + 14, f"and {more} more {'fact' if more == 1 else 'facts'}"))
            y += ROW
        for text in holding[:MOST_FACTS]:
            self.notes.append((y + 14, cut(text, size=SMALL)))
            y += ROW
        if len(holding) > MOST_FACTS:
            self.notes.append((y + 14, f"and {len(holding) - MOST_FACTS} more that hold"))
            y += ROW
        return y

    def offset(self, port):
        sort, which = port
        if sort == "fact":
            _, _, y, is_clash = self.facts[which]
            return y + (CLASH_ROW if is_clash else ROW) / 2
        return self.pills[self.root if sort == "facts" else which][1] + PILL / 2

    def svg(self):
        names = ", ".join(map(self.naming.element, self.members))
        css = "class conflict" if self.conflict else "class"
        said = f"{names} (conflict)" if self.conflict else names
        shapes = [f'<g class="{css}" data-root="{self.root}"><title>{escape(said)}</title>',
                  f'<rect class="box" x="{number(self.x)}" y="{number(self.y)}"'
                  f' width="{number(self.width)}" height="{number(self.height)}" rx="9"/>',
                  f'<g transform="translate({number(self.x)} {number(self.y)})">']
        if self.facts or any(y > self.rule for y, _ in self.notes):
            shapes.append(f'<path class="rule" d="M0 {self.rule}H{number(self.width)}"/>')
        for el, to, path in self.links:
            shapes.append(f'<path class="link" data-from="{el}" data-to="{to}" d="{path}"'
                          f' marker-end="url(#tip-link)"/>')
        for el, (x, y, width, text) in self.pills.items():
            shapes += self.member(el, x, y, width, text)
        if self.conflict:
            right = self.width - PAD - text_width("conflict", SMALL, True)
            shapes.append(sign(right - 20, 13))
            shapes.append(text_at(right, 26, "conflict", "sign-text"))
        for fact, text, y, is_clash in self.facts:
            if is_clash:
                shapes.append(f'<rect class="clash-row" x="6" y="{y + 1}" rx="4"'
                              f' width="{number(self.width - 12)}" height="{CLASH_ROW - 3}"/>')
                shapes.append(sign(PAD + 1, y + 5, 13))
            css = "fact-text clash-text" if is_clash else "fact-text"
            shapes.append(text_at(PAD + 21 * is_clash, y + 14 + 2.5 * is_clash, text, css,
                                  whole=self.naming.fact(*fact)))
        shapes += [text_at(PAD, y, text, "more") for y, text in self.notes]
        return [*shapes, "</g></g>"]

    def member(self, el, x, y, width, text):
        css = "member" + (" root" if el == self.root else "") + \
            (" marked" if el in self.marks else "")
        said = self.naming.element(el) + (" (root)" if el == self.root else "") + \
            (" (marked)" if el in self.marks else "")
        return [f'<g class="{css}" data-element="{el}"><title>{escape(said)}</title>',
                f'<rect class="pill" x="{number(x)}" y="{y}" width="{number(width)}"'
                f' height="{PILL}" rx="12"/>',
                text_at(x + width / 2, y + 16.5, text, anchor="middle"), "</g>"]


def sign(x, y, size=15):
    """A warning sign."""
    top, stroke = number(x + size / 2), number(size * 0.2)
    return (f'<path class="sign" d="M{top} {number(y)}l{number(size / 2)} {number(size * 0.9)}'
            f'h{number(-size)}z"/><path class="sign-mark"'
            f' d="M{top} {number(y + size * 0.36)}v{stroke}m0 {stroke}v.1"/>')


# The graph.


class Edge:
    """An edge from a node to a node, and where it ends at each."""

    def __init__(self, tail, tail_port, head, head_port, css, tip="", title="", data=""):
        self.tail, self.head = tail, head
        self.ports = {tail: tail_port, head: head_port}
        self.css, self.tip, self.title, self.data = css, tip, title, data
        self.chain = []  # the nodes from left to right, with those kept free for it

    def ends(self):
        """The left and the right node."""
        return sorted((self.tail, self.head), key=lambda node: node.rank)

    def knots(self, columns, slots):
        """The points of the edge, from its tail to its head."""
        points = []
        for node in self.chain:
            left, right = columns[node.rank]
            is_first, is_last = node is self.chain[0], node is self.chain[-1]
            if is_first or is_last:
                y = node.y + slots[node, "right" if is_first else "left", self]
                at = node.x + node.width if is_first else node.x
                edge = right if is_first else left
                ends = [(at, y)] if at == edge else [(at, y), (edge, y)]
                points += ends if is_first else ends[::-1]
            else:
                points += [(left, node.y), (right, node.y)] if right > left else [(left, node.y)]
        return points if self.chain[0] is self.tail else points[::-1]

    def svg(self, columns, slots):
        (x, y), *others = self.knots(columns, slots)
        path = f"M{number(x)} {number(y)}"
        for to_x, to_y in others:
            if abs(to_y - y) < 0.05:
                if abs(to_x - x) < 0.05:
                    continue  # A tip at the end of no line would have no direction.
                path += f"H{number(to_x)}"
            else:
                middle = (x + to_x) / 2
                path += (f"C{number(middle)} {number(y)} {number(middle)} {number(to_y)}"
                         f" {number(to_x)} {number(to_y)}")
            x, y = to_x, to_y
        tip = f' marker-end="url(#{self.tip})"' if self.tip else ""
        title = f"<title>{escape(self.title)}</title>" if self.title else ""
        return f'<path class="{self.css}"{self.data} d="{path}"{tip}>{title}</path>'


class Ranks:
    """Which node stands left of which, without a circle."""

    def __init__(self):
        self.after = {}  # node: {a node right of it: by how many columns at least}

    def reaches(self, start, goal):
        seen, waiting = {start}, [start]
        while waiting:
            node = waiting.pop()
            if node is goal:
                return True
            fresh = [other for other in self.after.get(node, ()) if other not in seen]
            seen.update(fresh)
            waiting += fresh
        return False

    def add(self, left, right, span):
        """Puts `left` left of `right`, or the other way round where that would be a circle."""
        if left is right:
            return
        if self.reaches(right, left):
            left, right = right, left
        self.after.setdefault(left, {})[right] = span

    def number(self, nodes):
        """Gives each node its column. Classes get even ones, the others odd ones."""
        before = {node: {} for node in nodes}
        for left, others in self.after.items():
            for right, span in others.items():
                before[right][left] = span
        open_nodes = {node: len(before[node]) for node in nodes}
        order = [node for node in nodes if not open_nodes[node]]
        for node in order:
            for right in self.after.get(node, ()):
                open_nodes[right] -= 1
                if not open_nodes[right]:
                    order.append(right)
        for node in order:
            first = 0 if node.kind == "class" else -1
            node.rank = max([first] + [left.rank + span for left, span in before[node].items()])
        # What is more often left of others than right of them comes as near to those as it can.
        for _ in range(len(nodes)):
            moved = False
            for node in reversed(order):
                after = self.after.get(node, {})
                if len(after) > len(before[node]):
                    last = min(right.rank - span for right, span in after.items())
                    moved = moved or last != node.rank
                    node.rank = last
            if not moved:
                break


def graph(structure, naming, conflicts):
    """The nodes and edges of a whole structure."""
    holding = {}  # root: predicates that hold of the class alone
    for predicate, parents, arguments in structure.pred_apps:
        if len(parents + arguments) == 1:
            root = structure.root((parents + arguments)[0])
            text = f"{naming.predicate(predicate)} holds"
            if text not in holding.setdefault(root, []):
                holding[root].append(text)
    boxes = {root: ClassBox(structure, naming, root, conflicts.get(root),
                            holding=holding.get(root, []))
             for root in structure.members}
    ranks, nodes, edges = Ranks(), list(boxes.values()), []
    add_facts(structure, naming, boxes, ranks, edges)
    add_applications(structure, naming, boxes, ranks, nodes, edges)
    return nodes, edges


def add_facts(structure, naming, boxes, ranks, edges):
    for root, box in boxes.items():
        for row, (fact, _, _, is_clash) in enumerate(box.facts):
            for parent in dict.fromkeys(fact[1]):
                if parent == root:
                    continue  # the text says it
                css, tip = ("fact clash", "tip-clash") if is_clash else ("fact", "tip-fact")
                ranks.add(boxes[parent], box, 2)
                edges.append(Edge(box, ("fact", row), boxes[parent], ("facts", is_clash), css, tip,
                                  f"{naming.element(root)}: {naming.fact(*fact)}",
                                  f' data-from="{root}" data-to="{parent}"'))


def add_applications(structure, naming, boxes, ranks, nodes, edges):
    def box_of(el):
        return boxes[structure.root(el)]

    single = {}  # (the one element, result): names of functions and what they say
    for function, parents, arguments, result in structure.func_apps:
        said = application(naming, naming.function(function), parents, arguments, result)
        if len(parents + arguments) == 1:
            given = (parents + arguments)[0]
            single.setdefault((given, result), []).append((naming.function(function), said))
        else:
            node = several(naming.function(function), parents + arguments, said, box_of, ranks,
                           nodes, edges)
            ranks.add(node, box_of(result), 1)
            edges.append(Edge(node, None, box_of(result), ("member", result), "apply", "tip-apply",
                              said))
    for predicate, parents, arguments in structure.pred_apps:
        if len(parents + arguments) != 1:
            said = application(naming, naming.predicate(predicate), parents, arguments)
            several(naming.predicate(predicate), parents + arguments, said, box_of, ranks, nodes,
                    edges)
    for given, result in single:
        ranks.add(box_of(given), box_of(result), 2)
    ranks.number(nodes)
    for (given, result), named in single.items():
        said = "; ".join(said for _, said in named)
        label = Label([name for name, _ in named], said)
        label.rank = min(box_of(given).rank, box_of(result).rank) + 1
        nodes.append(label)
        edges.append(Edge(box_of(given), ("member", given), label, None, "apply", "", said))
        edges.append(Edge(label, None, box_of(result), ("member", result), "apply", "tip-apply",
                          said))


def application(naming, name, parents, arguments, result=None):
    """An application as a line of a sheet has it."""
    for els, (opening, closing) in ((parents, "[]"), (arguments, "()")):
        if els:
            name += f" {opening}{' '.join(map(naming.element, els))}{closing}"
    return name if result is None else f"{name} = {naming.element(result)}"


def several(name, inputs, said, box_of, ranks, nodes, edges):
    """The node of an application to several elements or to none, with the edges to it."""
    node = ApplyNode(name, len(inputs), said)
    nodes.append(node)
    for place, el in enumerate(inputs):
        ranks.add(box_of(el), node, 1)
        edges.append(Edge(box_of(el), ("member", el), node, place, "apply", "", said))
    return node


# Places.


def spread(wanted, weights, distances):
    """Places in their order, as near to the wanted ones as the distances allow. A distance is that
    from a place to the next one."""
    start, starts = 0, []
    for distance in [*distances, 0][:len(wanted)]:
        starts.append(start)
        start += distance
    blocks = []  # (weighted sum, weight, how many)
    for place, weight, begin in zip(wanted, weights, starts):
        block = [(place - begin) * weight, weight, 1]
        while blocks and blocks[-1][0] * block[1] > block[0] * blocks[-1][1]:
            block = [one + other for one, other in zip(blocks.pop(), block)]
        blocks.append(block)
    places = [total / weight for total, weight, count in blocks for _ in range(count)]
    return [place + begin for place, begin in zip(places, starts)]


def parts_of(nodes, edges):
    """The connected parts of a graph, those with edges first."""
    near = {node: [] for node in nodes}
    for edge in edges:
        near[edge.tail].append(edge.head)
        near[edge.head].append(edge.tail)
    parts, seen = [], set()
    for node in nodes:
        if node in seen:
            continue
        seen.add(node)
        found = [node]
        for one in found:
            for other in near[one]:
                if other not in seen:
                    seen.add(other)
                    found.append(other)
        kept = set(found)
        parts.append(Part([one for one in nodes if one in kept],
                          [edge for edge in edges if edge.tail in kept]))
    return sorted(parts, key=lambda part: not part.edges)


class Part:
    """A connected part of the graph with the place of each node."""

    def __init__(self, nodes, edges):
        self.nodes, self.edges = nodes, edges
        self.slots = {}
        self.stretch()
        self.break_columns()
        self.close_ranks()
        self.layers = [[] for _ in range(1 + max(node.rank for node in nodes))]
        for node in nodes:
            self.layers[node.rank].append(node)
        self.segments = []  # (left node, right node, edge) between neighbouring columns
        for edge in edges:
            self.insert_bends(edge)
        self.sides = {node: {"left": [], "right": []} for layer in self.layers for node in layer}
        for left, right, edge in self.segments:
            self.sides[left]["right"].append((right, edge))
            self.sides[right]["left"].append((left, edge))
        self.order()
        self.place_rows()
        self.place_slots()
        self.straighten()
        self.place_columns()

    def break_columns(self):
        """Where a column gets too high, spreads boxes that nothing stands right of over several."""
        leading = {edge.ends()[0] for edge in self.edges}
        columns = {}
        for node in self.nodes:
            if node.kind == "class":
                columns.setdefault(node.rank, []).append(node)
        for boxes in columns.values():
            count = math.ceil(sum(box.height + CLASSES_APART for box in boxes) / HIGHEST)
            for place, box in enumerate(box for box in boxes if box not in leading):
                box.rank += 2 * (place % count)

    def close_ranks(self):
        """Leaves out columns in which nothing stands."""
        used = sorted({node.rank for node in self.nodes})
        for node in self.nodes:
            node.rank = used.index(node.rank)

    def key(self, edge, node):
        """Edges that end at one point of a box have one key."""
        port = edge.ports[node]
        if isinstance(port, tuple) and port[0] in ("fact", "facts"):
            return port
        return edge

    def stretch(self):
        """Makes boxes high enough for the ends of their edges."""
        ends = {}
        for edge in self.edges:
            left, right = edge.ends()
            ends.setdefault((left, "right"), set()).add(self.key(edge, left))
            ends.setdefault((right, "left"), set()).add(self.key(edge, right))
        for (node, _), keys in ends.items():
            if node.kind == "class":
                node.height = max(node.height, SLOT * len(keys) + 14)

    def insert_bends(self, edge):
        left, right = edge.ends()
        edge.chain = [left]
        for rank in range(left.rank + 1, right.rank):
            bend = Node()
            bend.rank = rank
            self.layers[rank].append(bend)
            edge.chain.append(bend)
        edge.chain.append(right)
        self.segments += [(one, other, edge) for one, other in zip(edge.chain, edge.chain[1:])]

    def offset(self, node, edge):
        """How far below the top of a node an edge wants to end."""
        return node.offset(edge.ports[node]) if node in edge.ports else 0

    # The order in a column.

    def order(self):
        """Orders each column so that few edges cross."""
        self.start_order()
        best, fewest = [list(layer) for layer in self.layers], self.crossings()
        for turn in range(24):
            if not fewest:
                break
            side = "left" if turn % 2 == 0 else "right"
            ranks = range(len(self.layers))
            for rank in ranks if side == "left" else reversed(ranks):
                self.sort_layer(rank, side)
            if turn % 4 == 3:
                self.swap()
            found = self.crossings()
            if found < fewest:
                best, fewest = [list(layer) for layer in self.layers], found
        self.layers = best

    def start_order(self):
        """The order in which a walk along the edges finds the nodes."""
        found = {}
        for start in [node for layer in self.layers for node in layer]:
            waiting = [start]
            while waiting:
                node = waiting.pop()
                if node not in found:
                    found[node] = len(found)
                    near = self.sides[node]["right"] + self.sides[node]["left"]
                    waiting += [other for other, _ in reversed(near)]
        for layer in self.layers:
            layer.sort(key=found.get)

    def sort_layer(self, rank, side):
        layer = self.layers[rank]
        other = rank - 1 if side == "left" else rank + 1
        if not 0 <= other < len(self.layers):
            return
        place = {node: at for at, node in enumerate(self.layers[other])}
        means = {}
        for node in layer:
            ends = [place[near] + self.offset(near, edge) / (near.height + 1)
                    for near, edge in self.sides[node][side]]
            if ends:
                means[node] = sum(ends) / len(ends)
        ordered = iter(sorted(means, key=means.get))  # the others keep their places
        self.layers[rank] = [next(ordered) if node in means else node for node in layer]

    def crossings(self, ranks=None):
        """How many edges cross between the columns, or right of those given."""
        found = 0
        for rank in range(len(self.layers) - 1) if ranks is None else ranks:
            if not 0 <= rank < len(self.layers) - 1:
                continue
            place = {node: at for at, node in enumerate(self.layers[rank + 1])}
            ends = []
            for at, node in enumerate(self.layers[rank]):
                for near, edge in self.sides[node]["right"]:
                    ends.append((at + self.offset(node, edge) / (node.height + 1),
                                 place[near] + self.offset(near, edge) / (near.height + 1)))
            ends.sort()
            sorted_ends = []
            for _, end in ends:
                at = len(sorted_ends)
                while at and sorted_ends[at - 1] > end:
                    at -= 1
                found += len(sorted_ends) - at
                sorted_ends.insert(at, end)
        return found

    def swap(self):
        """Swaps neighbours where that takes crossings away."""
        for rank, layer in enumerate(self.layers):
            near = (rank - 1, rank)
            now = self.crossings(near)
            for at in range(len(layer) - 1):
                if not now:
                    break
                layer[at:at + 2] = layer[at + 1], layer[at]
                then = self.crossings(near)
                if then < now:
                    now = then
                else:
                    layer[at:at + 2] = layer[at + 1], layer[at]

    # The places.

    def place_rows(self):
        for layer in self.layers:
            y = 0
            for one, other in zip([None, *layer], layer):
                y += self.distance(one, other) if one else 0
                other.y = y
        turns = 28
        for turn in range(turns):
            sides = ["left"] if turn % 2 == 0 else ["right"]
            if turn >= turns - 6:
                sides = ["left", "right"]
            for layer in self.layers if turn % 2 == 0 else reversed(self.layers):
                wanted, weights = [], []
                for node in layer:
                    ends = [(near.y + self.offset(near, edge) - self.offset(node, edge),
                             6 if node.kind == near.kind == "bend" else
                             3 if "bend" in (node.kind, near.kind) else 1)
                            for side in sides for near, edge in self.sides[node][side]]
                    weight = sum(weight for _, weight in ends)
                    wanted.append(sum(y * each for y, each in ends) / weight if ends else node.y)
                    weights.append(weight or 0.01)
                places = spread(wanted, weights, [self.distance(*pair)
                                                  for pair in zip(layer, layer[1:])])
                for node, place in zip(layer, places):
                    node.y = place

    def distance(self, one, other):
        """From the top of a node to that of the next one."""
        if one.kind == other.kind == "class":
            return one.height + CLASSES_APART
        return one.height + max(APART[one.kind], APART[other.kind])

    def place_slots(self):
        """Where each edge ends at each side of its nodes, below the top."""
        for node in self.nodes:
            for side, ends in self.sides[node].items():
                groups = {}
                for near, edge in ends:
                    groups.setdefault(self.key(edge, node), []).append((near, edge))
                if node.kind != "class":
                    for near, edge in ends:
                        self.slots[node, side, edge] = self.offset(node, edge)
                    continue

                def wish(key):
                    near = [other.y + self.offset(other, edge) for other, edge in groups[key]]
                    return self.offset(node, groups[key][0][1]), sum(near) / len(near)

                keys = sorted(groups, key=wish)
                fixed = [isinstance(key, tuple) and key[0] == "fact" for key in keys]
                places = spread([wish(key)[0] for key in keys],
                                [1000 if is_fixed else 1 for is_fixed in fixed],
                                [SLOT] * (len(keys) - 1))
                low = max(0, 7 - min(places, default=7))
                high = max(0, max(places, default=0) + low - node.height + 7)
                for key, place in zip(keys, places):
                    for _, edge in groups[key]:
                        self.slots[node, side, edge] = place + low - high

    def straighten(self):
        """Moves bends and names on edges to the height of one end of their edge."""
        shared = {}  # how many edges end at one point
        for (node, side, edge) in self.slots:
            point = node, side, self.key(edge, node)
            shared[point] = shared.get(point, 0) + 1

        def end(node, side, edge):
            return node.y + self.slots.get((node, side, edge), 0)

        def wish(node):
            """Where the node would like to be: level with the end that fewer edges share."""
            (left, edge), *_ = self.sides[node]["left"]
            if not self.sides[node]["right"]:
                return end(left, "right", edge)
            (right, onward), *_ = self.sides[node]["right"]
            first, last = edge.chain[0], onward.chain[-1]
            few = shared[first, "right", self.key(edge, first)]
            if few > shared[last, "left", self.key(onward, last)]:
                return end(right, "left", onward)
            return end(left, "right", edge)

        for turn in range(4):
            for layer in self.layers if turn % 2 == 0 else reversed(self.layers):
                free = [node.kind in ("bend", "label") for node in layer]
                wanted = [wish(node) - node.height / 2 if is_free else node.y
                          for node, is_free in zip(layer, free)]
                places = spread(wanted, [1 if is_free else 1e6 for is_free in free],
                                [self.distance(*pair) for pair in zip(layer, layer[1:])])
                for node, place in zip(layer, places):
                    node.y = place
        top = min(layer[0].y for layer in self.layers)
        for layer in self.layers:
            for node in layer:
                node.y = round(node.y - top, 1)
        self.height = max(layer[-1].y + layer[-1].height for layer in self.layers)

    def place_columns(self):
        x, self.columns = 0, {}
        for rank, layer in enumerate(self.layers):
            width = max(node.width for node in layer)
            self.columns[rank] = x, x + width
            for node in layer:
                if node.kind == "class":
                    node.width = width
                node.x = x + (width - node.width) / 2
            x += width
            if rank + 1 < len(self.layers):
                steepest = max((abs(near.y + self.offset(near, edge) - node.y
                                    - self.offset(node, edge))
                                for node in layer for near, edge in self.sides[node]["right"]),
                               default=0)
                x += min(110, 40 + 0.17 * steepest)
        self.width = x

    def move(self, x, y):
        self.bottom = y + self.height
        for layer in self.layers:
            for node in layer:
                node.x += x
                node.y += y
        self.columns = {rank: (left + x, right + x) for rank, (left, right) in self.columns.items()}

    def svg(self):
        ordered = sorted(self.edges, key=lambda edge: "clash" in edge.css)  # conflicts on top
        return [*(edge.svg(self.columns, self.slots) for edge in ordered),
                *(line for node in self.nodes for line in node.svg())]


def shelve(parts):
    """Puts parts beside each other as far as there is room, then below. Answers the width."""
    margin = 6
    x, y, high, width = margin, margin, 0, 420
    for part in parts:
        if x > margin and x + part.width > SHELF:
            x, y, high = margin, y + high + GAP, 0
        part.move(x, y)
        width = max(width, x + part.width + margin)
        x += part.width + GAP
        high = max(high, part.height)
    return round(width + 0.5)


# The legend.


def legend_items(parts, is_large_one):
    """What the drawing has, each with a small sign for it: (sign, text)."""
    nodes = [node for part in parts for node in part.nodes]
    edges = [edge for part in parts for edge in part.edges]
    boxes = [node for node in nodes if node.kind == "class"]
    pill = '<rect class="pill" x="2" y="3" width="34" height="16" rx="8"/></g>'
    items = [(f'<g class="member root">{pill}', "root, gives the class its name")]
    if any(len(box.members) > 1 for box in boxes):
        items.append((f'<g class="member">{pill}', "another name of the same thing"))
        items.append(('<path class="link" d="M2 11H36" marker-end="url(#tip-link)"/>',
                      "links to"))
    if any(box.marks for box in boxes):
        items.append((f'<g class="member marked">{pill}',
                      "marked, stands in for one not known yet"))
    if any(edge.css == "fact" for edge in edges):
        items.append(('<path class="fact" d="M2 11H36" marker-end="url(#tip-fact)"/>',
                      "fact: belongs to"))
    if any(edge.css == "apply" for edge in edges):
        items.append(('<path class="apply" d="M2 11H36" marker-end="url(#tip-apply)"/>',
                      "application: gives"))
    if any(node.kind == "apply" for node in nodes):
        items.append(('<rect class="node" x="2" y="3" width="34" height="16" rx="8"/>',
                      "applied to several or to none; numbers give the order"))
    if any(box.conflict for box in boxes):
        items.append(('<g class="conflict"><rect class="box" x="3" y="2" width="32" height="18"'
                      f' rx="5"/>{sign(13, 4, 12)}</g>', "class with a conflict"))
        if not is_large_one:
            items.append(('<path class="fact clash" d="M2 11H36" marker-end="url(#tip-clash)"/>',
                          "fact of a conflict"))
    return items


def legend_svg(items, width, y):
    shapes, x = ['<g class="legend">'], 8
    for shape, text in items:
        needed = 44 + text_width(text, SMALL) + 22
        if x > 8 and x + needed - 22 > width:
            x, y = 8, y + 26
        shapes.append(f'<g transform="translate({number(x)} {number(y)})">{shape}'
                      f'{text_at(44, 15, text)}</g>')
        x += needed
    return [*shapes, "</g>"], round(y + 30)
