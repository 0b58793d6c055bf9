"""Draws the crates and what each stands on, as SVG, from crates.txt.

A row of boxes is a group of crates.txt, in its order from the bottom up. A line leads from a crate down to one that
it stands on, unless another crate lies between them. The kit's crates, the tests and the tools are not drawn. The same
crates.txt gives the same bytes.
"""
from contracts import crates

WIDTH, HEIGHT, GAP, ROW, LEFT, FEW = 142, 24, 10, 74, 150, 8
LEFT_OUT = ("tests", "tools")


def groups():
    """The groups of crates.txt, each with its crates and what these stand on."""
    found = {}
    for name, (group, below) in crates().items():
        heading = group.split(":")[0].split(",")[0]
        if heading not in LEFT_OUT:
            found.setdefault(heading, {})[name] = below
    return found


def reduced(below):
    """What each crate stands on with no other crate between them."""
    whole = {}

    def reach(name):
        if name not in whole:
            whole[name] = set()
            for lower in below[name]:
                whole[name] |= {lower} | reach(lower)
        return whole[name]

    for name in below:
        reach(name)
    return {name: [low for low in lows if not any(low in whole[other] for other in lows if other != low)]
            for name, lows in below.items()}


def rows_of(found):
    """The rows of boxes from the bottom up; a large group has several."""
    for heading, names in found.items():
        names = list(names)
        for start in range(0, len(names), FEW):
            yield heading if start == 0 else "", names[start:start + FEW]


def picture():
    """The text of the picture."""
    found = groups()
    own = {name for names in found.values() for name in names}
    below = {name: [low for low in lows if low in own] for names in found.values() for name, lows in names.items()}
    rows = list(rows_of(found))
    height = ROW * len(rows) + GAP
    place = {name: (LEFT + column * (WIDTH + GAP), height - ROW * (level + 1) + GAP)
             for level, (_, names) in enumerate(rows) for column, name in enumerate(names)}
    out = [
        f'<svg xmlns="http://www.w3.org/2000/svg" width="{LEFT + FEW * (WIDTH + GAP)}" height="{height}"'
        ' font-family="monospace" font-size="12">',
        "<title>The crates, each above those that it stands on</title>",
        '<rect width="100%" height="100%" fill="white"/>',
    ]
    for name, lows in sorted(reduced(below).items()):
        for low in sorted(lows):
            (x, y), (a, b) = place[name], place[low]
            out.append(f'<path d="M{x + WIDTH // 2} {y + HEIGHT} C{x + WIDTH // 2} {y + ROW} {a + WIDTH // 2} {b - ROW // 2}'
                       f' {a + WIDTH // 2} {b}" fill="none" stroke="#9ab" stroke-width="1"/>')
    for level, (heading, _) in enumerate(rows):
        out.append(f'<text x="4" y="{height - ROW * (level + 1) + GAP + 16}" fill="#555">{heading}</text>')
    for name, (x, y) in sorted(place.items()):
        out.append(f'<rect x="{x}" y="{y}" width="{WIDTH}" height="{HEIGHT}" fill="#eef4fa" stroke="#579"/>')
        out.append(f'<text x="{x + WIDTH // 2}" y="{y + 16}" text-anchor="middle">{name}</text>')
    return "\n".join([*out, "</svg>", ""])
