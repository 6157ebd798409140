"""The picture docs/pictures/growth.svg: instructions an operation by keys in the file and by parties in turn, of the library and of the C port."""
from collections import namedtuple
from contenders import C_PORT, LIBRARY, ROOT
from svg import Picture
from widths import width_of

PLACE = ROOT / 'docs/pictures/growth.svg'
# Where the panels begin, how high they are, and the picture.
TOP, HIGH, HEIGHT = 158, 308, 522

# A panel: where it begins and how wide it is, its title, what runs along it, the marks there, and those of instructions.
Panel = namedtuple('Panel', 'left wide title along marks instructions')
KEYS = Panel(66, 364, 'By keys in the file', 'keys', [0, 750, 1500, 2250, 3000, 3750, 4500], range(0, 5001, 1000))
PARTIES = Panel(504, 364, 'By parties in turn, a call each', 'parties', [1, 4, 8, 12, 16], range(0, 18001, 2000))
# A curve: its panel, the kind of its points, its line, its dots, its words, and the point where these end.
Curve = namedtuple('Curve', 'panel kind line dots words end')
CURVES = [
    Curve(KEYS, 'change', 'selective-edge', 'selective-ink', 'insert and delete', (4500, 4150)),
    Curve(KEYS, 'find', 'read-edge', 'read-ink', 'find', (4500, 2480)),
    Curve(PARTIES, 'crowd', 'selective-edge', 'selective-ink', 'insert and delete, among 30 keys', (11.2, 14400)),
    Curve(PARTIES, 'mixed', 'ring', 'accent', 'eight of ten are finds, among 4,389 keys', (16, 700)),
]
SAYS = ('The file is 1 6 256 752 16, and every operation is counted from begin to done. Up to some 1,600 keys a chain is split for every new overflow page; then '
        'all 256 chains are there, and grow. Parties wait for one another where few chains are changed by many; waiting calls are counted too.')


def place(panel, along, instructions):
    """Where a point is in the picture."""
    first, last = panel.marks[0], panel.marks[-1]
    return panel.left + panel.wide * (along - first) / (last - first), TOP + HIGH * (1 - instructions / panel.instructions[-1])


def points(curve, counts):
    """A curve's points, from instructions by kind, keys and parties."""
    found = []
    for label, instructions in counts.items():
        kind, keys, parties = label.split()
        if kind == curve.kind:
            found.append((int(parties if curve.panel is PARTIES else keys), instructions))
    return sorted(found)


def draw_panel(picture, panel):
    picture.text(panel.left, TOP - 16, panel.title, 13.5, 'ink bold')
    for instructions in panel.instructions:
        _, y = place(panel, 0, instructions)
        picture.path([(panel.left, y), (panel.left + panel.wide, y)], 'cell' if instructions else 'line', arrow=False)
        picture.text(panel.left - 8, y + 4, f'{instructions:,}', 11, 'soft', 'end')
    for mark in panel.marks:
        x, y = place(panel, mark, 0)
        picture.path([(x, y), (x, y + 4)], 'line', arrow=False)
        picture.text(x, y + 18, f'{mark:,}', 11, 'soft', 'middle')
    picture.text(panel.left + panel.wide / 2, TOP + HIGH + 36, panel.along, 12, 'soft', 'middle')


def draw_curve(picture, curve, grown):
    """The C port's line, broken; the library's, with dots; the words."""
    picture.path([place(curve.panel, *point) for point in points(curve, grown[C_PORT])], f'{curve.line} dashed', arrow=False)
    corners = [place(curve.panel, *point) for point in points(curve, grown[LIBRARY])]
    picture.path(corners, curve.line, arrow=False)
    for x, y in corners:
        picture.circle(x, y, 2.4, curve.dots)
    picture.text(*place(curve.panel, *curve.end), curve.words, 12, 'ink bold', 'end')


def draw(grown):
    """The picture, from what was counted of the library and of the C port."""
    picture = Picture('Instructions an operation', 'Two plots: by keys in the file and by parties in turn, for the library and for the C port.')
    y = picture.head('Instructions an operation', SAYS)
    for panel in (KEYS, PARTIES):
        draw_panel(picture, panel)
    for curve in CURVES:
        draw_curve(picture, curve, grown)
    x = 24
    for name, kind in ((LIBRARY, 'line'), (C_PORT, 'line dashed')):
        picture.path([(x, y), (x + 30, y)], kind, arrow=False)
        picture.text(x + 38, y + 4, name, 12, 'soft')
        x += 38 + width_of(name, 12) + 22
    return picture.checked(HEIGHT)
