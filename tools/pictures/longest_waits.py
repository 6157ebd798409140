"""How long a party waits for a lock where many previews are open, before and after the row of who waits: bars from docs/changes/07-longest-waits.txt."""
from math import log10

from svg import Picture
from wrong import Wrong

LEFT, RIGHT, TOP = 24, 876, 98
# The bars: where they begin, how high the panel is, and how high ten times as long a wait is.
FIRST, HIGH, TENFOLD = 84, 300, 62
SIDES = ('before', 'after')
TITLES = {'before': 'granted by Table I alone', 'after': 'granted by Table I, and behind nobody who came earlier'}
KINDS = {'before': 'box', 'after': 'fresh'}


def read(path):
    """By number of parties: for each side the longest wait, of any operation."""
    waits = {}
    for line in path.read_text().splitlines():
        if not line.startswith('#'):
            side, parties, *longest = line.split()
            waits.setdefault(int(parties), {})[side] = max(map(int, longest))
    if not waits or any(set(sides) != set(SIDES) for sides in waits.values()):
        raise Wrong(f'{path.name} has not both sides of every number of parties')
    return waits


def draw_scale(picture, base):
    for power in range(5):
        y = base - power * TENFOLD
        picture.path([(FIRST, y), (RIGHT - 16, y)], 'cell', arrow=False)
        picture.text(FIRST - 8, y + 4, f'{10 ** power:,}', 10, 'soft', 'end')
    picture.text(LEFT + 16, base + 32, 'parties', 12, 'soft')


def draw_bars(picture, base, waits):
    step = (RIGHT - 16 - FIRST) / len(waits)
    wide = step / 2 - 4
    for k, (parties, sides) in enumerate(sorted(waits.items())):
        x = FIRST + k * step
        for place, side in enumerate(SIDES):
            tall = max(1.5, log10(sides[side]) * TENFOLD)
            left = x + 3 + place * (wide + 2)
            picture.rect(left, base - tall, wide, tall, KINDS[side], 2)
            picture.text(left + wide / 2, base - tall - 4, f'{sides[side]:,}', 9, 'soft', 'middle')
        picture.text(x + step / 2, base + 18, str(parties), 11, 'ink', 'middle')


def draw_sides(picture, y):
    x = LEFT + 16
    for side in SIDES:
        picture.rect(x, y, 14, 10, KINDS[side], 2)
        picture.text(x + 20, y + 9, f'{side}: {TITLES[side]}', 12, 'ink')
        x += 250


def draw(root):
    waits = read(root / 'docs/changes/07-longest-waits.txt')
    picture = Picture('The longest wait, before and after', 'Bars: for two to sixteen parties the longest wait in rounds, granted by Table I alone and with the row of who waits.')
    picture.head('Nobody overtaken: the longest wait in rounds',
                 'Parties are called once a round, in turn; of ten operations eight are finds, one is an insert and one a delete. 50,000 rounds of a file of at most '
                 'four chains. From the compiled programs (bench/waits): before, the C port without its row; after, the library. Each line up is ten times as long.')
    picture.rect(LEFT, TOP, RIGHT - LEFT, HIGH + 74, 'band', 8)
    draw_sides(picture, TOP + 16)
    base = TOP + HIGH + 30
    draw_scale(picture, base)
    draw_bars(picture, base, waits)
    return picture.checked(TOP + HIGH + 74 + 24)
