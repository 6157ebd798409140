"""How long chains are where nozzles count beads from the same start, before and after keys were mixed: bars from docs/changes/03-chain-lengths.txt."""
from svg import Picture
from wrong import Wrong

LEFT, RIGHT, TOP = 24, 876, 92
# A panel: its height, what is between two; where its bars begin and end, how high they get, and the room for one side.
HIGH, GAP, FIRST, SIDE = 226, 14, 232, 84
SIDES = ('before', 'after')
TITLES = {'before': 'keys themselves', 'after': 'mixed keys'}
MOST = 34


def read(path):
    """By number of beads: for each side the records, the pages read and the chains of each length."""
    panels = {}
    for line in path.read_text().splitlines():
        if not line.startswith('#'):
            side, beads, records, pages, *chains = line.split()
            panels.setdefault(int(beads), {})[side] = (int(records), int(pages), dict(tuple(map(int, pair.split(':'))) for pair in chains))
    if any(set(sides) != set(SIDES) for sides in panels.values()):
        raise Wrong(f'{path.name} has not both sides of every number of beads')
    return panels


def draw_side(picture, y, side, numbers, step, highest):
    records, pages, chains = numbers
    base = y + SIDE - 14
    picture.text(LEFT + 16, y + 22, TITLES[side], 13, 'ink bold')
    picture.text(LEFT + 16, y + 40, f'{sum(chains.values())} chains, the longest {max(chains)}', 12, 'soft')
    picture.text(LEFT + 16, y + 56, f'{pages / records:.2f} pages a find', 12, 'soft')
    picture.path([(FIRST, base), (RIGHT - 16, base)], 'cell', arrow=False)
    for length, count in sorted(chains.items()):
        x, tall = FIRST + length * step, max(1.5, count / highest * (SIDE - 34))
        picture.rect(x + 1.5, base - tall, step - 3, tall, 'fresh' if side == 'after' else 'box', 2)
        picture.text(x + step / 2, base - tall - 3, str(count), 9, 'soft', 'middle')


def draw_panel(picture, y, beads, sides):
    step = (RIGHT - 16 - FIRST) / MOST
    highest = max(count for _, _, chains in sides.values() for count in chains.values())
    picture.rect(LEFT, y, RIGHT - LEFT, HIGH, 'band', 8)
    records = {side: sides[side][0] for side in SIDES}
    asked = 16 * beads
    words = f'Beads 0 to {beads - 1} of each nozzle: {asked:,} records' + (
        '' if all(number == asked for number in records.values()) else f', of which {records["before"]:,} and {records["after"]:,} find pages')
    picture.text(LEFT + 16, y + 24, words, 13.5, 'ink bold')
    for k, side in enumerate(SIDES):
        draw_side(picture, y + 30 + k * SIDE, side, sides[side], step, highest)
    for length in range(0, MOST, 4):
        picture.text(FIRST + length * step + step / 2, y + HIGH - 14, str(length), 10, 'soft', 'middle')
    picture.text(LEFT + 16, y + HIGH - 14, 'chains by their records', 12, 'soft')


def draw(root):
    panels = read(root / 'docs/changes/03-chain-lengths.txt')
    picture = Picture('Chains by length, before and after', 'Bars: how many chains have how many records, with addresses taken of keys themselves and of mixed keys.')
    picture.head('Beads of equal number in one chain, and not',
                 'Sixteen nozzles put in their beads in turn, counting from 0; a key has the nozzle in its highest byte. A file of at most 256 chains and 752 '
                 'overflow pages, six records a page. From the compiled library (bench/chains); pages a find: the mean over all records that are there.')
    for k, (beads, sides) in enumerate(sorted(panels.items())):
        draw_panel(picture, TOP + k * (HIGH + GAP), beads, sides)
    return picture.checked(TOP + len(panels) * (HIGH + GAP) - GAP + 24)
