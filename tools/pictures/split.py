"""How a split goes by: five frames of a small file, as steps 15 to 22, 13 and 14 leave it, drawn from a run of linear_hash.File."""
from linear_hash import File
from locks import plate
from svg import Picture
from widths import width_of, wrapped

SIZES = (2, 2, 4, 5)
SUBSCRIPTS = '₀₁₂₃'
KEYS, LAST, SOUGHT = (5, 13, 4, 8, 16, 19, 17, 23), 26, 16
# Bands; where chains, their pages and the party's pages begin; a page's tab, key and height; an arrow between pages; the pitch of chains.
LEFT, RIGHT, CHAINS, PAGES, PARTY = 24, 976, 288, 370, 750
TAB, KEY, TALL, LINK, ROW = 46, 23, 25, 16, 35
HIGH, GAP = 196, 14
# Of each frame: the step after which it is, and which time that step is done; its title; what it says.
FRAMES = [
    ((14, 0), 'Before', 'The insert of {last} made chain {chain} longer by a page, so it owes a split, of chain next. All its locks are given up.'),
    ((17, 0), '15 to 17: both halves built',
     'Selective locks let readers pass, and the chain stays as it was. Keys with h{up}(k) = {chain} stay: they wait in scratch and page {new}. '
     'The rest are chain {other}.'),
    ((18, 0), '18: the one write',
     'Chain {chain}’s primary page is written, and both halves are in the file: its local level {next_level} sends on who comes for the other half. '
     'Readers on pages {old} find them as they were.'),
    ((21, 0), '19 to 21: the root moves',
     'The chain is given up. next = ({was} + 1) mod {chains} = {next}, so level becomes {next_level}, a word a step. Root is still locked.'),
    ((14, 1), '22, 13, 14: old pages back',
     'Root is given up. The lock at 13 is exclusive: it waits until no reader is on chain {chain}. Pages {old} then join the free ones.'),
]


def run():
    """The file after each frame's step, in the insert that splits."""
    file = File(*SIZES)
    for key in KEYS:
        file.insert(key)
    file.seen = []
    file.insert(LAST)
    return [[left for step, left in file.seen if step == number][which] for (number, which), _, _ in FRAMES]


def words_of(frames):
    """The numbers that the frames' words speak of, out of the run."""
    before, built, _, moved, _ = frames
    chain = before.next
    return {'last': LAST, 'chain': chain, 'other': before.count(), 'up': SUBSCRIPTS[before.level + 1], 'was': before.next, 'next': moved.next,
            'next_level': moved.level, 'chains': before.originals * 2 ** before.level, 'new': built.scratch.link,
            'old': ' and '.join(str(page) for page in before.linked(chain)[1:])}


def same(page, other):
    return other is not None and vars(page) == vars(other)


def listed(file, page):
    """A page and those that its links lead to, with their numbers."""
    return [(number, file.pages[number]) for number in file.linked(page)]


def draw_page(picture, x, y, page, tab, kind, capacity):
    """One page: a tab with the local level or the page's number, then the keys of its records."""
    soft = 'dashed' in kind
    picture.rect(x, y, TAB + capacity * KEY, TALL, kind, 4)
    picture.text(x + TAB / 2, y + 17, tab, 11, 'soft', 'middle')
    for k in range(capacity):
        at = x + TAB + k * KEY
        picture.path([(at, y + 1), (at, y + TALL - 1)], 'cell', arrow=False)
        if k < len(page.keys):
            picture.text(at + KEY / 2, y + 17.5, str(page.keys[k]), 13, 'soft bold' if soft else 'ink bold', 'middle')


def draw_list(picture, x, y, file, before, pages, kind=None):
    """Pages one after the other; those written since the frame before are marked. Where the list ends."""
    for k, (number, page) in enumerate(pages):
        if k:
            picture.path([(x - LINK, y + TALL / 2), (x - 1, y + TALL / 2)])
        fresh = before is not None and not same(page, before.pages.get(number))
        tab = f'page {number}' if number is not None and number >= SIZES[2] else f'level {page.level}'
        draw_page(picture, x, y, page, tab, kind or ('fresh' if fresh else 'box'), file.capacity)
        x += TAB + file.capacity * KEY + LINK
    return x - LINK


def draw_chains(picture, y, file, before):
    for chain in range(SIZES[2]):
        at = y + chain * ROW
        if chain in file.locks:
            plate(picture, CHAINS, at + 4, f'chain {chain} {file.locks[chain]}')
        else:
            picture.text(CHAINS + 6, at + 17, f'chain {chain}', 12, 'ink' if chain in file.pages else 'soft')
        if chain not in file.pages:
            picture.text(PAGES, at + 17, 'not there yet', 12, 'soft')
            continue
        there = file.leads_to(chain)
        end = draw_list(picture, PAGES, at, file, before, listed(file, chain), None if there else 'fresh dashed')
        if not there:
            picture.text(end + 10, at + 17, 'nothing leads there yet', 12, 'soft')


def draw_party(picture, y, file, before):
    """What the party has in hand, and the free pages."""
    at = y + 2 * ROW
    if file.scratch:
        picture.text(PARTY, at - 7, 'waits in scratch', 12, 'soft')
        draw_list(picture, PARTY, at, file, before, [(None, file.scratch)] + listed(file, file.scratch.link), 'fresh dashed')
    elif file.old is not None:
        picture.text(PARTY, at - 7, 'old pages, off the chain', 12, 'soft')
        draw_list(picture, PARTY, at, file, before, listed(file, file.old), 'bare')
    free = ' → '.join(str(page) for page in file.free)
    picture.text(PARTY, y + 3 * ROW + 17, f'free pages: {free}', 12, 'ink' if before and before.free != file.free else 'soft')


def draw_find(picture, y, file):
    """How a find that begins now would go."""
    way, page = file.found_by(SOUGHT)
    words = f'level {file.level}, next {file.next}: h{SUBSCRIPTS[way[0][1]]}({SOUGHT}) = {way[0][0]}'
    for chain, lev in way[1:]:
        words += f'; there local level {lev}: h{SUBSCRIPTS[lev]}({SOUGHT}) = {chain}'
    where = f'page {page}' if page >= SIZES[2] else f'chain {page}’s primary page'
    picture.phrase(CHAINS + 6, y, [(f'A find of {SOUGHT} now: ', 'read-ink bold'), (f'{words}; found on {where}', 'ink')])


def draw_frame(picture, k, y, file, before, words):
    _, title, says = FRAMES[k]
    room = CHAINS - LEFT - 42
    picture.rect(LEFT, y, RIGHT - LEFT, HIGH, 'band', 8)
    picture.circle(LEFT + 20, y + 22, 11, 'accent')
    picture.text(LEFT + 20, y + 26, str(k + 1), 12, 'on-number bold', 'middle')
    heading = wrapped(title, 13.5, room + 4, bold=True)
    below = picture.lines(LEFT + 38, y + 27, heading, 13.5, 'ink bold', 18)
    picture.lines(LEFT + 16, y + 29 + below, wrapped(says.format(**words), 12, room + 8), 12, 'soft', 15.5)
    moved = before and (before.level, before.next) != (file.level, file.next)
    picture.rect(LEFT + 16, y + HIGH - 36, 154, TALL, 'fresh' if moved else 'box', 4)
    picture.text(LEFT + 93, y + HIGH - 19, f'root: level {file.level}, next {file.next}', 12.5, 'ink bold', 'middle')
    if 'root' in file.locks:
        plate(picture, LEFT + 176, y + HIGH - 32, f'root {file.locks["root"]}')
    draw_chains(picture, y + 14, file, before)
    draw_party(picture, y + 14, file, before)
    picture.path([(CHAINS, y + HIGH - 38), (RIGHT - 16, y + HIGH - 38)], 'cell', arrow=False)
    draw_find(picture, y + HIGH - 16, file)


def draw_head(picture):
    """Title, words and legend; where the frames begin."""
    keys = ', '.join(str(key) for key in KEYS)
    y = picture.head('How a split goes by', f'A file of N = {SIZES[0]} original chains, b = {SIZES[1]} records a page: h₀(k) is the mixed key mod {SIZES[0]}, '
                     f'h₁(k) mod {2 * SIZES[0]}. Keys {keys} are there; {LAST} is put in. A page shows its local level or its number, then its keys; '
                     'each key has its setting with it. The insert is the only writer here; finds may come at any time.')
    x = LEFT
    for kind, words in (('fresh', 'written since the frame before'), ('fresh dashed', 'written, not yet in the file'),
                        ('bare', 'old: off the chain, readers may be on it')):
        picture.rect(x, y - 3, 26, 16, kind, 4)
        picture.text(x + 33, y + 9, words, 12, 'soft')
        x += 33 + width_of(words, 12) + 20
    x += plate(picture, x, y - 4, 'chain S') + 7
    picture.text(x, y + 9, 'locked, selective', 12, 'soft')
    return y + 31


def draw(root):
    frames = run()
    words = words_of(frames)
    picture = Picture('How a split goes by', 'Five frames of a small file: before, both halves built, the old chain written, the root moved, old pages given back.', RIGHT + LEFT)
    top = draw_head(picture)
    for k, file in enumerate(frames):
        draw_frame(picture, k, top + k * (HIGH + GAP), file, frames[k - 1] if k else None, words)
    return picture.checked(top + len(frames) * (HIGH + GAP) - GAP + 24)
