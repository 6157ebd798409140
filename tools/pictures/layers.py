"""The layers of crates: bands with the crates as boxes, laid out from crates.txt. A comment over a list of crates says what the layer is; within its layer
a crate stands in a row above those that it uses."""
import re
from svg import Picture
from widths import width_of, wrapped
from wrong import Wrong

# Where bands begin and end, where their boxes begin, and what is between two bands.
LEFT, RIGHT, BOXES, GAP = 24, 876, 266, 26
# A band's inner margin; a crate's box: height, room beside its name, room between two, size of its name; what is between two rows.
INSET, TALL, BESIDE, BETWEEN, NAME, ROWS = 18, 28, 11, 8, 12.5, 13


# The kit's own libraries, which crates.txt names and does not list.
KIT = {'check', 'libc', 'io', 'os', 'bytes'}


def layers_of(text):
    """What each layer is, with its crates and what each uses, lowest first."""
    layers, seen = [], set()
    for paragraph in text.split('\n\n'):
        lines = paragraph.strip().split('\n')
        crates = {name.split()[0]: [other for other in uses.split() if other not in KIT] for name, _, uses in (line.partition(':') for line in lines if line and not line.startswith('#'))}
        says = ' '.join(line.lstrip('# ') for line in lines if line.startswith('#'))
        if crates and not says:
            raise Wrong(f'crates.txt: the layer of {next(iter(crates))} has no comment that says what it is')
        for name, uses in crates.items():
            if missing := [other for other in uses if other not in seen]:
                raise Wrong(f'crates.txt: {name} uses {missing[0]}, which does not stand before it')
            seen.add(name)
        layers += [(says, crates)] if crates else []
    return layers


def rows_of(crates):
    """The crates of a layer in rows, the uppermost first: each in a row above those that it uses."""
    depth = {}
    for name, uses in crates.items():
        depth[name] = max((depth[other] + 1 for other in uses if other in depth), default=0)
    return [[name for name in crates if depth[name] == row] for row in range(max(depth.values()), -1, -1)]


def steps_of(text):
    """By crate, the numbers of the steps whose functions it has, as docs/STEPS.md names them."""
    steps = {}
    for number, crate in re.findall(r'^\| (\d+) \|.*?`(\w+)::step_\d+`', text, re.M):
        steps.setdefault(crate, []).append(int(number))
    return {crate: spelt(numbers) for crate, numbers in steps.items()}


def spelt(numbers):
    """1, 2, 3, 5 as "1–3, 5"."""
    runs = []
    for number in numbers:
        if runs and runs[-1][1] == number - 1:
            runs[-1][1] = number
        else:
            runs.append([number, number])
    return ', '.join(f'{a}' if a == b else f'{a}, {b}' if b == a + 1 else f'{a}–{b}' for a, b in runs)


def box_width(name, steps):
    return width_of(name, NAME, mono=True) + 2 * BESIDE + (width_of(steps, 11, bold=True) + 8 if steps else 0)


def broken(row, steps):
    """A row of boxes in as many lines as it needs: each box's name, x and width."""
    lines, x = [[]], BOXES
    for name in row:
        width = box_width(name, steps.get(name))
        if x + width > RIGHT - INSET:
            lines.append([])
            x = BOXES
        lines[-1].append((name, x, width))
        x += width + BETWEEN
    return lines


def draw_box(picture, name, x, y, width, steps):
    picture.rect(x, y, width, TALL, 'box')
    picture.text(x + BESIDE, y + TALL / 2 + 4.3, name, NAME, 'ink mono')
    if steps:
        picture.text(x + width - BESIDE, y + TALL / 2 + 4, steps, 11, 'accent bold', 'end')


def draw_rows(picture, y, rows, steps):
    """The boxes of a layer, a thin line between two rows."""
    for k, lines in enumerate(rows):
        if k:
            picture.path([(BOXES, y - ROWS / 2), (RIGHT - INSET, y - ROWS / 2)], 'cell', arrow=False)
        for line in lines:
            for name, x, width in line:
                draw_box(picture, name, x, y, width, steps.get(name))
            y += TALL + BETWEEN
        y += ROWS - BETWEEN


def draw_layer(picture, y, says, crates, steps):
    """One band: what the layer is at the left, its crates at the right. The height that it takes."""
    title, _, rest = says.rstrip('.').partition(': ')
    room = BOXES - LEFT - 2 * INSET
    heading, words = wrapped(title, 14, room, bold=True), wrapped(rest, 12, room) if rest else []
    rows = [broken(row, steps) for row in rows_of(crates)]
    boxes = sum(len(lines) * (TALL + BETWEEN) + ROWS - BETWEEN for lines in rows) - ROWS
    height = 24 + max(len(heading) * 18 + len(words) * 16, boxes)
    picture.rect(LEFT, y, RIGHT - LEFT, height, 'band', 8)
    picture.rect(LEFT, y + 10, 4, height - 20, 'accent', 2)
    below = picture.lines(LEFT + INSET, y + 26, heading, 14, 'ink bold', 18)
    picture.lines(LEFT + INSET, y + 26 + below, words, 12, 'soft', 16)
    draw_rows(picture, y + 12, rows, steps)
    return height


def draw(root):
    layers = layers_of((root / 'crates.txt').read_text())
    steps = steps_of((root / 'docs/STEPS.md').read_text())
    count = sum(len(crates) for _, crates in layers)
    picture = Picture('The layers of crates', f'{count} crates in {len(layers)} layers; each layer rests on those below it.')
    y = 18 + picture.head(f'{count} crates in {len(layers)} layers', 'A layer uses those below it, not only the next. Within a layer a crate stands in a row above those that it uses. '
                          'Numbers are the steps whose functions a crate has.')
    for k, (says, crates) in enumerate(reversed(layers)):
        if k:
            picture.path([(LEFT + 110, y - GAP + 3), (LEFT + 110, y - 3)])
        y += draw_layer(picture, y, says, crates, steps) + GAP
    return picture.checked(y - GAP + 24)
