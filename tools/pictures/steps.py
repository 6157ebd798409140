"""The thirty steps as an automaton: a lane a group of steps, a box a step with the words of docs/STEPS.md and its locks, an arrow wherever one step leads to another."""
from locks import TALL, plate, plate_width
from step_table import read_steps
from svg import Picture
from widths import width_of, wrapped
from wrong import Wrong

# Lane: its title, who goes through it, its column and the row of its first step.
LANES = {
    'locate': ('Locate', 'find, insert and delete', 0, 0), 'find': ('Find', 'find alone', 1, 0), 'change': ('Change', 'insert and delete', 1, 2),
    'split': ('Split', 'an insert that made its chain longer', 2, 0), 'merge': ('Merge', 'a delete that emptied its chain', 3, 0),
}
COLUMNS, WIDE, INSET = (36, 286, 528, 762), 208, 8
WIDTH = 1000
WORDS, PITCH, SIZE = WIDE - 41, 14, 11.5
TOP, GAP, HEAD = 221, 24, 66
DECISIVE = {6, 10, 11}


def plates_of(step):
    """The plates of a step: lock and form."""
    given = step.gives.split(', ') if step.gives else []
    turned = {lock.split(' ')[0]: lock for lock in given if '→' in lock}
    held = [turned.get(lock.split(' ')[0], lock) for lock in step.holds.split(', ') if lock]
    return [(lock, 'given' if lock in given and '→' not in lock else 'held') for lock in held] + [(lock, 'asked') for lock in step.asks.split(', ') if lock]


def plate_lines(step):
    """The plates in lines that fit into a box, beside the hook where there is one."""
    lines, width, room = [[]], 0, WIDE - (40 if step.withdrawn else 12)
    for lock, form in plates_of(step):
        wide = plate_width(('' if form == 'held' else '+ ') + lock) + 4
        if width + wide > room:
            lines.append([])
            width = 0
        lines[-1].append((lock, form))
        width += wide
    return lines if lines[0] else []


def box_height(step):
    lines = max(len(wrapped(step.words, SIZE, WORDS)), 3 if step.ends else 1)
    return 16 + lines * PITCH + len(plate_lines(step)) * (TALL + 3)


class Places:
    """Where each step's box is: rows are as high as their highest box."""
    def __init__(self, steps):
        self.steps, self.row, self.lane = steps, {}, {step.number: step.lane for step in steps}
        for lane, (_, _, _, first) in LANES.items():
            for k, step in enumerate(step for step in steps if step.lane == lane):
                self.row[step.number] = first + k
        self.tall = [max(box_height(step) for step in steps if self.row[step.number] == row) for row in range(8)]
        self.top = [TOP + sum(self.tall[:row]) + GAP * row for row in range(8)]

    def box(self, number):
        """Left, top, right and bottom of a step's box."""
        x, row = COLUMNS[LANES[self.lane[number]][2]], self.row[number]
        return x, self.top[row], x + WIDE, self.top[row] + self.tall[row]

    def middle(self, number):
        return (self.box(number)[1] + self.box(number)[3]) / 2

    def bottom(self):
        return self.top[-1] + self.tall[-1]


def draw_lane(picture, places, lane):
    title, who, column, first = LANES[lane]
    numbers = [step.number for step in places.steps if step.lane == lane]
    x, y, bottom = COLUMNS[column] - INSET, places.box(numbers[0])[1] - HEAD, places.box(numbers[-1])[3] + 10
    picture.rect(x, y, WIDE + 2 * INSET, bottom - y, 'band', 8)
    picture.text(x + 12, y + 22, title, 15, 'ink bold')
    picture.text(x + 12, y + 38, who, 11.5, 'soft')


def draw_box(picture, places, step):
    x, y, right, bottom = places.box(step.number)
    picture.rect(x, y, right - x, bottom - y, 'box')
    picture.circle(x + 17, y + 17, 11, 'accent' if step.number in DECISIVE else 'number')
    picture.text(x + 17, y + 21, str(step.number), 12, 'on-number bold', 'middle')
    picture.lines(x + 34, y + 19, wrapped(step.words, SIZE, WORDS), SIZE, 'ink', PITCH)
    lines = plate_lines(step)
    for k, line in enumerate(lines):
        at = x + 6
        for lock, form in line:
            at += plate(picture, at, bottom - 5 - (len(lines) - k) * (TALL + 3) + 2, lock, form) + 4
    if step.ends:
        draw_end(picture, x + 17, y + 40)
    if step.withdrawn:
        draw_back(picture, right - 10, bottom - 10)


def draw_end(picture, x, y):
    picture.circle(x, y, 7, 'ring')
    picture.circle(x, y, 3.5, 'accent')


def draw_back(picture, x, y):
    """A hook that leads back: its lower right corner is at x and y."""
    picture.path([(x, y - 10), (x, y), (x - 17, y)])


def straight(step, to, places):
    """An arrow down to the next box of the lane."""
    a, b = places.box(step), places.box(to)
    return [((a[0] + a[2]) / 2, a[3]), ((b[0] + b[2]) / 2, b[1])]


def routes(places):
    """The arrows that are not straight down, each with the transitions that it stands for."""
    box, middle = places.box, places.middle
    left, first, owed, bus = box(1)[0] - 20, box(9)[0] - 22, box(15)[0] - 17, box(15)[1] - 17
    under, side = middle(22), box(10)[0] - 13
    start = (first, middle(6) - 12)
    return [
        ([(8, 6)], [(box(8)[0], middle(8)), (left, middle(8)), (left, middle(6)), (box(6)[0], middle(6))]),
        ([(6, 9)], [(box(6)[2], start[1]), start, (first, middle(9)), (box(9)[0], middle(9))]),
        ([(6, 10)], [(first, middle(10) - 10), (box(10)[0], middle(10) - 10)]),
        ([(9, 9)], [(box(9)[2] - 60, box(9)[3]), (box(9)[2] - 60, box(9)[3] + 13), (box(9)[2] - 30, box(9)[3] + 13), (box(9)[2] - 30, box(9)[3])]),
        ([(10, 12)], [(box(10)[0], middle(10) + 14), (side, middle(10) + 14), (side, middle(12)), (box(12)[0], middle(12))]),
        ([(12, 15), (12, 23)], [(box(12)[2], middle(12)), (owed, middle(12)), (owed, bus), (box(23)[0] + 40, bus), (box(23)[0] + 40, box(23)[1])]),
        ([(14, 15), (14, 23)], [(box(14)[2], middle(14)), (owed, middle(14)), (owed, middle(12) + 1), (owed, middle(12))]),
        ([], [(box(15)[0] + 40, bus), (box(15)[0] + 40, box(15)[1])]),
        ([(22, 13)], [(box(22)[0], under), (side, under), (side, middle(13) + 12), (box(13)[0], middle(13) + 12)]),
    ]


def draw_arrows(picture, places):
    ways = routes(places)
    drawn = {pair for pairs, _ in ways for pair in pairs}
    for step in places.steps:
        for to in step.to:
            if to == step.number + 1 and places.lane[to] == step.lane:
                picture.path(straight(step.number, to, places))
            elif (step.number, to) not in drawn:
                raise Wrong(f'the picture of the steps has no arrow from {step.number} to {to}')
    for pairs, points in ways:
        picture.path(points, arrow=(14, 15) not in pairs)
    x, _, right, _ = places.box(14)
    picture.text((x + right) / 2, places.middle(22) - 6, 'old pages are left', 11, 'soft', 'middle')
    for to, words in ((15, 'owes a split'), (23, 'owes a merge')):
        picture.text(places.box(to)[0] + 48, places.box(to)[1] - 5, words, 11, 'soft')


def draw_meanings(picture, y, meanings):
    """A line of plates, each with what it means."""
    x = 28
    for lock, form, words in meanings:
        x += plate(picture, x, y, lock, form) + 6
        picture.text(x, y + 13, words, 12, 'soft')
        x += width_of(words, 12) + 18


def draw_legend(picture):
    """What colours and marks mean."""
    picture.text(28, 36, 'The thirty steps, and the locks at each', 17, 'ink bold')
    draw_meanings(picture, 50, [('root R', 'held', 'read'), ('root S', 'held', 'selective'), ('root X', 'held', 'exclusive'),
                                ('chain R/S', 'held', 'read for a find, else selective'), ('root X → S', 'held', 'turned by the step')])
    draw_meanings(picture, 75, [('root S', 'held', 'held when the step is due'), ('root S', 'asked', 'requested by it: granted, or the step waits'),
                                ('root S', 'given', 'given up by it')])
    draw_end(picture, 35, 109)
    ends = 'may end the operation; no lock is kept then'
    picture.text(48, 113, ends, 12, 'soft')
    x = 48 + width_of(ends, 12) + 26
    picture.circle(x, 109, 7, 'accent')
    picture.text(x + 13, 113, 'where an operation can take effect: a find at its last 6, a change at 10 or 11', 12, 'soft')
    draw_back(picture, 43, 137)
    picture.text(54, 138, 'may be withdrawn before it: all locks held are given up, at 11 the pages built go back, and the party is idle', 12, 'soft')


def draw(root):
    places = Places(read_steps(root))
    picture = Picture('The thirty steps and the locks at each', 'Find goes by steps 1 to 9, insert by 1 to 8 and 10 to 22, delete by 1 to 8, 10 to 14 and 23 to 30. An operation can be withdrawn before 1 to 8, 10 and 11.', WIDTH)
    draw_legend(picture)
    for lane in LANES:
        draw_lane(picture, places, lane)
    for step in places.steps:
        draw_box(picture, places, step)
    draw_arrows(picture, places)
    return picture.checked(places.bottom() + 34)
