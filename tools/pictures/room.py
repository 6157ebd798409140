"""Whether the words of a picture have room: refused where they run into one another, over the edge of a box, or out of
the picture."""
from collections import namedtuple

from wrong import Wrong

Place = namedtuple('Place', 'left top right bottom words')
# What words keep clear at a picture's sides, and of other words beside them; what two places may share; how high
# capitals are above the line, by the size.
MARGIN, CLEAR, SLACK, CAPITALS = 12, 4, 0.5, 0.73
SHARE = {'start': 0, 'middle': 0.5, 'end': 1}


def meet(a, b, clear=0):
    """Whether two places share more than a line, or come closer than asked beside one another."""
    beside = a.left < b.right + clear - SLACK and b.left < a.right + clear - SLACK
    return beside and a.top < b.bottom - SLACK and b.top < a.bottom - SLACK


def within(a, b):
    upright = b.top <= a.top + SLACK and a.bottom <= b.bottom + SLACK
    return upright and b.left <= a.left + SLACK and a.right <= b.right + SLACK


class Room:
    """Where the words and the boxes of a picture are."""
    def __init__(self):
        self.texts, self.boxes = [], []

    def box(self, x, y, width, height):
        self.boxes.append(Place(x, y, x + width, y + height, ''))

    def text(self, x, y, words, length, size, anchor):
        left = x - length * SHARE[anchor]
        self.texts.append(Place(left, y - CAPITALS * size, left + length, y, words))

    def check(self, width):
        for k, text in enumerate(self.texts):
            if text.left < MARGIN or text.right > width - MARGIN:
                raise Wrong(f'"{text.words}" runs out of the picture')
            for other in self.texts[:k]:
                if meet(text, other, CLEAR):
                    raise Wrong(f'"{text.words}" runs into "{other.words}"')
            if any(meet(text, box) and not within(text, box) for box in self.boxes):
                raise Wrong(f'"{text.words}" runs over the edge of a box')
