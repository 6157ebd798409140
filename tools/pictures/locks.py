"""Locks as small plates: the colour and the letter say the mode, the form says whether the lock is held, requested or given up."""
from widths import width_of

MODE = {'R': 'read', 'S': 'selective', 'X': 'exclusive'}
SIZE, TALL = 11, 17


def modes_of(lock):
    """The modes that a plate shows: one, or two where it is own mode or a mode that is turned."""
    return [MODE[letter] for letter in lock.split(' ', 1)[1] if letter in MODE]


def plate_width(words):
    return width_of(words, SIZE, bold=True) + 11


def plate(picture, x, y, lock, form='held'):
    """One plate; its width. A lock requested has a broken edge and no ground, one given up a minus; two modes share a plate half and half."""
    words = {'held': '', 'asked': '+ ', 'given': '− '}[form] + lock
    width, modes = plate_width(words), modes_of(lock)
    alone = len(modes) == 1
    if form != 'asked':
        picture.rect(x, y, width, TALL, f'{modes[0]}-half', 8)
    if form != 'asked' and not alone:
        picture.rect(x + width / 2, y, width / 2, TALL, f'{modes[1]}-half', 8)
        picture.rect(x + width / 2, y, 9, TALL, f'{modes[1]}-half', 0)
    picture.rect(x, y, width, TALL, (f'{modes[0]}-edge' if alone else 'line') + (' dashed' if form == 'asked' else ''), 8)
    picture.text(x + width / 2, y + TALL / 2 + 4, words, SIZE, f'{modes[0]}-ink bold' if alone else 'ink bold', 'middle')
    return width
