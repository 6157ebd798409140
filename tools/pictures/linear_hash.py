"""A small file of keys under the rules of docs/SPECIFICATION.md, run by one party alone, for the picture of a split: inserts by steps 10 to 14 and splits by 15 to 22.
Every step adds a copy of the file to `seen`. `scratch` is the page that waits there to be written, `old` the first page to be given back. Damage, shortages,
deletes and other parties do not come up here; the proved index is in crates/."""
from copy import deepcopy


def table(count):
    """The first outputs of Marsaglia's xorshift32, by which keys are mixed."""
    word, words = 2463534242, []
    for _ in range(count):
        word ^= word << 13 & 0xFFFFFFFF
        word ^= word >> 17
        word ^= word << 5 & 0xFFFFFFFF
        words.append(word)
    return words


TABLE = table(1024)


def mixed(key):
    """The exclusive or of four table words, one for each byte of the key."""
    word = 0
    for row in range(4):
        word ^= TABLE[256 * row + (key >> 8 * row & 255)]
    return word


class Page:
    def __init__(self, level, keys=(), link=None):
        self.level, self.keys, self.link = level, list(keys), link


class File:
    def __init__(self, originals, capacity, primaries, overflow):
        self.originals, self.capacity, self.level, self.next = originals, capacity, 0, 0
        self.pages = {chain: Page(0) for chain in range(originals)}
        self.free = list(range(primaries, primaries + overflow))
        self.locks, self.scratch, self.old, self.seen = {}, None, None, []

    def h(self, level, key):
        return mixed(key) % (self.originals * 2 ** level)

    def address(self, key):
        """The chain of a key by level and next, and the level by which it is that chain's."""
        chain = self.h(self.level, key)
        return (self.h(self.level + 1, key), self.level + 1) if chain < self.next else (chain, self.level)

    def count(self):
        return self.originals * 2 ** self.level + self.next

    def leads_to(self, chain):
        """Whether a party can come to the chain: by the root, or by the local level of the chain that it was split from."""
        return chain < self.count() or chain in self.pages and self.pages[chain - self.originals * 2 ** self.level].level > self.level

    def found_by(self, key):
        """How a find of the key goes: the chains that it comes to, each with its lev there, and the page that has the key."""
        chain, lev = self.address(key)
        way = [(chain, lev)]
        while lev != self.pages[chain].level:
            lev += 1
            if self.h(lev, key) != chain:
                chain = self.h(lev, key)
                way.append((chain, lev))
        return way, next(page for page in self.linked(chain) if key in self.pages[page].keys)

    def linked(self, page):
        """The numbers of a page and of those that its links lead to."""
        numbers = []
        while page is not None:
            numbers.append(page)
            page = self.pages[page].link
        return numbers

    def keys(self, chain):
        return [key for page in self.linked(chain) for key in self.pages[page].keys]

    def build(self, level, keys):
        """The keys in pages taken from the free list; the primary page, which is not in the file yet."""
        parts = [keys[k:k + self.capacity] for k in range(0, len(keys), self.capacity)] or [[]]
        taken, self.free = self.free[:len(parts) - 1], self.free[len(parts) - 1:]
        for k, number in enumerate(taken):
            self.pages[number] = Page(0, parts[k + 1], taken[k + 1] if k + 1 < len(taken) else None)
        return Page(level, parts[0], taken[0] if taken else None)

    def did(self, step):
        before, self.seen = self.seen, []
        self.seen = before + [(step, deepcopy(self))]

    def insert(self, key):
        chain, _ = self.address(key)
        self.locks = {chain: 'S'}
        before = self.linked(chain)
        self.scratch, self.old = self.build(self.pages[chain].level, sorted(self.keys(chain) + [key])), self.pages[chain].link
        self.did(10)
        self.pages[chain], self.scratch = self.scratch, None
        self.did(11)
        self.locks = {}
        self.did(12)
        self.give_back(chain)
        if len(self.linked(chain)) > len(before):
            self.split()

    def give_back(self, chain):
        """The old pages, where there are any, each put before the free pages in turn."""
        if self.old is None:
            return
        self.locks = {chain: 'X'}
        self.did(13)
        for number in self.linked(self.old):
            del self.pages[number]
            self.free.insert(0, number)
        self.old, self.locks = None, {}
        self.did(14)

    def split(self):
        self.locks['root'] = 'S'
        self.did(15)
        chain, other, level = self.next, self.count(), self.level + 1
        self.locks[chain] = 'S'
        self.did(16)
        keys, self.old = self.keys(chain), self.pages[chain].link
        self.scratch = self.build(level, [key for key in keys if self.h(level, key) == chain])
        self.pages[other] = self.build(level, [key for key in keys if self.h(level, key) != chain])
        self.did(17)
        self.pages[chain], self.scratch = self.scratch, None
        self.did(18)
        del self.locks[chain]
        self.did(19)
        self.move_root()
        self.give_back(chain)

    def move_root(self):
        self.next = (self.next + 1) % (self.originals * 2 ** self.level)
        self.did(20)
        self.level += 1 if self.next == 0 else 0
        self.did(21)
        self.locks = {}
        self.did(22)
