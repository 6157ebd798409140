"""The declarations of the repository, found by the names that a file has for them."""
import re
from dataclasses import dataclass
from functools import cached_property, lru_cache

import antt
import sources

# A module of the repository or of a crate of the kit: the crate, specs or proofs, and the file below that.
MODULE = re.compile(r'Rattle\.(\w+)\.(specs|proofs)(?:\.(.*))?$')


@dataclass(frozen=True)
class Kit:
    """A name that the kit declares."""
    module: str
    name: str


def dotted(found):
    """A declaration's crate, file and name, with dots between them."""
    _, crate, _, *below = found.file.removesuffix('.antt').split('/')
    return '.'.join([crate, *below, found.name])


class File:
    """One antt file: its declarations, by their names and those of constructors, and what its `use` lines bring in."""

    def __init__(self, place, text):
        self.declarations = antt.declarations(place, text)
        self.names, self.modules = antt.uses(text)
        types = [found for found in self.declarations if found.kind == 'data']
        made = {member: found for found in types for member in antt.members(found.head)}
        self.own = {**made, **{found.name: found for found in self.declarations}}

    @cached_property
    def operators(self):
        """For each word of an operator, as ≡ of ◌≡◌, the operator's name."""
        return {part: name for name in [*self.names, *self.own] if '◌' in name for part in name.split('◌') if part}


class Tree:
    """All files of the repository, each read once it is asked for."""

    def __init__(self, root):
        self.root = root
        rows = re.findall(r'^(\w+)(?: [\w=+]+)*:(.*)$', self.text(root / 'crates.txt'), re.M)
        self.below = {crate: needs.split() for crate, needs in rows}
        self.types = {}
        for crate in self.below:
            for path in sorted((root / 'crates' / crate / 'src').rglob('*.rt')):
                found = sources.types(crate, self.place(path), self.text(path))
                self.types |= {(crate, each.name): each for each in found}

    def place(self, path):
        """A path as it is printed: from the repository on."""
        return str(path.relative_to(self.root))

    @staticmethod
    def text(path):
        return path.read_text(encoding='utf-8')

    @lru_cache(maxsize=None)
    def file(self, place):
        return File(place, self.text(self.root / place))

    def in_module(self, module, name):
        """What a module has by this name: a declaration, a type of a source or a name of the kit."""
        if not (parts := MODULE.match(module)) or parts[1] not in self.below:
            return Kit(module, name)
        crate, part, rest = parts[1], parts[2], parts[3] or 'Lib'
        if rest.startswith('declared.'):
            return self.types[crate, re.search(r'\.([A-Z]\w*)', rest)[1]]
        found = self.in_file(f"crates/{crate}/{part}/{rest.replace('.', '/')}.antt", name)
        if found is None:
            raise LookupError(f'{module} has no {name}')
        return found

    def in_file(self, place, name):
        """What a name without a path means in a file, or None."""
        file = self.file(place)
        if name in file.own:
            return file.own[name]
        return self.in_module(*file.names[name]) if name in file.names else None

    def meant(self, place, word, path):
        """What a word of a file means, with the path behind it (`Made.ended`), or None where it is a variable's."""
        file = self.file(place)
        if path and word in file.modules:
            return self.in_module('.'.join([file.modules[word], *path[:-1]]), path[-1])
        return self.in_file(place, word) or self.in_file(place, file.operators.get(word, word))

    def types_named_in(self, found):
        """The types that a type's fields have, of its crate or of one below it."""
        crates = [found.crate, *self.below[found.crate]]
        places = [(crate, name) for name in sources.named_in(found) for crate in crates if (crate, name) in self.types]
        return [self.types[place] for place in places]

    def called(self, asked):
        """The declarations of a name; crate and file before it, with dots between them, tell several apart."""
        name = re.escape(asked.split('.')[-1])
        line = re.compile(rf'^\s*{antt.MARKS}(?:(?:record|data)\s+)?{name}\s', re.M)
        paths = [path for part in ('specs', 'proofs') for path in sorted(self.root.glob(f'crates/*/{part}/**/*.antt'))]
        for path in paths:
            if line.search(self.text(path)):
                found = self.file(self.place(path)).declarations
                yield from (each for each in found if f'.{dotted(each)}'.endswith(f'.{asked}'))
