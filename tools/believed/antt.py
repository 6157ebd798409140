"""An antt file read as text: its words, its declarations, and the names that its `use` lines bring in."""
import re
from dataclasses import dataclass

WORD = re.compile(r'''(?P<gap>\s+|--[^\n]*)|(?P<text>"(?:\\.|[^"\\])*")
    |(?P<field>\.[^\s(){}.;,@"]+)|(?P<mark>[(){};,@.])|(?P<name>[^\s(){}.;,@"]+)''', re.X)
MARKS = r'(?:(?:unfoldable|abbrev|pub)\s+)*'
SIGNATURE = re.compile(rf'({MARKS})(\S+)\s*(?:\{{[^}}:]*\}})?\s*:(?=\s|$)')
STRUCTURE = re.compile(rf'({MARKS})(record|data)\s+([^\s({{]+)')
SECTION = re.compile(r'module _\s')
# Lines that declare no name of their own.
OTHER = re.compile(r'(?:pub\s+)?(?:mod|infix[lr]?|open|ruleset)\s')
USE = re.compile(rf'{MARKS}use\s')
USE_NAMES = re.compile(rf'{MARKS}use\s+(\S+?)\.\{{(.*)\}}\s*$', re.S)
USE_MODULE = re.compile(rf'{MARKS}use\s+(\S+)(?:\s+as\s+(\S+))?\s*$')
# What a record has, or the constructors of a data type.
MEMBER = re.compile(r'^  (?:pub\s+)?(\S[^:(\n]*?)\s+:\s', re.M)


@dataclass(frozen=True)
class Word:
    """A word of antt: a name, a field (`.root` behind a bracket), a path (`.ended` right behind `Made`, `.root` right
    behind `m`), a text or a mark."""
    kind: str
    text: str


@dataclass(frozen=True)
class Declaration:
    """A declaration as it stands in a file. A record's head is all of it, a definition's its signature; the clauses
    say what a definition is."""
    kind: str
    name: str
    file: str
    line: int
    marks: tuple
    comment: tuple
    sections: tuple
    head: str
    clauses: tuple = ()


def words(text):
    """The words of a text, without its comments."""
    found, end = [], None
    for match in WORD.finditer(text):
        kind = match.lastgroup
        if kind == 'gap':
            continue
        tight = found and end == match.start() and found[-1].kind in ('name', 'path')
        if kind == 'field' and tight and not match[0][1:].isdigit():
            kind = 'path'
        found.append(Word(kind, match[0]))
        end = match.end()
    return found


def depth(line):
    """How many spaces a line begins with."""
    return len(line) - len(line.lstrip())


def goes_on(first, line):
    """Whether a line belongs to the block that another begins: empty, deeper, or a bracket that closes it."""
    return not line.strip() or depth(line) > depth(first) or depth(line) == depth(first) and line.strip()[0] in '})]'


def blocks(lines):
    """The first line of each block and the one behind its last: a line with the deeper ones below it. A section's head
    is a block of its own."""
    at = 0
    while at < len(lines):
        end, bare = at + 1, lines[at].strip()
        if SECTION.match(bare):
            while not lines[end - 1].rstrip().endswith('where'):
                end += 1
        elif bare and not bare.startswith('--'):
            while end < len(lines) and goes_on(lines[at], lines[end]):
                end += 1
            while not lines[end - 1].strip():
                end -= 1
        yield at, end
        at = end


def declared(file, at, block, comment, sections):
    """The declaration that a block begins, or None."""
    bare, place = block.strip(), {'file': file, 'line': at + 1, 'comment': tuple(comment), 'sections': tuple(sections)}
    if structure := STRUCTURE.match(bare):
        return Declaration(structure[2], structure[3], marks=tuple(structure[1].split()), head=block, **place)
    if (signature := SIGNATURE.match(bare)) and not USE.match(bare) and not OTHER.match(bare):
        return Declaration('definition', signature[2], marks=tuple(signature[1].split()), head=block, **place)
    return None


def with_clause(declaration, clause):
    """The declaration with one clause more."""
    return Declaration(**{**declaration.__dict__, 'clauses': (*declaration.clauses, clause)})


def declarations(file, text):
    """The declarations of a file in order; what is no declaration and no `use` is a clause of the one before it."""
    lines, found, comment, sections = text.split('\n'), [], [], []
    for at, end in blocks(lines):
        block, bare = '\n'.join(lines[at:end]), lines[at].strip()
        if not bare:
            comment = []
            continue
        if bare.startswith('--'):
            comment.append(bare)
            continue
        sections = [section for section in sections if depth(section) < depth(lines[at])]
        if SECTION.match(bare):
            sections.append(block)
        elif declaration := declared(file, at, block, comment, sections):
            found.append(declaration)
        elif found and not USE.match(bare) and not OTHER.match(bare):
            found[-1] = with_clause(found[-1], block)
        comment = []
    return found


def uses(text):
    """What the `use` lines of a file bring in: names, each with its module and its name there; and modules, by the
    names that the file gives them."""
    names, modules, lines = {}, {}, text.split('\n')
    for at, end in blocks(lines):
        line = re.sub(r'--[^\n]*', '', '\n'.join(lines[at:end])).strip()
        if several := USE_NAMES.match(line):
            for name in filter(None, map(str.strip, several[2].split(','))):
                real, _, new = name.partition(' as ')
                names[(new or real).strip()] = (several[1], real.strip())
        elif module := USE_MODULE.match(line):
            modules[module[2] or module[1].split('.')[-1]] = module[1]
    return names, modules


def members(head):
    """The fields of a record, or the constructors of a data type, of its text or of a part of it."""
    return [name for names in MEMBER.findall(re.sub(r'--[^\n]*', '', head)) for name in names.split()]


def parts(head):
    """A record's text, field by field."""
    return re.split(r'\n(?=  \S)', head)


def sides(clause):
    """The two sides of a clause: what stands before the first `=` outside brackets, and what stands behind it."""
    inside = 0
    for at, letter in enumerate(clause):
        inside += (letter in '({') - (letter in ')}')
        if inside == 0 and letter == '=' and clause[at - 1].isspace() and clause[at + 1].isspace():
            return clause[:at], clause[at + 1:]
    return clause, ''


def bound(text):
    """The names that a text binds: in `(x y : A)`, behind λ, and by `let`."""
    found, list_of = set(), words(text)
    for at, word in enumerate(list_of):
        if word.text not in ('(', '{', 'λ', 'let'):
            continue
        names = []
        for following in list_of[at + 1:]:
            if following.kind != 'name' or following.text in (':', '='):
                break
            names.append(following.text)
        closed = list_of[at + 1 + len(names):][:1]
        ends = closed[0].text if closed else ''
        if word.text == 'λ' or ends == ':' or word.text == 'let' and ends == '=':
            found |= set(names)
    return found
