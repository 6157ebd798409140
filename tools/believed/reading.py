"""What one must read to believe a theorem: its statement, and every definition that it goes by."""
import antt
from tree import Kit

TYPES = ('struct', 'enum', 'type')


def is_whole(found):
    """Whether a declaration is read whole: a definition is, of a lemma the statement alone."""
    return found.kind != 'definition' or '/specs/' in found.file or bool({'abbrev', 'unfoldable'} & set(found.marks))


def label(words, at):
    """Whether a word names a field or an argument that is given a value: `record { root = r }`."""
    return 0 < at < len(words) - 1 and words[at - 1].text in '{;' and words[at + 1].text == '='


def mentions(tree, place, text, variables):
    """What a text of a file names, in order; its variables aside."""
    words = antt.words(text)
    for at, word in enumerate(words):
        if word.kind != 'name' or label(words, at):
            continue
        path = []
        while at + 1 + len(path) < len(words) and words[at + 1 + len(path)].kind == 'path':
            path.append(words[at + 1 + len(path)].text[1:])
        of_module = path and word.text in tree.file(place).modules
        if (of_module or word.text not in variables) and (found := tree.meant(place, word.text, path)):
            yield found


def is_constructor(found, name):
    """Whether what a name means, on the left of a clause, is a constructor and not a variable's name."""
    return isinstance(found, Kit) or getattr(found, 'kind', '') in ('data', *TYPES) and found.name != name


def in_clause(tree, place, clause, variables):
    """What a clause names: the constructors on its left, and all on its right but its own variables."""
    left, right = antt.sides(clause)
    named = {word.text: tree.meant(place, word.text, []) for word in antt.words(left) if word.kind == 'name'}
    taken = {name for name, found in named.items() if not is_constructor(found, name)}
    inner = variables | taken | antt.bound(right)
    yield from mentions(tree, place, left, inner)
    yield from mentions(tree, place, right, inner)


def in_structure(tree, found, variables):
    """What a record or a data type names. A field is known to those behind it."""
    known = variables | antt.bound(found.head) | {found.name}
    if found.kind == 'data':
        yield from mentions(tree, found.file, found.head, known | set(antt.members(found.head)))
        return
    for part in antt.parts(found.head):
        known |= set(antt.members(part))
        yield from mentions(tree, found.file, part, known)


def needs(tree, found):
    """What one must know to read a declaration."""
    if found.kind in TYPES:
        return tree.types_named_in(found)
    variables, needed = set(), []
    for section in found.sections:
        variables |= antt.bound(section)
        needed += mentions(tree, found.file, section, variables)
    if found.kind != 'definition':
        return [*needed, *in_structure(tree, found, variables)]
    needed += mentions(tree, found.file, found.head, variables | antt.bound(found.head) | {found.name})
    for clause in found.clauses if is_whole(found) else ():
        needed += in_clause(tree, found.file, clause, variables | {found.name})
    return needed


def closure(tree, theorems):
    """All that one must read, each before what goes by it, the theorems among them; and the names of the kit."""
    order, kit, seen = [], set(), set()

    def visit(found):
        if isinstance(found, Kit):
            kit.add(found)
        elif found not in seen:
            seen.add(found)
            for each in needs(tree, found):
                visit(each)
            order.append(found)

    for theorem in theorems:
        visit(theorem)
    return order, kit


def shown(found):
    """The lines of a declaration that are printed: comment, sections, and the statement or the whole."""
    if found.kind in TYPES:
        return [*found.comment, *found.text.split('\n')]
    texts = [*found.sections, found.head, *(found.clauses if is_whole(found) else ())]
    return [*found.comment, *(line for text in texts for line in text.split('\n'))]


def counted(lines):
    """How many of the lines are neither empty nor comments."""
    return sum(bool(line.strip()) and not line.strip().startswith(('--', '//')) for line in lines)
