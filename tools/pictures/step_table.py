"""The thirty steps as the picture has them, read from the definitions: of each its lane, the locks held when its turn comes, those that it requests and gives up,
where it leads (row_table), whether an operation can be withdrawn before it (is_decided), and its words (docs/STEPS.md). What docs/SPECIFICATION.md says of the next
steps is read beside it, and a difference is an error.
A lock is a word and a mode: R read, S selective, X exclusive; R/S is an operation's own mode, read for a find and selective otherwise."""
import re
from collections import namedtuple
from wrong import Wrong

Step = namedtuple('Step', 'number lane holds asks gives to ends withdrawn words')
# The names that the definitions have, and what the picture says: who has a step, lists of locks, locks requested, next steps.
LANES = {'everybody': 'locate', 'finds': 'find', 'changes': 'change', 'inserts': 'split', 'deletes': 'merge'}
CLAIMS = {
    'no_lock': '', 'on_root root_read': 'root R', 'on_root_and_chain': 'root R, chain R/S', 'on_chain': 'chain R/S', 'on_other': 'other R/S',
    'on_both': 'other R/S, chain R/S', 'on_chain_exclusive': 'chain X', 'on_root root_selective': 'root S', 'splitting': 'root S, chain S',
    'on_root root_exclusive': 'root X', 'merging_target': 'root X, chain X', 'merging root_exclusive': 'root X, chain X, other X',
    'merging root_selective': 'root S, chain X, other X', 'λ p. chain_selective p ∷ []': 'chain S',
}
WANTS = {
    'wants_none': '', 'wants_root root_read': 'root R', 'wants_root root_selective': 'root S', 'wants_root root_exclusive': 'root X', 'wants_chain': 'chain R/S',
    'wants_chain_exclusive': 'chain X', 'wants_next': 'chain S', 'wants_target': 'chain X', 'wants_other': 'other X',
}
TURNS = {'none': '', 'some root_selective': ' → S'}
NEXT = {'to_seven_or_on': (7, 9, 10)}


def words_of_rows(text):
    """What docs/STEPS.md says of each step, by number."""
    return {int(number): words for number, words in re.findall(r'^\| (\d+) \| ([^|]+) \|', text, re.M)}


def next_steps(text):
    """The next step numbers and whether the step may end, by number, from the tables of docs/SPECIFICATION.md."""
    section = re.search(r'^## The thirty steps$(.*?)^### Decisive steps$', text, re.M | re.S)
    if not section:
        raise Wrong('docs/SPECIFICATION.md has no section "The thirty steps" before "Decisive steps"')
    found, number = {}, None
    for first, last in re.findall(r'^\| (\d*) ?\|.*\| ([^|]*) \|$', section[1], re.M):
        number = int(first) if first else number
        words = re.sub(r'(owed is|as at|is not) \d+|by owed: 1, 2, other', '', last)
        if number:
            to, ends = found.get(number, (set(), False))
            found[number] = (to | {int(word) for word in re.findall(r'\d+', words)}, ends or 'done' in words)
    return found


def known(names, name):
    """What the picture says for a name of the definitions."""
    if name not in names:
        raise Wrong(f'row_table has {name}, which the picture of the steps does not know')
    return names[name]


def shown(locks, lane):
    """Locks as a lane names them: in its operations' own mode, and a merge's two chains by what they are to it."""
    mode = {'find': 'R', 'change': 'S'}.get(lane, 'R/S')
    return locks.replace('chain', 'target').replace('other', 'partner') if lane == 'merge' else locks.replace('R/S', mode)


def columns(text):
    """Of each row of row_table, by number: its other columns, without the brackets round them."""
    rows = {}
    for number, rest in re.findall(r'^ *∷ row (\d+) step\d+ (.*)$', text, re.M):
        rows[int(number)] = [inner or word for inner, word in re.findall(r'\(((?:[^()]|\([^()]*\))*)\)|(\S+)', rest)]
    if not rows:
        raise Wrong('no row_table in specs/Steps/Table.antt')
    return rows


def decided(text):
    """A test of a step number, from is_decided: whether the decisive step is taken before it, a find's at one number, a change's from one on."""
    definition = re.search(r'^is_decided p =\n(.*?)\n\n', text, re.M | re.S)
    find, change = (re.search(pattern, definition[1] if definition else '') for pattern in (r'eqb p\.step (\d+)', r'leb (\d+) p\.step'))
    if not (find and change):
        raise Wrong('no is_decided in specs/Withdraw.antt that the picture of the steps can read')
    return lambda number: number == int(find[1]) or number >= int(change[1])


def step_of(number, row, taken, words):
    """One step. Where it can only end, it gives up all that it holds."""
    who, holds, wants, gives, turns, leads = row[:6]
    lane, held = known(LANES, who), known(CLAIMS, holds)
    to = NEXT[leads] if leads in NEXT else tuple(map(int, re.findall(r'\d+', leads)))
    given = known(CLAIMS, gives) + known(TURNS, turns) if set(to) != {0} else held
    return Step(number, lane, shown(held, lane), shown(known(WANTS, wants), lane), shown(given, lane), tuple(n for n in to if n), 0 in to, not taken(number), words)


def read_steps(root):
    """The steps in the order of their numbers; refused where docs/STEPS.md or docs/SPECIFICATION.md says otherwise."""
    specs = root / 'crates/model/specs'
    rows, taken = columns((specs / 'Steps/Table.antt').read_text()), decided((specs / 'Withdraw.antt').read_text())
    words = words_of_rows((root / 'docs/STEPS.md').read_text())
    for number in sorted(rows.keys() ^ words.keys()):
        raise Wrong(f'step {number} has no row in ' + ('docs/STEPS.md' if number in rows else 'row_table'))
    steps = [step_of(number, row, taken, words[number]) for number, row in sorted(rows.items())]
    after = next_steps((root / 'docs/SPECIFICATION.md').read_text())
    for step in steps:
        to, ends = after.get(step.number, (set(), False))
        if (set(step.to), step.ends) != (to, ends):
            raise Wrong(f'step {step.number} leads to {sorted(to)} in docs/SPECIFICATION.md and to {list(step.to)} in row_table, or ends in one of them only')
    return steps
