"""Must-fail edits: what one changes, and how it was refused, from what the check said.

- values: numbers or constructors are named at which a goal fails, or two sides compute to different ones;
- terms: two sides, computed as far as they go or compared part by part, are different terms, and a definition that stays shut is not all in which they differ;
- goal: what a function ensures, a callee requires or a loop keeps is no longer proved, no name is gone, and the search for a proof found no values either;
- text: a proof no longer goes through, and no such line says why: a claim of another form, a rewriting step that finds no place;
- no fact: a field, a clause or a name is gone, the source does not compile, or a limit of the prover's own was met.

`said` goes by the one line that `rt ci` and `rt must-fail` print of an edit, `judged` by all that a check of it says (tests/trying.py)."""
import re
from itertools import zip_longest
from pathlib import Path

ROOT = Path(__file__).resolve().parent.parent
# A text that no longer fits.
UNFIT = re.compile(r'has no field|missing field|has no clause|has no `|not in scope|unknown name')
SAID = re.compile(r'^(?:\./)?(\S+?):(\d+):\d+: error: (.*(?:\n  .*)*)', re.M)
# A goal that is open, with what is known of it; and one of which values are known at which it fails.
OPEN = re.compile(r'^note: (?:\./)?(\S+?):(\d+):\d+: it is not proved that ([^\n]*)', re.M)
FAILS_AT = re.compile(r'allow values at which this goal is false')
MAY_BE_FALSE = re.compile(r'^note: `[^`]*` of (?:\./)?(\S+) may be false: the known facts allow ', re.M)
# What rt prints of an edit, and what it says where no contract was tried.
LINE = re.compile(r'^(?:rt: )?must-fail (\w+)/([\w.-]+)\.edit: (.*)', re.M)
# The kinds that are facts.
FACTS = ('values', 'terms', 'goal')
REFUSED = 'refused, as it must be'
NAMES_ALONE, LIMIT = ' (only because a proof file names ', ' (only by a limit '
COUNTEREXAMPLE = re.compile(r'`omega`: the goal does not follow from what it read\. All of that holds, and the goal fails(?:, at `.*?`\s+= \d+|\. It read)', re.S)
# What a type asked for has and a type at hand has in its place.
DIFFER = re.compile(r'the two (?:types|indices|sides) (?:first differ where one has|differ only where one has|are) `(.*?)`\s*'
                    r'\((?:expected|the constructor\'s|left)\)(?:, right after `.*?`|, at the start)?'
                    r',?\s*and (?:the other has )?`(.*?)`\s*\((?:found|the expected type\'s|right)\)', re.S)
STATED = re.compile(r'expected type `(.*?)`,?\s*but this has type `(.*?)`(?:\n|$)', re.S)
LEFT = re.compile(r'`(?:rw|simp)` has no last argument, so what it leaves must be a path whose two ends are equal, and `.*?`\s*is none', re.S)
# How these begin, in the line that rt prints.
COUNTEREXAMPLE_BEGINS = re.compile(r'`omega`: the goal does not follow from what it read\. All of that holds')
FAILS_AT_BEGINS = re.compile(r'it is not proved that .*; the facts known there allow')
DIFFERS_BEGINS = re.compile(r'(?:computed as far as they go|compared part by part|as printed), the two (?:types|indices|sides) (?:first differ where one has|differ only where one has|are) `')
LEFT_BEGINS = re.compile(r'give a proof of that as the last argument, `(?:rw|simp) ')
SHUT = re.compile(r'^  ((?:`\S+`(?:, )?)+) do(?:es)? not unfold here', re.M)
TRIED = re.compile(r'trial runs? of this declaration was refused too.*?had the line `unfolding (.*?)`', re.S)
# The same where a name could not be written there.
TRIED_TOO = re.compile(r'That run had (`.*?) unfolded too')
TOKEN = re.compile(r'[^\s(){};,]+')
# Heads of a claim: one of these in the place of something else is a claim of another form.
CLAIM = re.compile(r'(?:.*\.)?(?:Path|◌?≡◌?|◌?≤◌?|◌?<◌?|Σ|◌?×◌?|◌?⊎◌?|⊥|→)$|.*\.Lts\..*|:$')


def constructors():
    """The names of the constructors that the crates declare, and of those of the kit for tests, lists and numbers."""
    found = {'true', 'false', '[]', '◌∷◌', '∷', 'none', 'some', 'tt', 'inl', 'inr', 'zero', 'suc', 'record'}
    for file in ROOT.glob('crates/*/specs/**/*.antt'):
        for body in re.findall(r'^pub data [^\n]*where\n((?:(?:  [^\n]*)?\n)*)', file.read_text(encoding='utf-8'), re.M):
            found |= set(re.findall(r'^  (\S+) :', body, re.M))
    return found


def last(word):
    return word.rpartition('.')[2]


def is_value(word):
    return word.isdigit() or '.TheVariants.' in word or re.match(r'[A-Z]\w*\.[A-Z]\w*$', word) is not None or last(word) in CONSTRUCTORS


def first_difference(expected, found):
    """The words in which two texts first differ, if there are such."""
    words = zip_longest(TOKEN.findall(expected), TOKEN.findall(found), fillvalue='')
    return next(((one, other) for one, other in words if one != other), None)


def ends(equation):
    """The two sides of an equation, written either way."""
    if not re.match(r'(?:\S+\.)?◌≡◌ ', equation):
        return equation.split(' ≡ ')
    arguments, depth = [''], 0
    for sign in equation:
        depth += (sign in '({') - (sign in ')}')
        if sign == ' ' and not depth:
            arguments.append('')
        else:
            arguments[-1] += sign
    return arguments[-2:]


def is_refuted(error):
    """Whether `refl` was given where two sides compute to different values, at such length that these are not shown."""
    stated = STATED.search(error) if 'what the two types compute to is not shown, because' in error else None
    found = ends(stated[2]) if stated else []
    return len(found) == 2 and found[0] == found[1]


def kind(error, tried):
    """Values or terms, where an error says a fact; `tried` has the definitions that were opened in vain."""
    if COUNTEREXAMPLE.search(error) or is_refuted(error):
        return 'values'
    computed = error.partition('computed as far as they go, ')[2] or error.partition('compared part by part, ')[2]
    # Types short enough for one line are shown as they are.
    shown = DIFFER.findall(computed)[:1] or ([] if '\n' in error else STATED.findall(error))
    found = [first_difference(*sides) for sides in shown]
    pairs = [pair for pair in found if pair and not any(CLAIM.match(word) for word in pair)]
    if any(is_value(one) and is_value(other) for one, other in pairs):
        return 'values'
    if LEFT.search(error):
        return 'terms'
    # Of two equations one side may be shown computed: a number there and a fact of the code, which computes no further, are different terms.
    if 'one side (expected) is shown computed' in error:
        sides = [first_difference(*pair) for pair in STATED.findall(error)]
        if any(pair and pair[0].isdigit() and pair[1].startswith('c.') for pair in sides):
            return 'terms'
    shut = {last(word) for words in SHUT.findall(error) for word in re.findall(r'`(\S+?)`', words)} - tried
    return 'terms' if computed and any(not {last(one), last(other)} & shut for one, other in pairs) else None


def facts(log):
    """The errors and open goals of a log that say a fact: their kinds and lines, in the log's order. What follows an error are the notes on it."""
    said = list(SAID.finditer(log))
    for error, following in zip(said, [*said[1:], None]):
        notes = log[error.end():following.start() if following else len(log)]
        tried = {last(word) for words in TRIED.findall(notes) for word in words.split()}
        tried |= {last(word) for words in TRIED_TOO.findall(notes) for word in re.findall(r'`(\S+?)`', words)}
        if error[1].startswith('proofs/') and (found := kind(error[3], tried)):
            yield found, f'{error[1]}:{error[2]}'
    # A goal may also be open because a lemma that it wants names what is gone.
    is_fit = not any(UNFIT.search(error[3]) for error in said)
    for note in OPEN.finditer(log):
        if is_fit or FAILS_AT.search(note[3]):
            yield 'values' if FAILS_AT.search(note[3]) else 'goal', f'{note[1]}:{note[2]}'
    for note in MAY_BE_FALSE.finditer(log):
        yield 'values', note[1]


def by_text(log):
    """The line of a proof that no longer goes through, where that is the log's first error and no name or field is gone."""
    first = SAID.search(log)
    return f'{first[1]}:{first[2]}' if first and first[1].startswith('proofs/') and not UNFIT.search(first[3]) else None


def judged(log):
    """How an edit was refused, and where its log says so: by values, else by the first fact."""
    found = list(facts(log))
    if found:
        return next((fact for fact in found if fact[0] == 'values'), next((fact for fact in found if fact[0] == 'terms'), found[0]))
    place = by_text(log)
    return ('text', place) if place else ('no fact', 'see what tests/edit says')


def said(line):
    """The same from the line that rt prints: None where it does not tell, as it is cut off after some 160 characters."""
    if not line.startswith(REFUSED):
        return 'no fact', line[:200]
    rest = line[len(REFUSED):]
    if rest.startswith((NAMES_ALONE, LIMIT)):
        return 'no fact', rest[2:200]
    place = re.match(r': (?:note: )?(?:\./)?(\S+?:\d+):\d+: ', rest)
    if not place:
        return None
    what = rest[place.end():]
    if COUNTEREXAMPLE_BEGINS.search(what) or FAILS_AT_BEGINS.search(what):
        return 'values', place[1]
    if (sides := STATED.search(what)) and all(all(is_value(word) for word in ends(side)) for side in sides.groups()):
        return 'values', place[1]
    if DIFFERS_BEGINS.search(what) or LEFT_BEGINS.search(what):
        return 'terms', place[1]
    return None


def changed(edit, crate):
    """The new texts of the files of a crate's folder that an edit changes; None where an old text does not stand in its file once."""
    texts, place, old = {}, None, None
    for line in edit.read_text(encoding='utf-8').split('\n'):
        if line.startswith('file: '):
            place = crate / line[6:]
            texts.setdefault(place, place.read_text(encoding='utf-8'))
        elif line.startswith('old: '):
            old = line[5:]
        elif line.startswith('new:'):
            if texts[place].count(old) != 1:
                return None
            texts[place] = texts[place].replace(old, line[5:])
    return texts


CONSTRUCTORS = constructors()
