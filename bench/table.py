"""The table of docs/PERFORMANCE.md: made of measurements, put between its two markers there, and read again."""
import re
from pathlib import Path
from contenders import C_PORT, LIBRARY, ROOT, output

DOCUMENT = ROOT / 'docs/PERFORMANCE.md'
MARKERS = '<!-- From here to the next marker: bench/run --write. -->\n', '<!-- The end of what bench/run writes. -->\n'
# What the gate holds the library to: counted with the kit of tests/kit-version.
TODAY = '<!-- From here to the next marker: bench/count --write. -->\n', '<!-- The end of what bench/count writes. -->\n'
NONE = '–'
# The column that says what a contender locks.
LOCKS = 'locks'


def number(value):
    return f'{value:,.0f}' if value >= 100 else f'{value:.1f}'


def spread(found, as_words=number):
    return f'{as_words(found.middle)} ({as_words(found.least)}–{as_words(found.most)})'


def line(cells):
    return f'| {" | ".join(cells)} |'


def head(rows):
    return [line(['', '', LOCKS, *rows]), line(['---'] * (len(rows) + 3))]


def block(unit, contenders, found, rows, as_words):
    """A unit's lines, one a contender."""
    lines = []
    for contender in contenders:
        numbers = found.get(contender.name, {})
        cells = (as_words(numbers[row]) if row in numbers else NONE for row in rows)
        lines.append(line(['' if lines else unit, contender.name, contender.locks, *cells]))
    return lines


def times_the_port(found, rows, middle):
    """How many times the C port's number the library's is."""
    return line(['', 'library : C port', '', *(f'{middle(found[LIBRARY][row]) / middle(found[C_PORT][row]):.2f}' for row in rows)])


def counted(contenders, counts):
    """The lines of instructions, without a head."""
    rows = list(counts[LIBRARY])
    return [*block('instructions', contenders, counts, rows, lambda value: f'{value:,.0f}'), times_the_port(counts, rows, lambda value: value)]


def timed(contenders, times):
    rows = list(times[LIBRARY])
    return [*head(rows), *block('nanoseconds', contenders, times, rows, spread), times_the_port(times, rows, lambda found: found.middle)]


def machine():
    """The processor and the compilers, which the numbers depend on."""
    models = re.findall(r'^model name\s*: (.*)$', Path('/proc/cpuinfo').read_text(), re.M)
    versions = [f'gcc {output("cc", "-dumpfullversion").strip()}', ' '.join(output('rustc', '--version').split()[:2]), output('valgrind', '--version').strip().replace('-', ' ')]
    return f'Measured on {len(models)} × {models[0] if models else "a processor without a name"}, with {", ".join(versions)}.'


def of_turns(found):
    if found is None:
        return 'Lines a second of `turns`: not measured, since crates/turns/out/turns is not built.'
    return f'Lines a second of `turns`: {spread(found, lambda value: f"{value:,.0f}")}.'


def whole(contenders, times, counts, turns):
    return '\n'.join([*timed(contenders, times), *counted([each for each in contenders if each.program], counts), '', of_turns(turns), machine(), ''])


def put_in(text, table, markers):
    """The text with a table between two markers; None where it has not both."""
    first, last = markers
    before, _, rest = text.partition(first)
    _, marker, after = rest.partition(last)
    return f'{before}{first}\n{table}\n{last}{after}' if marker else None


def put(table, markers=MARKERS):
    """Puts a table in its place: whether there is one."""
    text = put_in(DOCUMENT.read_text(), table, markers)
    if text is None:
        return False
    DOCUMENT.write_text(text)
    return True


def written():
    """The library's instructions as bench/count wrote them, by row."""
    text = DOCUMENT.read_text().partition(TODAY[0])[2].partition(TODAY[1])[0]
    names = re.search(rf'^\|  \|  \| {LOCKS} \| (.*) \|$', text, re.M)
    numbers = re.search(rf'^\| instructions \| {LIBRARY} \| [^|]* \| (.*) \|$', text, re.M)
    if not names or not numbers:
        return {}
    return dict(zip(names[1].split(' | '), map(int, numbers[1].replace(',', '').split(' | '))))
