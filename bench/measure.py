"""Measuring contenders: nanoseconds in rounds, instructions under callgrind, and lines a second of the turns program."""
import re
import resource
import statistics
import subprocess
from collections import namedtuple
from contenders import Failed, ROOT, output

# How often everything is timed, and how long one row of one contender is repeated, in seconds of processor time.
ROUNDS, SECONDS = 9, 0.1
# The rounds of turns, and about how many lines it is given in each.
TURNS_ROUNDS, TURNS_LINES = 5, 50000


class Spread(namedtuple('Spread', 'middle least most')):
    """Several measurements: the middle one, the least and the most."""
    def __new__(cls, numbers):
        return super().__new__(cls, statistics.median(numbers), min(numbers), max(numbers))


def times(contenders, say):
    """Nanoseconds by contender and row, from rounds in which the contenders take turns."""
    found = {contender.name: {} for contender in contenders}
    for number in range(ROUNDS):
        say(f'timing, round {number + 1} of {ROUNDS}')
        for contender in contenders:
            for line in output(contender.program, 'time', SECONDS).splitlines():
                row, nanoseconds = line.rsplit(' ', 1)
                found[contender.name].setdefault(row, []).append(float(nanoseconds))
    return {name: {row: Spread(numbers) for row, numbers in rows.items()} for name, rows in found.items()}


def counts(contender, room, task='count'):
    """Instructions an operation by row, or by point of the picture (task growth)."""
    dumps = room / f'{contender.program.name}.{task}'
    output('valgrind', '--quiet', '--tool=callgrind', '--instr-atstart=no', f'--callgrind-out-file={dumps}', contender.program, task)
    found = {}
    for number in range(1, len(list(room.glob(f'{dumps.name}.*'))) + 1):
        text = (room / f'{dumps.name}.{number}').read_text()
        label = re.search(r'^desc: Trigger: Client Request: (.*) (\d+)$', text, re.M)
        total = re.search(r'^totals: (\d+)$', text, re.M)
        if not label or not total:
            raise Failed(f'callgrind’s dump {number} of {contender.name} has no count')
        found[label[1]] = int(total[1]) / int(label[2])
    if not found:
        raise Failed(f'callgrind counted nothing of {contender.name}')
    return found


def processor_time():
    used = resource.getrusage(resource.RUSAGE_CHILDREN)
    return used.ru_utime + used.ru_stime


def turns(say):
    """Lines a second of processor time of the turns program on the stored runs that begin with a format, over and over; None where it is not built."""
    program = ROOT / 'crates/turns/out/turns'
    if not program.exists():
        return None
    runs = [run for run in sorted((ROOT / 'tests/transcripts').glob('run-*.out')) if run.read_text().startswith('(format ok)')]
    asked, answered = (''.join(run.with_suffix(end).read_text() for run in runs) for end in ('.in', '.out'))
    over = TURNS_LINES // asked.count('\n') + 1
    say('timing turns')
    found = []
    for _ in range(TURNS_ROUNDS):
        before = processor_time()
        replies = subprocess.run([program], input=asked * over, text=True, capture_output=True).stdout
        found.append(over * asked.count('\n') / (processor_time() - before))
        if replies != answered * over:
            raise Failed('turns does not reply to the stored runs as they say')
    return Spread(found)
