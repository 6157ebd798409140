# Replays stored transcripts and single calls through the definitions, inside the proof checker.
# Each becomes claims, equations between closed terms. All claims make one crate of a scratch repository, and the checker proves each by computing both sides.
# Main parts: read_transcript and read_call (from files to claims), Scratch.refused_among (one run of the checker), first_failures (each refused claim pinned to a line).
import json
import re
import shutil
import subprocess
from dataclasses import dataclass

from forms import ACCEPTED, NO_PARTY, UNREAD, lines_of, read_form, read_reply

# Words of page memory times calls: a transcript above it is left to the compiled program. The checker stops at 50,000,000 steps a claim, which about 5,000,000 of
# these use up; the bound also keeps a transcript to seconds.
BOUND = 500_000

# Tests of a run that must be true of every stretch of begins, steps and withdraws after a format: `m` is the memory that the format left, `calls` the stretch.
# A test is passed over where the definitions do not have its names; those without a module stand in HARNESS.
CHECKS = [
    "Book.book_agrees Book.empty_book (Runs.events m calls)",
    "Links.links_fresh Links.clock_start m calls",
    "Progress.always_progresses m.root.parties Book.empty_book m calls",
    "Holds.grants_right m.root Book.empty_book [] [] m calls",
    "NoPage.no_page_kept NoPage.none_wrote (Runs.events m calls)",
    "Withdrawals.withdrawn_unwritten NoPage.none_wrote (Runs.events m calls)",
    "FittingMerges.merges_fit FittingMerges.nothing_had m calls",
    "TakenUp.always_taken m.root.parties Book.empty_book m calls",
    "map_ascends Book.empty_book m calls",
    "map_saved Book.empty_book m calls",
    "CallsBounded.calls_bounded (CallsBounded.most_calls m.root) CallsBounded.none_counted (Runs.events m calls)",
    "CallsBounded.calls_bounded (CallsBounded.most_by_sizes m.root) CallsBounded.none_counted (Runs.events m calls)",
]

# The fields of a root record and of a party's record, in the order of the words in a file of single calls.
ROOT_FIELDS = "originals capacity primaries overflow parties level next head free".split()
PARTY_FIELDS = "operation key step lev chain other old owed answer setting".split()

HEADER = """\
use mathlib.Core.Path.{refl}
use Rattle.std.specs.Prelude.{Bool, true, false, cond, eqb, ◌&&◌, List, [], ◌∷◌, replicate, ℕ, ◌+◌, ◌*◌, ◌≡◌, Result, Ok, Err, ⊤}
"""
MODULES = ["Sizes", "Records", "Mixing", "Memory", "Answers", "Calls", "TakeUp", "Runs", "Entries", "Book", "Progress"]
TYPES = ["Root", "Party", "Entry", "Refusal", "StepAnswer"]
ENUMS = ["Operation", "OperationAnswer", "Restructuring", "StepAnswer"]

HARNESS = """
data Form : Type 0 where
  format : ℕ → ℕ → ℕ → ℕ → ℕ → Form
  call : Runs.Call → Form
  take_up : Form

-- A call's answer as it is printed: a refusal is a number.
abbrev printed : {A : Type 0} → Result A Refusal → Result A ℕ
printed (Ok a) = Ok a
printed (Err c) = Err (Answers.cause_number c)

data Reply : Type 0 where
  to_format : Result ⊤ ℕ → Reply
  to_begin : Result ⊤ ℕ → Reply
  to_step : Result StepAnswer ℕ → Reply
  to_withdraw : Result ⊤ ℕ → Reply
  to_take_up : Result ⊤ ℕ → Reply

abbrev all_printed : {A : Type 0} → Calls.Called (Result A Refusal) → Calls.Called (Result A ℕ)
all_printed c = Calls.called (printed c.answer) c.memory

abbrev memory : Root → List Party → List ℕ → List ℕ → List ℕ → Memory.Memory
memory r ps ls ws row = record { root = r; parties = ps; locks = ls; pages = ws; waiting = row }

-- "memory starts zero".
abbrev blank : Memory.Memory
blank = memory (Records.root_of_sizes 0 0 0 0 0) [] [] [] []

-- Memory of the lengths that the sizes ask for. Sizes outside their limits are refused whatever is lent: the memory stays as it was.
abbrev lent : Memory.Memory → ℕ → ℕ → ℕ → ℕ → ℕ → Memory.Memory
lent m n b p v q =
    cond (Sizes.within_limits (Records.root_of_sizes n b p v q)) (memory m.root (replicate q Records.idle) (replicate (p + 1) 0) (replicate (16 * (p + v + q)) 0) (replicate q 0)) m

-- After a refused format the earlier file stays.
abbrev kept_by : Answers.CallReply → Memory.Memory → Memory.Memory → Memory.Memory
kept_by (Ok _) m formatted = formatted
kept_by (Err c) m formatted = m

abbrev kept : Memory.Memory → Calls.Called Answers.CallReply → Memory.Memory
kept m c = kept_by c.answer m c.memory

abbrev after_format : ℕ → ℕ → ℕ → ℕ → ℕ → Memory.Memory
after_format n b p v q = kept blank (Calls.format_call (lent blank n b p v q) n b p v q)

abbrev replies : Memory.Memory → List Form → List Reply
replies m [] = []
replies m (format n b p v q ∷ fs) = (let c = Calls.format_call (lent m n b p v q) n b p v q in to_format (printed c.answer) ∷ replies (kept m c) fs)
replies m (call (Runs.begin_for q o k) ∷ fs) = (let c = Calls.begin_call m q o k in to_begin (printed c.answer) ∷ replies c.memory fs)
replies m (call (Runs.step_for q) ∷ fs) = (let c = Calls.step_call m q in to_step (printed c.answer) ∷ replies c.memory fs)
replies m (call (Runs.withdraw_for q) ∷ fs) = (let c = Calls.withdraw_call m q in to_withdraw (printed c.answer) ∷ replies c.memory fs)
replies m (take_up ∷ fs) = (let c = TakeUp.take_up_call m in to_take_up (printed c.answer) ∷ replies c.memory fs)

-- The book's map ascends, before every call and after the last.
abbrev map_ascends : Book.Book → Memory.Memory → List Runs.Call → Bool
map_ascends b m [] = Entries.ascending b.contents
map_ascends b m (c ∷ cs) =
    Entries.ascending b.contents && map_ascends (Progress.book_after_call b m c) (Runs.after_call m c) cs

abbrev same_records : List Entry → List Entry → Bool
same_records [] [] = true
same_records [] (e ∷ es) = false
same_records (d ∷ ds) [] = false
same_records (d ∷ ds) (e ∷ es) = eqb d.key e.key && (eqb d.setting e.setting && same_records ds es)

-- Where nobody is under way, the records of the file are the book's map; likewise.
abbrev saved_now : Book.Book → Memory.Memory → Bool
saved_now b m =
    let busy = Progress.some_below m.root.parties (Progress.under_way b) in
    cond busy true (same_records (TakeUp.records_saved m) b.contents)

abbrev map_saved : Book.Book → Memory.Memory → List Runs.Call → Bool
map_saved b m [] = saved_now b m
map_saved b m (c ∷ cs) = saved_now b m && map_saved (Progress.book_after_call b m c) (Runs.after_call m c) cs
"""


# ---- Terms


def listed(terms):
    return "(" + " ∷ ".join([*terms, "[]"]) + ")"


def spaced(numbers):
    return " ".join(str(number) for number in numbers)


def run_call(form):
    if form.kind == "begin":
        return f"Runs.begin_for {form.numbers[0]} {form.operation_term()} {form.numbers[1]}"
    return f"Runs.{form.kind}_for {form.numbers[0]}"


def form_term(form):
    if form.kind == "format":
        return f"format {spaced(form.numbers)}"
    return form.kind if form.kind == "take_up" else f"call ({run_call(form)})"


# The call that a form makes on the memory named.
def call_on(form, memory):
    if form.kind == "begin":
        return f"Calls.begin_call {memory} {form.numbers[0]} {form.operation_term()} {form.numbers[1]}"
    module = "TakeUp" if form.kind == "take_up" else "Calls"
    return f"{module}.{form.kind}_call {memory} {spaced(form.numbers)}"


def memory_term(memory):
    root = f"(root_of {spaced(words(memory['root'], len(ROOT_FIELDS)))})"
    parties = listed(f"party_of {spaced(words(party, len(PARTY_FIELDS)))}" for party in memory["parties"])
    rows = " ".join(listed(map(str, words(memory[row]))) for row in ("locks", "pages", "row"))
    return f"memory {root} {parties} {rows}"


# The value where it is a list of 32-bit words, of the length given if one is.
def words(value, length=None):
    if not all(type(word) is int and 0 <= word < 2**32 for word in value) or length not in (None, len(value)):
        raise ValueError("not a row of 32-bit words")
    return value


# ---- Claims


# The text of a definition, and of a claim about defined terms.
def defined(name, type_of, term):
    return f"\nabbrev {name} : {type_of}\n{name} = {term}\n"


def claimed(name, left, right):
    return f"\n{name} : {left} ≡ {right}\nunfolding opened\n{name} = refl {{a = {right}}}\n"


# A claim has a file, items that each begin with a line of it, what is wrong where it fails, and the text that claims it of the first so many items.


# That the definitions reply to a transcript's forms as printed: items are the line of each form, the form and the answer.
@dataclass
class Replies:
    file: str
    items: list
    wrong: str = "the definitions reply otherwise"

    def text(self, name, count):
        items = self.items[:count]
        forms = listed(form_term(form) for _, form, _ in items)
        answers = listed(f"to_{form.kind} ({answer})" for _, form, answer in items)
        given = defined(f"forms-{name}", "List Form", forms) + defined(f"right-{name}", "List Reply", answers)
        return given + claimed(name, f"replies blank forms-{name}", f"right-{name}")


# That a check is true of a stretch of calls after a format: items are the line of each call and the call.
@dataclass
class Stretch:
    file: str
    items: list
    wrong: str
    check: str
    format: object

    def text(self, name, count):
        calls = listed(run_call(form) for _, form in self.items[:count])
        given = defined(f"calls-{name}", "List Runs.Call", calls)
        return given + claimed(name, f"{self.check} (after_format {spaced(self.format.numbers)}) calls-{name}", "true")


# That a call on given words leaves the reply and the words given: one item, its line. `after` is None where nothing changes.
@dataclass
class SingleCall:
    file: str
    items: list
    form: object
    answer: str
    before: str
    after: str
    wrong: str = "the definitions reply or leave the memory otherwise"

    def text(self, name, count):
        before = f"before-{name}"
        after = f"({self.after})" if self.after else before
        answered = f"Calls.called ({self.answer}) {after}"
        right = defined(f"right-{name}", f"Calls.Called (Result {self.form.accepted_type()} ℕ)", answered)
        return defined(before, "Memory.Memory", self.before) + right + claimed(name, f"all_printed ({call_on(self.form, before)})", f"right-{name}")


# ---- Reading the files


# The items of a transcript up to its first line that no definition is needed to find wrong, and that line's number or 0.
def read_transcript(script, printed):
    asked, said = lines_of(script), lines_of(printed)
    items = []
    for line, text in enumerate(asked, 1):
        form = read_form(text)
        reply = said[line - 1] if line <= len(said) else b""
        answer = read_reply(form, reply) if form else None
        if (form and not answer) or (not form and reply != UNREAD):
            return items, line
        if form:
            items.append((line, form, answer))
    if len(said) > len(asked):
        return items, len(asked) + 1
    return items, len(said) if said and not printed.endswith(b"\n") else 0


# Words of page memory times calls.
def work(items):
    return max((form.page_words() for _, form, _ in items), default=0) * len(items)


# The stretches of a transcript: each format that was answered ok, and the calls up to the next such, if there are any.
# A take-up is a look between two calls.
def stretches(items):
    found = []
    for line, form, answer in items:
        if form.kind == "format" and answer == ACCEPTED:
            found.append((form, []))
        elif form.kind not in NO_PARTY and found:
            found[-1][1].append((line, form))
    return [(form, calls) for form, calls in found if calls]


# The claims that a transcript makes: its replies, and every check of its stretches.
def transcript_claims(file, items, checks):
    claims = [Replies(file, items)]
    for name, expression in checks.items():
        wrong = f"{expression.split()[0]} is false"
        claims += [Stretch(file, calls, wrong, name, form) for form, calls in stretches(items)]
    return claims


# What read_call raises for a line that is no call.
NO_CALL = (ValueError, KeyError, TypeError, AttributeError)


# The claim of one line of a file of single calls.
def read_call(file, line, text):
    told = json.loads(text)
    form = read_form(told["call"].encode())
    answer = read_reply(form, told["reply"].encode()) if form else None
    if not answer:
        raise ValueError("no call or no reply")
    after = None if told["after"] is None else memory_term(told["after"])
    return SingleCall(file, [(line,)], form, answer, memory_term(told["before"]), after)


# ---- The checker


class CheckerTrouble(Exception):
    pass


# The crates that hold the definitions.
DEFINED_IN = ("model", "theory")


# The names that the definitions export, as Module.name, those of them that a proof may unfold, and the crate of each module.
def exported_names(crates):
    names, unfoldable, homes = set(), [], {}
    for crate in DEFINED_IN:
        specs = crates / crate / "specs"
        for file in sorted(specs.rglob("*.antt")):
            module = ".".join(file.relative_to(specs).with_suffix("").parts)
            homes[module] = crate
            for mark, name in re.findall(r"^ *(unfoldable )?(?:abbrev )?pub (\S+)(?: \{[^}]*\})? :", file.read_text(encoding="utf-8"), re.M):
                names.add(f"{module}.{name}")
                if mark:
                    unfoldable.append(f"Rattle.{crate}.specs.{module}.{name}")
    return names, unfoldable, homes


# Marsaglia's xorshift32: its first so many outputs from the seed of the definitions.
def outputs(count):
    word, found = 2463534242, []
    for _ in range(count):
        word ^= word << 13 & 0xFFFFFFFF
        word ^= word >> 17
        word ^= word << 5 & 0xFFFFFFFF
        found.append(word)
    return found


# The checker works a definition out anew in each claim: so the copy has the table written out, and TABLE_CLAIM says that this alters nothing.
MADE_TABLE = "\ntable = outputs table_words seed\n"
TABLE_CLAIM = """
table-written-out : Mixing.table ≡ Mixing.outputs Mixing.table_words Mixing.seed
unfolding opened
table-written-out = refl
"""


def write_table_out(file):
    text = file.read_text(encoding="utf-8")
    if text.count(MADE_TABLE) != 1:
        raise CheckerTrouble(f"{file.name} has no line that makes the table")
    file.write_text(text.replace(MADE_TABLE, f"\ntable = {listed(map(str, outputs(1024)))}\n"), encoding="utf-8")


# The names of the definitions that a check uses, as Module.name.
def names_in(check):
    return re.findall(r"[A-Z]\w*\.[^\s()]+", check)


# A scratch repository in the folder given: the definitions without their proofs, and the crate `replay` of claims.
class Scratch:
    def __init__(self, folder, crates):
        self.folder = folder
        self.replay = folder / "crates/replay"
        for part in ("src", "specs"):
            for crate in DEFINED_IN:
                shutil.copytree(crates / crate / part, folder / "crates" / crate / part)
            (self.replay / part).mkdir(parents=True)
        (folder / "crates.txt").write_text("model:\ntheory: model\nreplay: model theory\n")
        write_table_out(folder / "crates/model/specs/Mixing.antt")
        (self.replay / "src/lib.rt").write_text("// Claims about the definitions. There is no code.\n\n#![tactic(auto)]\n")
        (self.replay / "specs/Lib.antt").write_text("pub mod Claims\n")
        names, self.unfoldable, self.homes = exported_names(crates)
        known = [check for check in CHECKS if names.issuperset(names_in(check))]
        self.checks = {f"check-{i}": check for i, check in enumerate(known)}

    # What stands above the claims. `opened` unfolds every definition where it is named.
    def preamble(self):
        modules = MODULES + [name.split(".")[0] for check in self.checks.values() for name in names_in(check)]
        uses = [f"use Rattle.{self.homes[module]}.specs.{module}" for module in dict.fromkeys(modules)]
        uses += [f"use Rattle.model.specs.declared.{name}.{{{name}}}" for name in TYPES]
        uses += [f"use Rattle.model.specs.declared.{name}.TheVariants as {name}" for name in ENUMS]
        parts = [HEADER, "\n".join(uses), "\n", HARNESS, record_maker("root_of", "Root", ROOT_FIELDS), record_maker("party_of", "Party", PARTY_FIELDS)]
        parts += [f"\nabbrev {name} : Memory.Memory → List Runs.Call → Bool\n{name} m calls = {check}\n" for name, check in self.checks.items()]
        parts += ["\nopened : ℕ\nunfolding " + " ".join(self.unfoldable) + "\nopened = 0\n", TABLE_CLAIM]
        return "".join(parts)

    # Has the checker judge the claims, each of its first so many items: the indices of those it refuses, and of those at which it met a limit of its own.
    def refused_among(self, claims, counts):
        texts = [claim.text(f"claim-{i}", count) for i, (claim, count) in enumerate(zip(claims, counts))]
        (self.replay / "specs/Claims.antt").write_text(self.preamble() + "".join(texts), encoding="utf-8")
        run = subprocess.run(["rt", "check"], cwd=self.replay, capture_output=True, encoding="utf-8", errors="replace")
        errors = re.findall(r"^.*: error: `claim-(\d+)`: (.*)", run.stdout, re.M)
        if run.returncode != 0 and (not errors or len(errors) != run.stdout.count(": error: ")):
            raise CheckerTrouble(run.stdout + run.stderr)
        no_verdict = "rattle: no verdict" in run.stdout
        limit = {int(i) for i, said in errors if no_verdict or "step limit" in said or "ran out of" in said}
        return {int(i) for i, _ in errors} - limit, limit


def record_maker(name, type_of, fields):
    arguments = [f"x{i}" for i in range(len(fields))]
    body = "; ".join(f"{field} = {argument}" for field, argument in zip(fields, arguments))
    return f"\nabbrev {name} : {'ℕ → ' * len(fields)}{type_of}\n{name} {' '.join(arguments)} = record {{ {body} }}\n"


# For each refused claim the line of the first item with which it fails, by halving: it holds of the first `low` items and fails of the first `high`.
def first_failures(scratch, claims):
    low, high = [0] * len(claims), [len(claim.items) for claim in claims]
    while True:
        wide = [i for i in range(len(claims)) if high[i] - low[i] > 1]
        if not wide:
            return [claim.items[count - 1][0] for claim, count in zip(claims, high)]
        middle = [(low[i] + high[i]) // 2 for i in wide]
        refused, limit = scratch.refused_among([claims[i] for i in wide], middle)
        for place, i in enumerate(wide):
            side = high if place in refused | limit else low
            side[i] = middle[place]
