# Forms and replies of `turns` as documents 01 and 02 print them, and the terms of the definitions that they stand for.
# Main functions: lines_of, read_form (None for an unread line), read_reply (None for what no reply to the form reads).
import re
from dataclasses import dataclass

UNREAD = b"(unread)"
LARGEST_NUMBER = 4294967295
MOST_CHAINS, MOST_OVERFLOW, MOST_PARTIES = 256, 752, 16
WORDS_A_PAGE = 16
NUMBER = rb"([0-9]{1,10})"
PATTERNS = {
    "format": re.compile(rb"\(format " + rb" ".join([NUMBER] * 5) + rb"\)"),
    "begin": re.compile(rb"\(begin " + NUMBER + rb" \((?:(find|delete) " + NUMBER + rb"|(insert) " + NUMBER + rb" " + NUMBER + rb")\)\)"),
    "step": re.compile(rb"\(step " + NUMBER + rb"\)"),
    "withdraw": re.compile(rb"\(withdraw " + NUMBER + rb"\)"),
    "take_up": re.compile(rb"\(take-up\)"),
}
# The kinds of form that print another word than their name, and those that name no party.
WORDS = {"take_up": "take-up"}
NO_PARTY = ("format", "take_up")
PRINTED = rb"(0|[1-9][0-9]{0,9})"
REFUSED = re.compile(rb"\(refused " + PRINTED + rb"\)")
FOUND = re.compile(rb"\(done \(found " + PRINTED + rb"\) none\)")

OPERATIONS = {"find": "Operation.Find", "insert": "Operation.Insert", "delete": "Operation.Delete"}
ANSWERS = {
    "absent": "OperationAnswer.Absent",
    "inserted": "OperationAnswer.Inserted",
    "present": "OperationAnswer.Present",
    "deleted": "OperationAnswer.Deleted",
    "no-page": "OperationAnswer.NoPage",
}
RESTRUCTURINGS = {
    "none": "Restructuring.None",
    "split": "Restructuring.Split",
    "split-skipped": "Restructuring.SplitSkipped",
    "merged": "Restructuring.Merged",
    "merge-skipped": "Restructuring.MergeSkipped",
}
ACCEPTED = "Ok tt"
# What a reply that is no refusal stands for. A refusal is Err, with the number as printed.
DONE = {f"(done {a} {r})": f"Ok (StepAnswer.Done {ANSWERS[a]} {RESTRUCTURINGS[r]})" for a in ANSWERS for r in RESTRUCTURINGS}
REPLIES = {
    "format": {"ok": ACCEPTED},
    "begin": {"ok": ACCEPTED},
    "step": {"waiting": "Ok StepAnswer.Waiting", "moved": "Ok StepAnswer.Moved", **DONE},
    "withdraw": {"ok": ACCEPTED},
    "take_up": {"ok": ACCEPTED},
}


# A form that was read: its kind, its numbers in order, and the operation of a begin: party, key and, of an insert, the setting.
@dataclass
class Form:
    kind: str
    numbers: list
    operation: str = ""

    # The operation of a begin as a term: an insert's with its setting.
    def operation_term(self):
        return f"({OPERATIONS[self.operation]}{''.join(f' {setting}' for setting in self.numbers[2:])})"

    # The type of what a call of this kind answers where it is not refused.
    def accepted_type(self):
        return "StepAnswer" if self.kind == "step" else "⊤"

    # How every reply to the form begins: the call, then the party without leading zeros where one is named.
    def heading(self):
        party = "" if self.kind in NO_PARTY else f"{self.numbers[0]} "
        return f"({WORDS.get(self.kind, self.kind)} {party}"

    # The words of page memory that a format within the limits of P, V and Q asks for, else 0.
    def page_words(self):
        if self.kind != "format":
            return 0
        chains, overflow, parties = self.numbers[2:]
        fit = chains <= MOST_CHAINS and overflow <= MOST_OVERFLOW and parties <= MOST_PARTIES
        return WORDS_A_PAGE * (chains + overflow + parties) if fit else 0


# The lines of a text; a last line without a newline is a line.
def lines_of(text):
    lines = text.split(b"\n")
    return lines if lines[-1] else lines[:-1]


# The form on a line, or None.
def read_form(line):
    for kind, pattern in PATTERNS.items():
        match = pattern.fullmatch(line)
        if match:
            words = [word.decode() for word in match.groups() if word is not None]
            numbers = [int(word) for word in words if word not in OPERATIONS]
            operation = next((word for word in words if word in OPERATIONS), "")
            return Form(kind, numbers, operation) if max(numbers, default=0) <= LARGEST_NUMBER else None
    return None


# The answer that a printed reply to the form stands for, as a term of the definitions, or None.
def read_reply(form, line):
    heading = form.heading().encode()
    if not (line.startswith(heading) and line.endswith(b")")):
        return None
    said = line[len(heading):-1]
    refused = REFUSED.fullmatch(said)
    if refused:
        return f"Err {int(refused.group(1))}"
    found = FOUND.fullmatch(said)
    if found:
        return f"Ok (StepAnswer.Done (OperationAnswer.Found {int(found.group(1))}) Restructuring.None)" if form.kind == "step" else None
    return REPLIES[form.kind].get(said.decode("latin-1"))
