"""Prints C static assertions that include/bead_index.h has the numbers of the proved sources (src/lib.rt of the crates model, bead and index): each
constant by its name with BEAD_ before it, each restructuring, the most calls of an operation (crates/theory/specs/CallsBounded.antt), and the fields of the
records and of the reply in their places. Ends with 1 where the header has a number that no source has, or lacks a refusal or a call that the sources have.
Usage: numbers.py ROOT"""
import re
import sys
from pathlib import Path

ROOT = Path(sys.argv[1])
# Where the header has another name than the sources.
RENAMED = {"NONE": "NO_RESTRUCTURING", "DAMAGE_REFUSED": "DAMAGE"}
# The sources' structs by the header's names.
STRUCTS = {"Root": "bead_root", "Party": "bead_party", "BeadReply": "bead_reply"}


def numbers(source):
    """The numbers of the sources by the names that the header gives them."""
    found = dict(re.findall(r"^pub const (\w+): (?:u32|usize) = (\d+);", source, re.M))
    for name, number in re.findall(r"Restructuring::(\w+) => (\d+)", source):
        found[re.sub(r"(?<=[a-z])(?=[A-Z])", "_", name).upper()] = number
    found |= {f"{name.upper()}_REFUSED": number for name, number in re.findall(r"\bRefusal::(\w+) => (\d+)", source)}
    found["OK"] = re.search(r"Ok\(\(\)\) => (\d+),", source)[1]
    return {RENAMED.get(name, name): number for name, number in found.items()}


def figures(source):
    """The most calls of each operation: the figure by sizes, of the most rehashes that there can be; a find's without its overflow pages."""
    rehashes = int(re.search(r"^most_rehashes r = doubled_from (\d+) 0 ", source, re.M)[1])
    first = re.findall(r"^most_with n r \(?Operation\.(\w+).* = (\d+) \+ 3 \* n", source, re.M)
    return {f"MOST_{name.upper()}": int(calls) + 3 * rehashes for name, calls in first}


def fields(source, struct):
    body = re.search(r"pub struct " + struct + r" \{(.*?)^\}", source, re.M | re.S)[1]
    return re.findall(r"^    pub (\w+): u32,", body, re.M)


def main():
    source = "".join((ROOT / f"crates/{crate}/src/lib.rt").read_text() for crate in ["model", "index", "bead"])
    header = (ROOT / "include/bead_index.h").read_text()
    known = numbers(source) | figures((ROOT / "crates/theory/specs/CallsBounded.antt").read_text())
    named = re.findall(r"^(?:#define|   ) BEAD_(\w+)(?: = | )\d+u?", header, re.M)
    strange = [name for name in named if name not in known]
    for name in strange:
        print(f"numbers.py: BEAD_{name} of the header stands in no source", file=sys.stderr)
    lacking = [f"BEAD_{name}" for name in known if name.endswith("_REFUSED") and name not in named]
    lacking += [call for call in re.findall(r'extern "C" fn (\w+)', source) if not re.search(rf"^[^/* ].* {call}\((?:const )?struct", header, re.M)]
    for name in lacking:
        print(f"numbers.py: the header lacks {name}", file=sys.stderr)
    print('#include "bead_index.h"')
    for name in named:
        if name not in strange:
            print(f'_Static_assert(BEAD_{name} == {known[name]}, "BEAD_{name} is {known[name]} in the proved code");')
    find = known["MOST_FIND"]
    for pages in [0, 752]:
        print(f'_Static_assert(BEAD_MOST_FIND({pages}) == {find + pages}, "BEAD_MOST_FIND(V) is {find} + V in the proved theory");')
    for struct, name in STRUCTS.items():
        listed = fields(source, struct)
        for place, field in enumerate(listed):
            print(f'_Static_assert(offsetof(struct {name}, {field}) == {4 * place}, "{name}: {field} is in word {place}");')
        print(f'_Static_assert(sizeof(struct {name}) == {4 * len(listed)}, "{name} has {len(listed)} words");')
    return 1 if strange or lacking or not named else 0


sys.exit(main())
