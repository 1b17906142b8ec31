#!/bin/bash
# Checks by the sources that each access to a shared word of a domain is counted: the table of a domain is private to one module of
# mv_core, each function of it makes at most one access, outside any loop or closure, and an access of a word comes with one `tick`; no
# other code has the table's calls, or atomics of its own, but a run's count of the threads that have begun.
cd "$(dirname "$0")/.." || exit 1
python3 - <<'PYTHON'
import pathlib, re, sys

MODULE = pathlib.Path("crates/mv_core/src/shared/accesses.rt")
STRUCT = pathlib.Path("crates/mv_core/src/shared.rt")
COUNTER = pathlib.Path("crates/mv_core/src/steps.rt")
JOIN = pathlib.Path("crates/mv_core/src/joining.rt")
BEGUN = pathlib.Path("crates/item_workers/src/threads.rt")

WORD = ["load", "store", "swap", "compare_exchange", "compare_exchange_with", "exchange", "fetch_max", "fetch_min", "fetch_add",
        "fetch_sub", "fetch_and", "fetch_or", "fetch_xor", "peek", "load_new_seat", "swap_new_seat", "park", "park_timeout"]
ALLOWED = {"load", "store", "compare_exchange", "fetch_max"}
MOVES = {"split_seat", "join_seat", "close_with", "of_words"}
faults = []

def code(path):
    """The text of a file without its comments."""
    return re.sub(r"//[^\n]*", "", path.read_text())

def functions(text):
    """The name and the body of each function: what stands in the braces that open at the begin of a line."""
    for found in re.finditer(r"^( *)(?:pub(?:\(crate\))? )?fn (\w+).*?^\1\{\n(.*?)^\1\}", text, re.M | re.S):
        yield found.group(2), found.group(3)

# The field is private to the module of the struct, whose only child is the one of the accesses.
struct = code(STRUCT)
if not re.search(r"^    table: Table<", struct, re.M):
    faults.append(f"{STRUCT}: the table isn't a private field")
if re.findall(r"\bmod (\w+);", struct) != ["accesses"]:
    faults.append(f"{STRUCT}: another module than `accesses` sees the table")
if re.search(r"\bfn ", struct):
    faults.append(f"{STRUCT}: a function stands beside the table")

# Each function of the module makes one access, or one move of a seat, and what accesses a word ticks once.
accesses = code(MODULE)
seen = 0
for name, body in functions(accesses):
    calls = re.findall(r"\.\s*(\w+)(?:::<[^()]*>)?\(|\bTable::(\w+)\(", body)
    calls = [left or right for left, right in calls]
    words = [call for call in calls if call in WORD]
    moves = [call for call in calls if call in MOVES]
    ticks = calls.count("tick")
    seen += len(words) + len(moves)
    if not set(words) <= ALLOWED:
        faults.append(f"{MODULE}: {name} calls {sorted(set(words) - ALLOWED)}")
    if len(words) + len(moves) != 1 or ticks != len(words):
        faults.append(f"{MODULE}: {name} makes {len(words)} accesses and {len(moves)} moves, and counts {ticks}")
    if len(re.findall(r"\btable\b", body)) - len(re.findall(r"^ *table,$|let \(table, seat\)|let Shared \{ config: _, table \}", body, re.M)) > 1:
        faults.append(f"{MODULE}: {name} uses the table twice")
    if re.search(r"\b(loop|while|for)\b", body):
        faults.append(f"{MODULE}: {name} has a loop")
    # Any bar: that of a closure without parameters looks like that of a condition, and no function has either.
    if "|" in body or re.search(r"\b\w*for_each\b", body):
        faults.append(f"{MODULE}: {name} has a closure, which may be called many times")
if seen != len(re.findall(r"\bfn \w+", accesses)):
    faults.append(f"{MODULE}: a function isn't read by this check")

# No other code has the table's calls, counts a step, or has atomics of its own.
for path in sorted(pathlib.Path("crates").glob("*/src/**/*.rt")):
    text = code(path)
    if path != BEGUN and not path.parts[1].endswith("_tests") and re.search(r"\b(sync::atomic|Atomic\w*)\b", text):
        faults.append(f"{path}: atomics")
    if re.search(r"\.\s*peek\(", text) and "atomic_table" in text:
        faults.append(f"{path}: peek")
    if path == MODULE:
        continue
    if re.search(r"\bTable::|\bTable<|split_seat|join_seat|close_with|_new_seat", text) and path != STRUCT:
        faults.append(f"{path}: the table")
    if path != STRUCT and re.search(r"\btable\s*\.\s*shared\b", text):
        faults.append(f"{path}: an access")
    ticks = len(re.findall(r"\.tick\(\)", text))
    if ticks != (1 if path == JOIN else 0):
        faults.append(f"{path}: counts {ticks} steps")

lines = len(MODULE.read_text().splitlines())
if f"the {lines} lines of `mv_core/src/shared/accesses.rt`" not in re.sub(r"\s+", " ", pathlib.Path("README.md").read_text()):
    faults.append(f"README.md doesn't say that {MODULE} has {lines} lines")

for fault in faults:
    print(fault, file=sys.stderr)
if not faults:
    print(f"{seen} functions in {lines} lines: each makes one access or one move, and each access is counted")
sys.exit(1 if faults else 0)
PYTHON
