"""The model's runs against the texts of samples/replay, and against the answers of the schedules of runtime_tests."""
import collections
import sys

from given import finish, plans, run_of, samples
from view.kinds import KINDS
from view.replay_model import replay_model
from view.replay_text import read_text

top, scratch = sys.argv[1:3]
wrong, kinds, steps, count = [], collections.Counter(), 0, 0
for name, plan, text in samples(top):
    _, events = run_of(plan)
    if "".join(f"{event.line}\n" for event in events) != text:
        wrong.append(f"{name}: the model's text is another one")
    model = replay_model(name, plan, read_text(name, text))
    wrong += [f"{name}: line {fault['line']}: {fault['said']}" for fault in model["faults"]]
    answers = [note[3] for note in model["notes"] if note[1] in ("answer", "skip", "idle", "end")]
    if len(model["steps"]) + len(answers) != text.count("\n") or [step.line for step in model["steps"]] != [
            line for line in text.splitlines() if line.split()[1].isdigit() and not line.startswith("end")]:
        wrong.append(f"{name}: the page has other steps")
for path, plan, answers in plans(scratch):
    _, events = run_of(plan)
    said = [event.line for event in events if event.sort != "step"]
    if not answers[-1].startswith("end "):
        said.pop()
    if said != answers:
        wrong.append(f"{path.name}: other answers than those of the table")
    model = replay_model(path.stem, plan)
    wrong += [f"{path.name}: {fault['said']}" for fault in model["faults"]]
    kinds.update(event.made.kind for event in events if event.sort == "step")
    steps, count = steps + len(model["steps"]), count + 1
wrong += [f"no plan makes the step {kind.name}" for name, kind in KINDS.items() if not kinds[name]]
finish(wrong, f"{count} plans have the answers of their tables, with {steps} steps of {len(kinds)} kinds")
