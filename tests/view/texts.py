"""The texts that a program prints of the plans of runtime_tests: each holds."""
import subprocess
import sys

from given import finish, plans, run_of
from view.checks import check_text
from view.replay_text import read_text

scratch, program = sys.argv[1:3]
wrong, count = [], 0
for path, plan, _ in plans(scratch):
    printed = subprocess.run([program, "replay", path], check=True, capture_output=True, text=True).stdout
    wrong += [f"{path.name}: line {fault.line}: {fault.said}" for fault in check_text(plan, run_of(plan)[1], read_text(path.name, printed))]
    count += 1
finish(wrong, f"the program's texts of {count} plans hold")
