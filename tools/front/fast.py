"""A first look, which proves nothing: all tests of all crates, all programs, and all scripts that need no proof, run by `rt try`.

`fast.py` runs them all, as many side by side as there are processors, and `fast.py CRATE` those of a crate and of the crates that
stand on it, without the scripts. What fails is shown in whole. The last line says how many passed. It ends with 1 where one failed.
"""

import os
import re
import subprocess
import sys
import time
from concurrent.futures import ThreadPoolExecutor, as_completed

from crates import CRATES, TOP, below, read_crates

# Each with its words. tests/mvrlu.sh then leaves out what needs the proved program.
SCRIPTS = (("mvrlu.sh", "unproved"), ("view.sh",), ("replay.sh",), ("misuse.sh",), ("docs.sh",), ("accesses.sh",))
# How long the tests of a crate may take, with their checks.
SECONDS = "400"


def has_tests(crate):
    return any("#[test]" in path.read_text() for path in (CRATES / crate / "src").rglob("*.rt"))


def is_program(crate):
    return (CRATES / crate / "src/main.rt").is_file()


def run(words, folder):
    """Runs a command, and gives its status and what it wrote."""
    ran = subprocess.run(words, cwd=folder, stdin=subprocess.DEVNULL, stdout=subprocess.PIPE, stderr=subprocess.PIPE, check=False)
    return ran.returncode, ran.stdout, ran.stderr.decode(errors="replace")


def try_tests(crate):
    """How many tests of a crate passed and failed, and what was written."""
    status, text, said = run(["rt", "try", "--test", "--seconds", SECONDS], CRATES / crate)
    text = text.decode(errors="replace")
    counts = re.findall(r"(?m)^test result: .*\b(\d+) passed; (\d+) failed;", text)
    passed, failed = (sum(int(it[at]) for it in counts) for at in (0, 1))
    return passed, failed or int(status != 0 or not passed), text + said


def try_program(crate):
    """Runs a program with the words and files that stand beside it: its text and its status must be those that stand there."""
    folder = CRATES / crate
    args = (folder / "args").read_text().split("\n") if (folder / "args").is_file() else []
    data = [it for path in sorted((folder / "data").glob("*")) for it in ("--data", f"{path.name}={path}")]
    status, text, said = run(["rt", "try", *data, "--", *filter(None, args)], folder)
    wanted = (folder / "stdout").read_bytes() if (folder / "stdout").is_file() else b""
    passed = status == 0 and text == wanted
    return int(passed), int(not passed), text.decode(errors="replace") + said


def run_script(script):
    status, text, said = run(["bash", TOP / "tests" / script[0], *script[1:]], TOP)
    return int(status == 0), int(status != 0), text.decode(errors="replace") + said


def list_checks(crate):
    """Each check with its name, those first that take longest."""
    uses = read_crates()
    chosen = [it for it in uses if crate is None or it == crate or crate in below(it, uses)]
    tests = sorted(filter(has_tests, chosen), key=lambda it: -sum(path.stat().st_size for path in (CRATES / it / "src").rglob("*.rt")))
    found = [(f"tests of {it}", try_tests, it) for it in tests]
    found += [(it, try_program, it) for it in chosen if is_program(it)]
    return found + [(f"tests/{it[0]}", run_script, it) for it in SCRIPTS if crate is None]


def name_left_out():
    """The scripts that need a proof, or a program that was proved."""
    run_here = {it[0] for it in SCRIPTS}
    return ", ".join(f"tests/{path.name}" for path in sorted((TOP / "tests").glob("*.sh")) if path.name not in run_here)


def main(crate=None):
    start, all_passed, all_failed = time.monotonic(), 0, 0
    checks = list_checks(crate)
    with ThreadPoolExecutor(len(os.sched_getaffinity(0))) as pool:
        started = {pool.submit(check, of): name for name, check, of in checks}
        for ended in as_completed(started):
            passed, failed, said = ended.result()
            all_passed, all_failed = all_passed + passed, all_failed + failed
            print(f"fast: {started[ended]}: {passed} passed, {failed} failed", flush=True)
            if failed:
                print(said, flush=True)
    if crate is None:
        print(f"fast: left out, since they need what is proved: {name_left_out()}")
    seconds = int(time.monotonic() - start)
    print(f"fast: {all_passed} passed, {all_failed} failed in {seconds} s; nothing was proved: ./check proves")
    return int(all_failed > 0)


if __name__ == "__main__":
    if len(sys.argv) > 2 or (len(sys.argv) == 2 and sys.argv[1] not in read_crates()):
        print("check: name a crate of crates.txt, or none", file=sys.stderr)
        sys.exit(2)
    sys.exit(main(*sys.argv[1:]))
