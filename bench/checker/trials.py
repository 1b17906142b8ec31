"""Runs a program many times on files that are made for each run, and checks each text."""
import pathlib
import random
import shlex
import shutil
import subprocess
import sys
import tempfile
from collections import Counter

from . import text

SECONDS = 60


def printed_by(words, folder):
    """What a program prints, which is left in the folder too. That it writes to standard error or fails is a fault."""
    try:
        ended = subprocess.run(words, capture_output=True, timeout=SECONDS)
    except subprocess.TimeoutExpired:
        raise text.Fault(f"it didn't end in {SECONDS} seconds")
    pathlib.Path(f"{folder}/text").write_bytes(ended.stdout)
    text.must(ended.returncode == 0 and not ended.stderr, f"status {ended.returncode}: {ended.stderr.decode('latin-1').strip()}")
    return ended.stdout


def main(name, prepare):
    """Makes as many runs as the words of the command line say: NAME RUNS SEED PROGRAM. `prepare` is given a source of random numbers
    and a folder. It writes the files of a run there, and answers the words for the program, and a check of its text that answers
    what it counts. A fault ends the runs with status 1, and leaves the folder."""
    if len(sys.argv) != 4:
        print(f"usage: bench/{name} RUNS SEED PROGRAM", file=sys.stderr)
        sys.exit(2)
    runs, seed, program = int(sys.argv[1]), sys.argv[2], str(pathlib.Path(sys.argv[3]).resolve())
    folder = tempfile.mkdtemp(prefix=f"{name}.")
    totals = Counter()
    for number in range(runs):
        words, check = prepare(random.Random(f"{seed}.{number}"), folder)
        try:
            totals.update(check(printed_by([program, *words], folder)))
        except text.Fault as fault:
            print(f"run {number} of seed {seed}: {fault}\n  {shlex.join([program, *words])}\n  its text: {folder}/text")
            sys.exit(1)
    shutil.rmtree(folder)
    del totals["reads"]
    print(f"{runs} runs of seed {seed}: " + ", ".join(f"{count} {word}" for word, count in totals.items()))
