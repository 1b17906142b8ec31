"""Asks tools/front/sources.sh, which knows the stamps that ./mvrlu compares, of the program or of the library for C."""

import subprocess

from crates import CRATES, TOP, is_program


def product(name):
    """The file that a program or a static library leaves."""
    return CRATES / name / "out" / (name if is_program(name) else f"lib{name}.a")


def ask(name, call):
    """The status of a function of sources.sh for a crate, and what it prints."""
    words = ["bash", "-c", f'top=$1 crate=$2 made=$3; . "$1/tools/front/sources.sh"; {call}', "bash", TOP, name, product(name).name]
    asked = subprocess.run(words, check=False, stdout=subprocess.PIPE)
    return asked.returncode, asked.stdout


def is_current(name):
    """Whether a program or a library is built, and of the sources as they are."""
    return ask(name, "is_current")[0] == 0
