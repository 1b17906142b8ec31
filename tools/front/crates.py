"""The crates of crates.txt: what each stands on, and how many lines it has."""

from pathlib import Path

TOP = Path(__file__).resolve().parents[2]
CRATES = TOP / "crates"
SOURCES = ("src", "specs", "proofs")


def read_lines():
    """The words before and behind the colon of each line of crates.txt that lists a crate."""
    lines = [line for line in (TOP / "crates.txt").read_text().splitlines() if ":" in line and not line.startswith("#")]
    return [(left.split(), right.split()) for left, _, right in (line.partition(":") for line in lines)]


def read_crates():
    """What stands behind the colon of each crate in crates.txt."""
    return {left[0]: right for left, right in read_lines()}


def is_program(name):
    """Whether a crate is a program: it has a main file."""
    return (CRATES / name / "src/main.rt").exists()


def products():
    """The crates that leave a program or a static library."""
    return [left[0] for left, _ in read_lines() if "staticlib" in left or is_program(left[0])]


def below(name, uses):
    """All crates of the repository that a crate stands on."""
    own = [used for used in uses[name] if used in uses]
    return set(own).union(*(below(used, uses) for used in own))


def count_lines(name):
    files = (path for folder in SOURCES for path in (CRATES / name / folder).rglob("*") if path.is_file())
    return sum(path.read_bytes().count(b"\n") for path in files)
