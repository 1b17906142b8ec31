"""A repository of one's own, which begins with the counter: ./mvrlu new FOLDER

FOLDER/crates gets the counter and its program under the folder's name, with copies of the libraries that they stand on, without
their wrong bodies. FOLDER/crates.txt lists them, and FOLDER/HANDLES allows threads.
"""

import re
import shutil
import sys
from pathlib import Path

sys.dont_write_bytecode = True
sys.path.insert(0, str(Path(__file__).resolve().parent))

from crates import CRATES, SOURCES, TOP, below, read_crates

MODEL = "counter"
PROGRAM = f"{MODEL}_main"
NAMES = re.compile(r"[a-z][a-z0-9_]*")


def refuse(why):
    print(f"mvrlu: {why}", file=sys.stderr)
    sys.exit(2)


def renamed(text, name):
    """The text of the counter or its program, as that of a crate of another name."""
    text = re.sub(rf"\bRattle\.{MODEL}\b", f"Rattle.{name}", text)
    text = re.sub(rf"`{MODEL}(_main)?`", rf"`{name}\g<1>`", text)
    return re.sub(rf"^(use ){MODEL}::", rf"\g<1>{name}::", text, flags=re.MULTILINE)


def copy_crate(name, into, rename=None):
    for folder in SOURCES:
        if (CRATES / name / folder).is_dir():
            shutil.copytree(CRATES / name / folder, into / folder)
    for path in ("stdout", "stdin", "args", "status"):
        if (CRATES / name / path).is_file():
            shutil.copy(CRATES / name / path, into / path)
    if rename:
        for path in [*into.rglob("*.rt"), *into.rglob("*.antt")]:
            path.write_text(renamed(path.read_text(), rename))


def crate_lines(libraries, uses, name):
    yield f"# The crate of your own, and its program\n{name}: {' '.join(uses[MODEL])}\n"
    yield f"{name}_main: {' '.join(name if used == MODEL else used for used in uses[PROGRAM])}\n"
    yield "\n# Libraries of Pangwelisi\n"
    for library in libraries:
        yield f"{library}: {' '.join(uses[library])}".rstrip() + "\n"


def main(words):
    if len(words) != 1 or words[0].startswith("-"):
        refuse("./mvrlu new takes one word, the folder to make")
    folder = Path(words[0])
    name = folder.resolve().name
    uses = read_crates()
    if not NAMES.fullmatch(name) or name in uses or f"{name}_main" in uses:
        refuse(f"{name} can't name a crate of your own: take lowercase letters, digits and _, and no name of a crate that is here")
    if folder.exists():
        refuse(f"{folder} is there already")
    libraries = [library for library in uses if library in below(MODEL, uses)]
    (folder / "crates").mkdir(parents=True)
    for library in libraries:
        copy_crate(library, folder / "crates" / library)
    copy_crate(MODEL, folder / "crates" / name, name)
    copy_crate(PROGRAM, folder / "crates" / f"{name}_main", name)
    (folder / "crates.txt").write_text("".join(crate_lines(libraries, uses, name)))
    shutil.copy(TOP / "HANDLES", folder / "HANDLES")
    (folder / ".gitignore").write_text("out/\n")
    print(f"mvrlu: {folder} has the crate {name} and its program {name}_main; in {folder}/crates/{name}_main: rt try, rt run")


if __name__ == "__main__":
    main(sys.argv[1:])
