"""./mvrlu install [--library] PREFIX puts the program and the library for C and C++ below a folder, and ./mvrlu uninstall PREFIX takes
them away.

`install.py install WORD..` and `install.py uninstall WORD..` end with 0, with 1 and one line where that can't be done, and with 2
where the words are out of form. What isn't proved and built is so first, by `build`.
"""

import re
import shutil
import subprocess
import sys
from pathlib import Path

from archive import kit
from crates import TOP
from prefix import Refused, replace_all, staged, take_away
from signals import end_at_signals, run_to_end
from stamps import is_current, product

PROGRAM, LIBRARY = "mvrlu_main", "mvrlu_c"
HEADERS = ("mvrlu.h", "mvrlu.hpp", "mvrlu_replies.hpp", "mvrlu_sets.hpp", "mvrlu_table.hpp")
# Where each file of tools/front/installed goes; in it @version@ and @major@ stand for those of the header.
INSTALLED = {
    "mvrlu.pc": "lib/pkgconfig",
    "mvrlu-config.cmake": "lib/cmake/mvrlu",
    "mvrlu-config-version.cmake": "lib/cmake/mvrlu",
}


def say(text):
    line = "".join(it if it.isprintable() else ascii(it)[1:-1] for it in str(text))
    print(f"mvrlu: {line}", file=sys.stderr, flush=True)


def run_child(words):
    """Runs a command to its end, which a signal that ends this ends too, and gives its status."""
    with subprocess.Popen(words) as child:
        end_at_signals(child.terminate)
        status = child.wait()
        end_at_signals(lambda: None)
        return status


def build(name, what):
    """Proves and builds the program or the library, where it isn't current."""
    if is_current(name):
        return
    say(f"{what} isn't proved as it is: this proves and builds it first, which takes minutes")
    if run_child([sys.executable, "-B", TOP / "build", name]) != 0:
        raise Refused(f"{what} was not built, as said above: nothing was installed")


def make_archive(stage, target):
    """Makes one archive of the library and of the kit's heap functions, by names that a script of ar may have."""
    shutil.copy(product(LIBRARY), stage / "library.a")
    try:
        heap = kit() / "c/liblibc_c.a"
    except (OSError, subprocess.CalledProcessError):
        raise Refused("rt doc doesn't answer: this needs the Rattle kit, with rt on the path") from None
    shutil.copy(heap, stage / "heap.a")
    script = "create whole.a\naddlib library.a\naddlib heap.a\nsave\nend\n"
    try:
        made = subprocess.run(["ar", "-M"], input=script, text=True, cwd=stage, check=False, capture_output=True)
    except FileNotFoundError:
        raise Refused("there is no ar on the path, which makes the archive: install binutils") from None
    if made.returncode != 0 or not (stage / "whole.a").exists():
        raise Refused(f"ar made no archive: {made.stderr.strip()[:200]}")
    shutil.move(stage / "whole.a", target)


def version():
    """The version that the header tells, as MAJOR.MINOR."""
    number = int(re.search(r"#define MVRLU_VERSION (0x[0-9a-f]+)u", (TOP / "include/mvrlu.h").read_text())[1], 16)
    return f"{number >> 16}.{number & 0xFFFF}"


def with_version(file):
    """The text of a file of tools/front/installed."""
    number = version()
    return file.read_text().replace("@version@", number).replace("@major@", number.partition(".")[0])


def put(source, target, mode):
    """Copies a file, or makes it of a text."""
    target.parent.mkdir(parents=True, exist_ok=True)
    if isinstance(source, str):
        target.write_text(source)
    else:
        shutil.copyfile(source, target)
    target.chmod(mode)


def fill(stage, with_program):
    """Makes all that is installed in a folder, and gives the names of the files."""
    new = stage / "new"
    if with_program:
        put(product(PROGRAM), new / "bin/mvrlu", 0o755)
        put(TOP / "docs/man/mvrlu.1", new / "share/man/man1/mvrlu.1", 0o644)
    for name in HEADERS:
        put(TOP / "include" / name, new / "include" / name, 0o644)
    make_archive(stage, stage / "libmvrlu.a")
    put(stage / "libmvrlu.a", new / "lib/libmvrlu.a", 0o644)
    for name, folder in INSTALLED.items():
        put(with_version(TOP / "tools/front/installed" / name), new / folder / name, 0o644)
    put(TOP / "docs/man/mvrlu.3", new / "share/man/man3/mvrlu.3", 0o644)
    return sorted(str(it.relative_to(new)) for it in new.rglob("*") if it.is_file())


def install(top, with_program):
    """Builds what is wanted, and puts it below the folder."""
    with staged(top) as stage:
        build(LIBRARY, "the library for C")
        if with_program:
            build(PROGRAM, "the program")
        replace_all(top, stage, fill(stage, with_program))
    what = "the program and the library for C and C++ are" if with_program else "the library for C and C++ is"
    say(
        f"{what} installed in {top}: with PKG_CONFIG_PATH={top}/lib/pkgconfig a program is built by pkg-config, "
        f"with CMAKE_PREFIX_PATH={top} by cmake; ./mvrlu uninstall {top} takes all of it away"
    )


def answer(what, words):
    """Does what the words ask for, and gives the status."""
    with_program = what == "uninstall" or words[:1] != ["--library"]
    given = words if with_program else words[1:]
    if len(given) != 1 or given[0].startswith("-") or not given[0]:
        form = "install [--library] PREFIX" if what == "install" else "uninstall PREFIX"
        say(f"it is ./mvrlu {form}, with one folder")
        return 2
    top = Path(given[0]).absolute()
    try:
        if what == "install":
            install(top, with_program)
        else:
            take_away(top)
            say(f"nothing of ./mvrlu install is left in {top}")
    except Refused as why:
        say(why)
        return 1
    except OSError as why:
        say(f"{why.filename2 or why.filename or top}: {why.strerror}")
        return 1
    return 0


def main():
    end_at_signals(lambda: None)
    return answer(sys.argv[1], sys.argv[2:])


if __name__ == "__main__":
    sys.exit(run_to_end(main))
