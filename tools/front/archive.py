"""The call that builds a static library over the libraries below it, as `rt ci` proved them: it proves the library itself."""

import os
import subprocess
from pathlib import Path

from crates import below


def kit():
    """The folder of the Rattle kit."""
    page = subprocess.run(["rt", "doc"], check=True, stdout=subprocess.PIPE, stderr=subprocess.DEVNULL, text=True).stdout
    return Path(page.strip()).parent


def archive_words(name, uses, made):
    """The words of the call, which is made in the library's folder."""
    top = kit()
    own = {it: f"../{it}/out/rlib" for it in sorted(below(name, uses))}
    words = [top / "bin/rattle", "build", "--crate-name", name, "src/lib.rt", "--crate-type", "staticlib", "-o", made]
    for used in ["std", *uses[name]]:
        words += ["--extern", f"{used}={own.get(used, top / 'rlibs')}/{used}.rlib"]
    for folder in [top / "rlibs", *own.values()]:
        words += ["-L", f"dependency={folder}"]
    words += ["--antt-project", top / "rattle/logic/antt-project.json", "--logic-built", top / "logic_built"]
    words += ["--jobs", str(min(4, len(os.sched_getaffinity(0))))]
    return [*words, "--links", f"{name}=", "--toolchain", top / "toolchain", "--backend", "llvm"]
