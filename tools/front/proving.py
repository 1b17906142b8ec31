"""Proves crates by `rt ci`, in a folder of their own with copies of them: must-fail edits and tests are left out."""

import os
import re
import shutil
import signal
import subprocess
import tempfile
import threading
from concurrent.futures import ThreadPoolExecutor, wait
from contextlib import suppress
from pathlib import Path

from crates import CRATES, TOP

LEFT_OUT = ("out", "must-fail")
# What `rt ci` says of a crate: where its report begins, and how it ended.
BEGINS = re.compile(r"== (\w+)$")
ENDS = re.compile(r"rt: (\w+) (proved$|is kept: |NOT PROVED)")


class Proof:
    """A copy of some crates, and the command that runs over it. The copy is removed at the end."""

    def __init__(self, names):
        self.names, self.room = names, Path(tempfile.mkdtemp(prefix="mvrlu-build-")).resolve()
        self.crates, self.said = self.room / "crates", []
        self.lock, self.running, self.is_stopped = threading.RLock(), None, False

    def __enter__(self):
        return self

    def __exit__(self, *_):
        self.stop()
        shutil.rmtree(self.room, ignore_errors=True)

    def copy(self, name):
        """Copies a crate."""
        shutil.copytree(CRATES / name, self.crates / name, ignore=shutil.ignore_patterns(*LEFT_OUT))

    def prove(self, progress):
        """Proves the crates, and tells whether that passed."""
        listed = (TOP / "crates.txt").read_text().splitlines(keepends=True)
        (self.room / "crates.txt").write_text("".join(it for it in listed if re.split(r"[ :]", it)[0] in self.names))
        shutil.copy(TOP / "HANDLES", self.room)
        for name in self.names:
            self.copy(name)
        return self.run(["rt", "ci"], progress)

    def stop(self):
        """Ends the command, if one runs, and lets no other begin."""
        with self.lock:
            self.is_stopped = True
            if self.running is not None and self.running.poll() is None:
                os.killpg(self.running.pid, signal.SIGTERM)

    def run(self, words, progress, folder="."):
        """Runs a command to its end, shows meanwhile how far it is, and tells whether it passed."""
        with ThreadPoolExecutor(1) as pool:
            ran = pool.submit(self.follow, words, progress, self.room / folder)
            while not ran.done():
                progress.show(self.proving())
                wait([ran], progress.pause())
        return ran.result()

    def follow(self, words, progress, folder):
        """Runs a command, and takes note of each crate that ends. The first that isn't proved ends it."""
        how = {"stdin": subprocess.DEVNULL, "stdout": subprocess.PIPE, "stderr": subprocess.STDOUT, "start_new_session": True}
        with self.lock:
            if self.is_stopped:
                return False
            self.running = subprocess.Popen(words, cwd=folder, text=True, errors="replace", **how)
        self.said = []
        for line in self.running.stdout:
            if BEGINS.match(line):
                self.said = []
            self.said.append(line)
            ended = ENDS.match(line)
            if ended and ended[2] == "NOT PROVED":
                self.stop()
                break
            if ended:
                progress.end(ended[1], is_new=ended[2] == "proved")
        return self.running.wait() == 0 and not self.is_stopped

    def proving(self):
        """The crates that are being proved: those in whose folders a process works."""
        found = set()
        for link in Path("/proc").glob("[0-9]*/cwd"):
            with suppress(OSError):
                folder = Path(os.readlink(link))
                if folder.parent == self.crates:
                    found.add(folder.name)
        return found

    def wrong(self):
        """What the command said of the crate that failed, or at last."""
        return "".join(self.said[-200:]).replace(str(self.room), str(TOP)).rstrip()
