"""Puts files below a prefix, all or none, and takes away what was put there.

What was put there stands in the list share/mvrlu/files: each file, and with a / behind it each folder that was made for them. It is
made first in a folder of its own in the prefix, and then moved. Signals wait while files are moved, which takes milliseconds. Where
the machine itself stops meanwhile the list has the files of before and of now, so that both can be taken away.
"""

import fcntl
import os
import shutil
import signal
from contextlib import contextmanager
from pathlib import Path

from signals import NUMBERS

LIST = "share/mvrlu/files"
STAGE = ".mvrlu-install"


class Refused(Exception):
    """Something can't be installed or taken away: why, in one line."""


@contextmanager
def without_signals():
    """Has signals wait."""
    before = signal.pthread_sigmask(signal.SIG_BLOCK, NUMBERS)
    try:
        yield
    finally:
        signal.pthread_sigmask(signal.SIG_SETMASK, before)


def make_folders(folder):
    """Makes a folder and those above it that aren't there, and gives those that were made, the uppermost first."""
    missing = [it for it in (folder, *folder.parents) if not it.exists()]
    made = []
    try:
        for it in reversed(missing):
            it.mkdir()
            made.append(it)
    except OSError:
        remove_folders(made)
        raise
    return made


def remove_folders(folders):
    """Removes those of these folders that are empty, the last first."""
    for folder in reversed(folders):
        try:
            folder.rmdir()
        except OSError:
            pass


@contextmanager
def locked(top):
    """Has nobody else change the prefix meanwhile."""
    held = os.open(top, os.O_RDONLY | os.O_DIRECTORY)
    try:
        fcntl.flock(held, fcntl.LOCK_EX | fcntl.LOCK_NB)
        yield
    except BlockingIOError:
        raise Refused(f"{top}: another ./mvrlu install or uninstall is under way there") from None
    finally:
        os.close(held)


@contextmanager
def staged(top):
    """A new folder in the prefix, which is made where it isn't there. After a failure nothing of it is left."""
    made = []
    try:
        made = make_folders(top)
        with locked(top):
            stage = top / STAGE
            shutil.rmtree(stage, ignore_errors=True)
            try:
                stage.mkdir()
                yield stage
            finally:
                shutil.rmtree(stage, ignore_errors=True)
    except BaseException:
        remove_folders(made)
        raise


def read_list(top):
    """The files and the folders of the list, or None where there is no list."""
    try:
        lines = (top / LIST).read_text().splitlines()
    except (FileNotFoundError, NotADirectoryError):
        return None
    for line in lines:
        if not line or line.startswith("/") or ".." in line.split("/"):
            raise Refused(f"{top / LIST}: this list isn't one of ./mvrlu install")
    return [it for it in lines if not it.endswith("/")], [it[:-1] for it in lines if it.endswith("/")]


def write_list(top, files, folders):
    """Writes the list, whole or not at all."""
    draft = top / f"{LIST}.draft"
    draft.write_text("".join(f"{it}\n" for it in [*sorted(files), *(f"{it}/" for it in sorted(folders))]))
    draft.replace(top / LIST)


def check_inside(top, files):
    """Refuses a prefix of which a link leads these files elsewhere."""
    for folder in sorted({folder for file in files for folder in Path(file).parents}):
        if not (top / folder).resolve().is_relative_to(top.resolve()):
            raise Refused(f"{top / folder}: a link leads out of the prefix")


def check_free(top, files, owned):
    """Refuses to write over a file that no install put there."""
    for file in files:
        if file not in owned and os.path.lexists(top / file):
            raise Refused(f"{top / file} is there, and isn't one of ./mvrlu install: move it away first")


def check_writable(folders):
    """Refuses where a file in one of these folders can't be taken away."""
    for folder in folders:
        if folder.is_dir() and not os.access(folder, os.W_OK | os.X_OK):
            raise Refused(f"{folder} can't be written")


class Move:
    """The move of new files over those of before, which can be undone."""

    def __init__(self, top, new, kept):
        self.top, self.new, self.kept = top, new, kept
        self.made, self.moved, self.before = [], [], []

    def keep(self, file):
        """Keeps a file of before, where it is there."""
        if os.path.lexists(self.top / file):
            (self.kept / file).parent.mkdir(parents=True, exist_ok=True)
            shutil.copy2(self.top / file, self.kept / file, follow_symlinks=False)
            self.before.append(file)

    def put(self, file):
        self.made += make_folders((self.top / file).parent)
        (self.new / file).replace(self.top / file)
        self.moved.append(file)

    def undo(self):
        """Leaves all as it was."""
        for file in set(self.moved) - set(self.before):
            (self.top / file).unlink(missing_ok=True)
        for file in self.before:
            (self.kept / file).replace(self.top / file)
        (self.top / f"{LIST}.draft").unlink(missing_ok=True)
        remove_folders(self.made)


def replace_all(top, stage, files):
    """Moves files from the folder `new` of the stage to the prefix, and takes away those that an earlier install left."""
    old_files, old_folders = read_list(top) or ([], [])
    check_inside(top, {*files, *old_files})
    check_free(top, files, {*old_files})
    move = Move(top, stage / "new", stage / "kept")
    with without_signals():
        try:
            for file in {*old_files, LIST}:
                move.keep(file)
            move.made += make_folders((top / LIST).parent)
            move.moved.append(LIST)
            write_list(top, {*old_files, *files, LIST}, old_folders)
            for file in files:
                move.put(file)
            for file in {*old_files} - {*files, LIST}:
                (top / file).unlink(missing_ok=True)
            folders = {*old_folders, *(str(it.relative_to(top)) for it in move.made)}
            left = take_folders(top, folders - {str(it) for file in [*files, LIST] for it in Path(file).parents})
            write_list(top, {*files, LIST}, folders - left)
        except BaseException:
            move.undo()
            raise


def take_folders(top, folders):
    """Takes away those of the folders that are empty, and gives these."""
    for folder in sorted(folders, reverse=True):
        remove_folders([top / folder])
    return {it for it in folders if not (top / it).is_dir()}


def take_away(top):
    """Takes away what was installed. The list goes last, so that what was begun can be ended."""
    if read_list(top) is None:
        raise Refused(f"{top} has no {LIST}: ./mvrlu install put nothing there")
    with locked(top), without_signals():
        files, folders = read_list(top) or ([], [])
        check_inside(top, files)
        check_writable({(top / it).parent for it in files})
        for file in sorted(files, key=lambda it: it == LIST):
            (top / file).unlink(missing_ok=True)
        shutil.rmtree(top / STAGE, ignore_errors=True)
        take_folders(top, folders)
