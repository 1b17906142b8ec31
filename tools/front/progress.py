"""What a person sees while the program is proved and built."""

import shutil
import sys
import time

SECONDS_BETWEEN_LINES = 60


class Progress:
    """Counts of crates and of their lines, on standard error: one line that is rewritten on a terminal, else one a minute."""

    def __init__(self, lines):
        self.lines, self.left = lines, dict(lines)
        self.proved, self.start, self.said = 0, time.monotonic(), None
        self.is_terminal = sys.stderr.isatty()

    def pause(self):
        """How many seconds may pass until the next line."""
        return 1 if self.is_terminal else SECONDS_BETWEEN_LINES

    def end(self, name, is_new):
        """A crate is proved. Its lines count for the estimate where they were proved now."""
        self.proved += self.lines[name] if is_new else 0
        del self.left[name]

    def estimate(self, seconds):
        """The minutes that are left, where that can be told: the lines that are left take as long as those that were proved now."""
        if not self.proved:
            return "no estimate yet"
        return f"about {max(1, round(seconds * sum(self.left.values()) / self.proved / 60))} left"

    def text(self, now, proving):
        """The line: what is done, what is being proved, and for how long."""
        seconds, count = now - self.start, len(self.lines)
        done = f"{count - len(self.left)} of {count} crates proved"
        running = f"; proving {', '.join(sorted(proving))}" if proving else ""
        left = f", {self.estimate(seconds)}" if self.left else ""
        return f"{done}{running}; {int(seconds) // 60} minutes so far{left}"

    def show(self, proving):
        """Shows the line where it is time to."""
        now = time.monotonic()
        if self.is_terminal:
            text = f"build: {self.text(now, proving)}"[: shutil.get_terminal_size().columns - 1]
            print(f"\r\x1b[K{text}", end="", file=sys.stderr, flush=True)
        elif self.said is None or now - self.said >= SECONDS_BETWEEN_LINES:
            self.said = now
            print(f"build: {self.text(now, proving)}", file=sys.stderr, flush=True)

    def say(self, text):
        """Says something else, on a line of its own."""
        if self.is_terminal:
            print("\r\x1b[K", end="", file=sys.stderr)
        print(f"build: {text}", file=sys.stderr, flush=True)
