"""What SIGTERM, SIGINT and SIGHUP do: what runs is ended first, and then this program, by the same signal."""

import os
import signal

NUMBERS = (signal.SIGTERM, signal.SIGINT, signal.SIGHUP)


class Ended(BaseException):
    """A signal came, with this number."""

    def __init__(self, number):
        self.number = number


def end_at_signals(stop):
    """Has each of these signals that isn't ignored call `stop`, and raise `Ended`."""

    def end(number, _):
        stop()
        raise Ended(number)

    for number in NUMBERS:
        if signal.getsignal(number) is not signal.SIG_IGN:
            signal.signal(number, end)


def run_to_end(main, *arguments):
    """Calls `main` for the status to exit with, or ends by the signal that came meanwhile."""
    try:
        return main(*arguments)
    except Ended as ended:
        signal.signal(ended.number, signal.SIG_DFL)
        os.kill(os.getpid(), ended.number)
        return 128 + ended.number
