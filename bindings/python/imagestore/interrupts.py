"""Interrupts (Ctrl-C, SIGTERM) take effect at points where no request is under way and no thread is left waiting.

A second interrupt ends the program at once, as a crash would; the next command sees to what is left.
"""
import os
import signal
import threading
from contextlib import contextmanager

SIGNALS = (signal.SIGINT, signal.SIGTERM)


class Seen:
    """How many interrupts there were, and whether the command was ended by one."""
    count, ended = 0, False


def note(number, frame):
    Seen.count += 1
    if Seen.count > 1:
        os._exit(1)


@contextmanager
def noted():
    """Interrupts that come within are noted, and wait for the next point."""
    Seen.count, Seen.ended = 0, False
    kept = {number: signal.signal(number, note) for number in SIGNALS}
    try:
        yield
    finally:
        for number, handler in kept.items():
            signal.signal(number, handler)


@contextmanager
def masked():
    """Within, no interrupt reaches this thread, nor a child that is forked and ends here."""
    kept = signal.pthread_sigmask(signal.SIG_BLOCK, SIGNALS)
    try:
        yield
    finally:
        signal.pthread_sigmask(signal.SIG_SETMASK, kept)


def forget():
    """In a child: what was noted is for its parent to act on."""
    Seen.count = 0


def point():
    """Ends the command here if it was interrupted: once, so that what is done then to undo it is not ended too."""
    if Seen.count and not Seen.ended and threading.current_thread() is threading.main_thread():
        Seen.ended = True
        raise KeyboardInterrupt
