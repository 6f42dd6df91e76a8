"""Locks of a file: any number of readers, or one writer. A lock ends with the process that has it."""
import fcntl
import os

NONE, SHARED, EXCLUSIVE = 0, 1, 2
HOW = {NONE: fcntl.LOCK_UN, SHARED: fcntl.LOCK_SH, EXCLUSIVE: fcntl.LOCK_EX}


class Lock:
    """A lock on an open file, which it owns."""

    def __init__(self, file):
        self.file, self.mode = file, NONE

    def take(self, mode, wait=False):
        """False where another process has it. A lock that is changed may be lost on the way, and is then none."""
        if mode == self.mode:
            return True
        try:
            fcntl.flock(self.file, HOW[mode] | (0 if wait else fcntl.LOCK_NB))
        except BlockingIOError:
            self.mode = NONE
            fcntl.flock(self.file, fcntl.LOCK_UN)
            return False
        self.mode = mode
        return True

    def close(self):
        os.close(self.file)
