"""The file that an image is read from: a regular file, read once from its beginning to its end."""
import os
import stat

from .errors import StoreError


class Source:
    def __init__(self, path):
        try:
            self.file = open(path, "rb", buffering=0)
        except OSError as error:
            raise StoreError(f"{path}: {error.strerror}") from None
        self.path, self.first = path, os.fstat(self.file.fileno())
        if not stat.S_ISREG(self.first.st_mode):
            self.file.close()
            raise StoreError(f"{path} is no regular file")
        self.length = self.first.st_size

    def read(self, place, into):
        """Fills a buffer with the bytes from a place on, and gives it back."""
        at, view = 0, memoryview(into)
        while at < len(view):
            done = os.preadv(self.file.fileno(), [view[at:]], place + at)
            if not done:
                raise StoreError(f"{self.path} became shorter while it was read")
            at += done
        return into

    def check_unchanged(self):
        now = os.fstat(self.file.fileno())
        if (now.st_size, now.st_mtime_ns) != (self.first.st_size, self.first.st_mtime_ns):
            raise StoreError(f"{self.path} changed while it was read")

    def close(self):
        self.file.close()

    def __enter__(self):
        return self

    def __exit__(self, *_):
        self.close()
