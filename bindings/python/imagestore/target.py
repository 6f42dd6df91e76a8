"""The file that an image is written to: it is there under its name once the image is whole and right, and not before.

What is no file, as standard output (`-`) or a device, takes the image as it comes.
"""
import os
import sys

from . import files
from .errors import StoreError


class Stream:
    """Something that takes bytes one after the other, and cannot give them back."""

    anywhere = False

    def __init__(self, file, own):
        self.file, self.own = file, own

    def write(self, place, parts):
        for data in parts:
            self.file.write(data)

    def keep(self):
        self.file.flush()

    def again(self):
        raise StoreError("what was written is wrong: its digest is not that of the image; write to a file, or run `check --correct`")

    def close(self):
        if self.own:
            self.file.close()


class NewFile:
    """A file under another name until it is kept. Threads write to it side by side, each where its bytes belong."""

    anywhere = True

    def __init__(self, path):
        folder, self.name = os.path.split(os.path.realpath(path))
        self.folder, self.draft_name = files.open_folder(folder), f".{self.name}.{os.getpid()}.tmp"
        self.draft = files.create(self.folder, self.draft_name)

    def write(self, place, parts):
        files.write(self.draft, place, parts)

    def keep(self):
        files.sync(self.draft)
        files.rename(self.folder, self.draft_name, self.name)
        files.sync(self.folder)

    def again(self):
        """Begins anew: an image has the same length each time, so nothing is left of what was written."""

    def close(self):
        os.close(self.draft)
        files.remove(self.folder, self.draft_name)
        os.close(self.folder)


def open_target(path):
    try:
        if path == "-":
            return Stream(sys.stdout.buffer, False)
        if os.path.exists(path) and not os.path.isfile(path):
            return Stream(open(path, "wb"), True)
        return NewFile(path)
    except OSError as error:
        raise StoreError(f"{path}: {error.strerror}") from None
