"""Names of images: letters, digits, `.`, `_` and `-`, at most 200 of them, and no dot at the beginning.

So a name is a file's name wherever it stands, it leads to no other folder, and no file of the store's own, which begin with
a dot or end otherwise than `.share`, can be meant.
"""
import re

from .errors import UsageError

MAX_NAME = 200
NAME = re.compile(r"[A-Za-z0-9_-][A-Za-z0-9._-]*")


def is_name(name):
    return isinstance(name, str) and len(name) <= MAX_NAME and NAME.fullmatch(name) is not None


def check_name(name):
    """The name, if it is one."""
    if not is_name(name):
        raise UsageError(f"{name!r} is no name of an image: letters, digits, '.', '_' and '-', at most {MAX_NAME}, no dot first")
    return name
