"""The roster of a store, kept beside store.toml: which nodes are present, and whose turn it is to be read for a rebuild."""
import os

import balanced

from . import files
from .errors import StoreError


def path_of(settings):
    return os.path.splitext(os.path.abspath(settings.path))[0] + ".roster"


def load(settings):
    """The kept roster; all nodes are present where none was kept."""
    try:
        with open(path_of(settings), "rb") as file:
            kept = file.read(balanced.ROSTER_LEN + 1)
    except FileNotFoundError:
        return balanced.Roster.start(settings.record)
    try:
        return balanced.Roster(settings.record, kept)
    except balanced.Error:
        raise StoreError(f"{path_of(settings)} is no roster: without the file all nodes count as present") from None


def save(settings, roster):
    path = path_of(settings)
    folder = files.open_folder(os.path.dirname(path))
    try:
        files.replace(folder, os.path.basename(path), bytes(roster))
    finally:
        os.close(folder)
