"""The last steps of a write: commit at every node that has prepared it, or drop it at all."""
from contextlib import contextmanager

from . import frames
from .errors import StoreError
from .frames import Request


def finish(session, name, writes):
    """Commits what the nodes have prepared: `writes` has the number of the write for each. A node that fails now commits later."""
    return sorted(session.try_ask(sorted(writes), lambda node: Request(frames.COMMIT, name, place=writes[node])))


def commit(session, name, writes):
    """The last step of a write: as `finish`, and one node at least has to commit."""
    done = finish(session, name, writes)
    if not done:
        raise StoreError(f"{name}: no node could commit; `check` finishes or undoes the write")
    return done


def drop(session, name, nodes):
    """Gives a write up at the nodes."""
    session.try_ask(sorted(nodes), lambda node: Request(frames.DROP, name))


@contextmanager
def dropped_on_failure(session, name, nodes):
    """If what is done within fails, the write is given up at all these nodes that are still here."""
    try:
        yield
    except BaseException:
        drop(session, name, [node for node in nodes if node in session.links])
        raise
