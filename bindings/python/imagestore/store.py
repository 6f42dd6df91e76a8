"""A store: its settings, its plan, and sessions with its nodes. The commands are modules of their own over it."""
import fcntl
from contextlib import contextmanager

import balanced

from . import image, lock, pipeline, roster, settings, twophase
from .errors import StoreError
from .session import Session
from .share import Header


class Store:
    """`wait` is how many seconds a command waits for another's lock, `progress` takes a word, and what is done of how much."""

    def __init__(self, path, wait=10.0, threads=None, progress=None):
        self.settings = settings.load(path)
        self.plan = balanced.Plan(self.settings.record)
        self.wait, self.threads = wait, threads or pipeline.workers()
        self.progress = progress or (lambda word, done, total: None)

    def present(self):
        """The nodes that have not left."""
        return roster.load(self.settings).present()

    @contextmanager
    def session(self, mode, what, also=(), make=(), need=None):
        """A session with the present nodes, and those of `also`, under a lock; k of them have to be here, or `need`."""
        with Session(self.settings, sorted({*self.present(), *also}), make) as session:
            session.lock(mode, self.wait)
            session.need(self.plan.k if need is None else need, what)
            yield session

    @contextmanager
    def changed_roster(self):
        """The roster, to be changed: it is kept at the end. One command at a time changes it."""
        with open(self.settings.path, "rb") as file:
            fcntl.flock(file, fcntl.LOCK_EX)
            kept = roster.load(self.settings)
            before = bytes(kept)
            yield kept
            if bytes(kept) != before:
                roster.save(self.settings, kept)

    def look(self, session, name, undo=False):
        """The image of a name, with an interrupted write of it finished or undone."""
        return self.settle(session, image.look(session, self.plan, name, undo), undo)

    def settle(self, session, seen, undo=False):
        """Has what is prepared committed or dropped, as the ruling says; takes the lock that this needs."""
        if seen.ruling.settled:
            return seen
        session.lock(lock.EXCLUSIVE, self.wait)
        again = image.look(session, self.plan, seen.name, undo)
        twophase.finish(session, seen.name, again.ruling.commit)
        twophase.drop(session, seen.name, again.ruling.drop)
        return image.look(session, self.plan, seen.name, undo)

    def existing(self, session, name):
        """The image of a name, if there is one, to be written."""
        return self.see_exists(self.look(session, name))

    def readable(self, session, name):
        """The image of a name, if there is one, to be read: an interrupted write waits, if k nodes can be read without it."""
        seen = image.look(session, self.plan, name)
        if seen.exists and len(seen.holders()) < self.plan.k:
            seen = self.settle(session, seen)
        return self.see_exists(seen)

    def see_exists(self, seen):
        if not seen.exists:
            raise StoreError(f"there is no image {seen.name}")
        return seen

    def header_of(self, seen, **parts):
        """A header for an image of this store, the node still open."""
        return Header(store=self.settings.store, record=self.settings.record, lanes=self.settings.lanes, name=seen.name, node=0, **parts)
