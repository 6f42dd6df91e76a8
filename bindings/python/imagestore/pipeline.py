"""Work on batches of blocks side by side, the results in order, and no more in memory than a few batches.

Where every node is a folder of this machine, children of this process do it: threads of one Python wait for its lock after each call
of the library, some thousand times for each 10 MB, and two of them are hardly faster than one. A child has the folders open as
its parent has them, and so the nodes' locks, which end with the last of the family. Where a node is asked over a pipe, which
only one can use, threads do it. One batch, or one at a time, needs neither.
"""
import os
from collections import deque
from concurrent.futures import ThreadPoolExecutor
from contextlib import closing
from itertools import chain, islice
from multiprocessing.connection import Pipe

from . import interrupts
from .errors import StoreError
from .frames import MAX_DATA

BATCH_BYTES, BATCH_BLOCKS = 1 << 20, 8
ENDED = "a process that worked on the image was ended"


def workers():
    """As many as this process has cores."""
    return len(os.sched_getaffinity(0))


def batch_blocks(layout):
    """How many blocks a batch has: some 1 MB of the image, but 8 blocks at least, and no more than a frame holds, also as ranges."""
    return min(max(BATCH_BYTES // layout.capacity, BATCH_BLOCKS), MAX_DATA // (layout.lanes * layout.plan.symbol_len + 32))


def in_order(function, items, count, family=None):
    """The function's results for the items, in their order, up to so many at a time. An interrupt ends it between two results.

    With a family, what the function asks of nodes is of its session and its reader, and children may do it.
    """
    items = iter(items)
    first = list(islice(items, count))
    count, items = len(first), chain(first, items)
    if count < 2:
        results = one_by_one(function, items)
    elif family and family.can_part():
        results = by_children(function, items, count, family)
    else:
        results = by_threads(function, items, count)
    with closing(results):  # whatever ends it, nobody works on
        for result in results:
            yield result
            interrupts.point()


def one_by_one(function, items):
    for item in items:
        yield function(item)


def by_threads(function, items, count):
    with ThreadPoolExecutor(max_workers=count) as pool:
        waiting = deque()
        try:
            for item in items:
                waiting.append(pool.submit(function, item))
                if len(waiting) > count:
                    yield waiting.popleft().result()
            while waiting:
                yield waiting.popleft().result()
        finally:
            for left in waiting:
                left.cancel()


def by_children(function, items, count, family):
    """The children have the items by turns, each two of them at a time, so that none waits for its parent."""
    children, waiting = [], deque()
    try:
        for i, item in enumerate(items):
            if i < count:
                children.append(Child(function, family, children))
            child = children[i % count]
            child.give(item)
            waiting.append(child)
            if len(waiting) == 2 * count:
                yield waiting.popleft().result(family)
        while waiting:
            yield waiting.popleft().result(family)
    finally:
        for child in children:
            child.pipe.close()
        for child in children:
            os.waitpid(child.number, 0)


class Child:
    """A child of this process that works on items until its parent ends, or wants no more."""

    def __init__(self, function, family, elder):
        self.pipe, far = Pipe()
        with interrupts.masked():  # the parent acts on interrupts, and the child gets none
            self.number = os.fork()
            if self.number == 0:
                try:
                    interrupts.forget()
                    for child in (*elder, self):
                        child.pipe.close()
                    self.work(far, function, family)
                finally:
                    os._exit(0)
        far.close()

    @staticmethod
    def work(pipe, function, family):
        family.begin()
        try:
            while True:
                item = pipe.recv()
                try:
                    done, result = True, function(item)
                except Exception as error:  # the parent raises it
                    done, result = False, error
                pipe.send((done, result, family.news()))
        except (EOFError, OSError):
            pass  # the parent has ended, or wants no more

    def give(self, item):
        try:
            self.pipe.send(item)
        except OSError:
            raise StoreError(ENDED) from None

    def result(self, family):
        try:
            done, result, news = self.pipe.recv()
        except (EOFError, OSError):
            raise StoreError(ENDED) from None
        family.take(news)
        if not done:
            raise result
        return result
