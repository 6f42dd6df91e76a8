"""A command's link to one node: requests go out, answers come back, and both are counted.

A node's folder on this machine is asked directly, and counted as if there were a pipe, so that figures can be compared.
"""
import threading
from concurrent.futures import ThreadPoolExecutor

from . import frames
from .errors import Busy, Refused, StoreError, of_disk, sentence
from .node import Node

# requests that wait for the disk: on folders of this machine they run side by side
SLOW = {frames.LOCK, frames.SEAL, frames.COMMIT, frames.DROP, frames.PURGE}
POOL = ThreadPoolExecutor(max_workers=32, thread_name_prefix="disk")


class Link:
    """One node. `start` sends a request and `finish` gives its answer; between the two the link is the thread's own.

    `delay` is how long the first answer took, in seconds; a folder of this machine has none.
    """

    pipe = None  # what the answers come from, if it can be waited for

    def __init__(self, place):
        self.place, self.turn, self.delay = place, threading.Lock(), 0.0
        self.sent = self.received = self.shares_sent = self.shares_received = 0

    def waits(self, request):
        """Whether other nodes are to be asked while this one works."""
        return True

    def ask(self, request):
        self.start(request)
        return self.finish()

    def start(self, request):
        self.turn.acquire()
        try:
            self._send(request)
        except BaseException:
            self.turn.release()
            raise
        size = frames.data_len(request)
        self.sent += frames.request_len(request, size)
        if request.op in (frames.WRITE, frames.PATCH, frames.ADD):
            self.shares_sent += size
        self.request = request

    def finish(self):
        try:
            status, data = self._receive()
            self.received += frames.answer_len(data)
            if self.request.op in (frames.READ, frames.BITS) and status == frames.DONE:
                self.shares_received += len(data)
        finally:
            self.turn.release()
        if status == frames.BUSY:
            raise Busy(sentence(data))
        if status != frames.DONE:
            raise Refused(sentence(data))
        return data

    def figures(self):
        return self.sent, self.received, self.shares_sent, self.shares_received

    def add(self, figures):
        """Counts what was sent and received by a child of this process, too."""
        self.sent, self.received, self.shares_sent, self.shares_received = map(sum, zip(self.figures(), figures))

    def close(self):
        """Closes the link once no thread has a request under way, or after a minute. A request that comes later is refused."""
        free = self.turn.acquire(timeout=60)
        try:
            self._close()
        finally:
            if free:
                self.turn.release()


def answer_of(node, request):
    """The status and the data that a node answers with; what a disk refuses is a sentence too."""
    try:
        return frames.DONE, node.answer(request)
    except Busy as error:
        return frames.BUSY, str(error).encode()
    except (OSError, StoreError) as error:
        return frames.REFUSED, of_disk(error).encode("utf-8", "replace")
    except Exception as error:  # whatever a request brings about, it has an answer
        return frames.REFUSED, f"{type(error).__name__}: {error}".encode()


class FolderLink(Link):
    """A folder of this machine."""

    def __init__(self, place):
        super().__init__(place)
        self.node, self.waiting = Node(place), None

    def waits(self, request):
        return request.op in SLOW

    def _send(self, request):
        self.waiting = POOL.submit(answer_of, self.node, request) if request.op in SLOW else None

    def _receive(self):
        return self.waiting.result() if self.waiting else answer_of(self.node, self.request)

    def _close(self):
        self.node.close()
