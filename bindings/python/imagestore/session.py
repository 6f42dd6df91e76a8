"""The nodes of a store as one command has them: linked, locked, and asked side by side.

A node that fails is down for the rest of the command, and `down` has the sentence that says why.
"""
import os
import random
import selectors
import time
from functools import partial

from . import frames, interrupts, lock
from .errors import Busy, NodesFailed, Refused, StoreError, TooFewNodes, for_nodes, of_disk
from .frames import Request
from .link import FolderLink
from .node import MAKE
from .remote import PipeLink
from .settings import is_remote


def note_delays(links):
    """Notes how long each node on another machine takes to answer what it was asked just now."""
    begun, waiting = time.monotonic(), selectors.DefaultSelector()
    for link in links:
        if link.pipe is not None:
            waiting.register(link.pipe, selectors.EVENT_READ, link)
    while waiting.get_map():
        interrupts.point()
        for key, _ in waiting.select(0.5):
            key.data.delay = time.monotonic() - begun
            waiting.unregister(key.fileobj)
    waiting.close()


class Session:
    def __init__(self, settings, nodes, make=(), how=MAKE):
        """Links to the nodes. Those of `make` may be folders that are no nodes yet, and become them, or with FREE could."""
        self.settings, self.links, self.down, self.past = settings, {}, {}, []
        for node in nodes:
            try:
                self.links[node] = self.link(settings.nodes[node])
            except OSError as error:
                self.down[node] = of_disk(error)
        head = frames.GREETING + frames.PROTOCOL.to_bytes(2, "big")
        self.try_ask(self.up(), lambda node: Request(
            frames.HELLO, count=how if node in make else 0, data=head + settings.marker(node)), timed=True)

    def link(self, place):
        if is_remote(place):
            return PipeLink(place, self.settings.ssh, self.settings.program)
        return FolderLink(os.path.join(os.path.dirname(os.path.abspath(self.settings.path)), place))

    def up(self):
        return sorted(self.links)

    def fail(self, node, why):
        """The node is down. Another thread may have seen to it already."""
        link = self.links.pop(node, None)
        if link:
            self.down[node] = why
            self.past.append((node, link))
            link.close()

    def gather(self, nodes, request, timed=False):
        """Asks the nodes side by side: the answers, and what the others say instead."""
        answers, failures, asked, at_once = {}, {}, [], []
        for node in sorted(nodes):  # in one order in all threads, so that no two wait for each other
            link, wanted = self.links.get(node), request(node)
            if link is None:
                failures[node] = Refused(self.down.get(node, "the node is not here"))
            elif not link.waits(wanted):
                at_once.append((node, link, wanted))
            else:
                try:
                    link.start(wanted)
                    asked.append((node, link))
                except Refused as error:
                    failures[node] = error
        if timed:
            note_delays([link for _, link in asked])
        for node, work in [*((node, partial(link.ask, wanted)) for node, link, wanted in at_once),
                           *((node, link.finish) for node, link in asked)]:
            try:
                answers[node] = work()
            except Refused as error:
                failures[node] = error
        return answers, failures

    def try_ask(self, nodes, request, timed=False):
        """Asks the nodes side by side; one that fails is down."""
        answers, failures = self.gather(nodes, request, timed)
        for node, error in failures.items():
            self.fail(node, str(error))
        return answers

    def ask(self, nodes, request):
        """Asks the nodes side by side; if one fails, it is down, and so is what was asked for."""
        interrupts.point()
        answers = self.try_ask(nodes, request)
        missing = [node for node in nodes if node not in answers]
        if missing:
            raise NodesFailed({node: self.down[node] for node in missing})
        return answers

    def try_lock(self, mode):
        """Takes the nodes' locks, all or none: None, or the sentence of a node that another command has."""
        _, failures = self.gather(self.up(), lambda node: Request(frames.LOCK, count=mode))
        for node, error in failures.items():
            if not isinstance(error, Busy):
                self.fail(node, str(error))
        busy = [f"node {node}: {error}" for node, error in sorted(failures.items()) if isinstance(error, Busy)]
        if busy:
            self.gather(self.up(), lambda node: Request(frames.LOCK, count=lock.NONE))
        return busy[0] if busy else None

    def lock(self, mode, wait):
        """Takes the nodes' locks; where another command has one, tries again for some seconds."""
        deadline = time.monotonic() + wait
        while (busy := self.try_lock(mode)) is not None:
            interrupts.point()
            if time.monotonic() >= deadline:
                raise StoreError(f"{busy}; nothing was done (--wait SECONDS waits for it)")
            time.sleep(random.uniform(0.02, 0.2))

    def need(self, count, what):
        """Sees that so many nodes are here."""
        if len(self.links) < count:
            away = {node: self.down.get(node, "it has left") for node in range(len(self.settings.nodes)) if node not in self.links}
            raise TooFewNodes(f"{what}: {len(self.links)} nodes are here, and {count} are needed{for_nodes(away)}")

    def everyone(self):
        """The links by their nodes, of those that are down too."""
        return dict(sorted([*self.past, *self.links.items()], key=lambda pair: pair[0]))

    def traffic(self):
        """The bytes that each node was sent and has sent, on the pipe, and of these what is share."""
        return {node: dict(zip(("sent", "received", "shares_sent", "shares_received"), link.figures()))
                for node, link in self.everyone().items()}

    def close(self):
        for link in self.links.values():
            link.close()

    def __enter__(self):
        return self

    def __exit__(self, *_):
        self.close()
