"""Shares read from nodes, block by block from nodes whose checksums are right and that hold symbols: what fails is read
elsewhere, and named."""
from . import coding, frames
from .errors import TooFewNodes, for_nodes
from .frames import Request


class Reader:
    """Reads the blocks of one image. `faults` says which nodes failed, with the blocks; more than one thread may read.

    Nodes that are excluded are not asked. `untold` has the blocks of nodes that are wrong although their checksums are right.
    """

    def __init__(self, store, session, seen, exclude=(), untold=None):
        self.store, self.session, self.layout = store, session, seen.layout
        self.nodes = [node for node in seen.holders() if node not in exclude]
        self.suspects, self.untold, self.faults = {node for node in seen.faults}, untold or {}, {}

    def order(self):
        """The nodes, those that answer fastest first and those with known faults last."""
        links = self.session.links
        return sorted((node for node in self.nodes if node in links),
                      key=lambda node: (node in self.suspects or node in self.faults, round(links[node].delay, 2), node))

    def sound(self, batch):
        """The nodes of which nothing wrong is known in a batch, in order."""
        return [node for node in sorted(self.order()) if node not in self.suspects
                and not self.faults.get(node, set()) & set(batch) and not self.untold.get(node, set()) & set(batch)]

    def fetch(self, batch, nodes):
        """For each block of a batch its share at those of the nodes that have it right."""
        place = self.layout.place(batch[0])
        count = self.layout.place(batch[-1] + 1) - place
        answers = self.session.try_ask(nodes, lambda node: Request(frames.READ, self.layout.name, place, count))
        held, cuts = {block: {} for block in batch}, coding.spans(self.layout, batch)
        for node, data in answers.items():
            right, untold = coding.blocks_in(self.store.plan, data, cuts), self.untold.get(node, ())
            for block in batch:
                if block in untold:
                    continue
                if block in right:
                    held[block][node] = right[block]
                else:
                    self.faults.setdefault(node, set()).add(block)
        return held

    def bits(self, batch, nodes, target, missing):
        """What the nodes send of a batch for the repair of another: for each that has all blocks right its bits of each."""
        data = bytes([target, *missing])
        answers = self.session.try_ask(nodes, lambda node: Request(frames.BITS, self.layout.name, batch[0], len(batch), data))
        sizes = coding.bits_sizes(self.layout, batch, len(missing))
        found = {}
        for node, answer in answers.items():
            rows = coding.bits_in(answer, sizes)
            if rows is None:
                self.session.fail(node, "its answer makes no sense")
                continue
            damaged = {block for block, row in zip(batch, rows) if row is None}
            if damaged:
                self.faults.setdefault(node, set()).update(damaged)
            else:
                found[node] = rows
        return found

    def read(self, batch, nodes=None):
        """For each block of a batch the shares of k nodes: of the nodes that are named, where they hold the image right."""
        k = self.store.plan.k
        nodes = [node for node in nodes if node in self.nodes] if nodes else self.order()[:k]
        held = self.fetch(batch, nodes)
        for block in batch:
            tried = set(nodes)
            while len(held[block]) < k:
                spare = [node for node in self.order() if node not in tried][:k - len(held[block])]
                if not spare:
                    raise TooFewNodes(self.too_few(block, len(held[block])))
                tried.update(spare)
                held[block].update(self.fetch([block], spare)[block])
            yield block, dict(list(held[block].items())[:k])

    def too_few(self, block, count):
        why = for_nodes({**{node: self.said(node) for node in self.faults}, **self.session.down})
        return f"{self.layout.name}: block {block} is right at {count} nodes, and {self.store.plan.k} are needed{why}"

    def said(self, node):
        """What is wrong with a node, in words."""
        blocks = sorted(self.faults[node])
        return f"block {blocks[0]} is damaged" if len(blocks) == 1 else f"{len(blocks)} blocks are damaged, from {blocks[0]} on"
