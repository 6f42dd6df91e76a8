"""What children of this process, which ask the nodes of its session as it does, tell their parent."""


class Family:
    """Of a session, and of a reader where there is one: the bytes that a child counted, the nodes that failed, the blocks that are damaged."""

    def __init__(self, session, reader=None):
        self.session, self.reader = session, reader

    def can_part(self):
        """Whether children can ask the nodes: a folder each of them has open, and a pipe only one can use."""
        return all(link.pipe is None for link in self.session.links.values())

    def begin(self):
        """In a child: what was counted so far is the parent's."""
        self.told = self.figures()

    def figures(self):
        return {node: link.figures() for node, link in self.session.everyone().items()}

    def news(self):
        """In a child: what came of the last item."""
        before, self.told = self.told, self.figures()
        counted = {node: [one - other for one, other in zip(now, before[node])] for node, now in self.told.items() if now != before[node]}
        return counted, dict(self.session.down), dict(self.reader.faults) if self.reader else {}

    def take(self, news):
        """In the parent."""
        counted, down, faults = news
        for node, figures in counted.items():
            self.session.everyone()[node].add(figures)
        for node, why in down.items():
            self.session.fail(node, why)
        for node, blocks in faults.items():
            self.reader.faults.setdefault(node, set()).update(blocks)
