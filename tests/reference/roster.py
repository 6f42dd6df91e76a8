"""Rosters by their history: every answer is worked out from the list of events and the number of jobs, and nothing else is kept.

A node is present if the last event that names it is a return, or if no event names it. A history is that of one record. The number of jobs
that wrote since the last accepted event is counted without end.
"""
from balanced import read


class History:
    def __init__(self):
        """A roster with no node, as a refused start leaves it."""
        self.events, self.first, self.n, self.jobs = [], False, 255, 0

    def start(self, record):
        """All nodes present, or none beside the record's number."""
        accepted = read(record)
        number = accepted if isinstance(accepted, int) else 0
        self.events, self.first, self.jobs = [], number == 0, 0
        self.n = 255 if number else accepted[2]
        return number

    def is_present(self, node):
        return next((says for named, says in reversed(self.events) if named == node), self.first)

    def present(self, n):
        return [node for node in range(n) if self.is_present(node)]

    def event(self, record, node, says):
        """The number that an event meets; a refused one tells nothing new, unless its node is none of the record's."""
        accepted = read(record)
        if isinstance(accepted, int):
            return accepted
        n = accepted[2]
        if node >= n:
            return 9
        number = 15 if self.is_present(node) == says else 0
        self.events.append((node, says))
        if not number:
            self.jobs = 0
        return number

    def lowest(self, record, room):
        """The number, or 0 with the k lowest present nodes, or with None where they are too few."""
        accepted = read(record)
        if isinstance(accepted, int):
            return accepted, None
        n, k = accepted[2:]
        if room != k:
            return 8, None
        nodes = self.present(n)
        return 0, nodes[:k] if len(nodes) >= k else None

    def job(self, record, room):
        """As `lowest`, with the nodes that the next job reads: its k places of the present nodes, repeated without end."""
        number, lowest = self.lowest(record, room)
        if number or lowest is None:
            return number, None
        nodes, k = self.present(read(record)[2]), len(lowest)
        self.jobs += 1
        return 0, [nodes[place % len(nodes)] for place in range((self.jobs - 1) * k, self.jobs * k)]

    def next_job(self):
        """The number of the next job, modulo the present nodes where a job has written."""
        return self.jobs % len(self.present(self.n)) if self.jobs else 0
