"""Which write of an image counts, from what the nodes hold. Nothing is asked or written here.

A write is sent to its participants in two steps: every participant prepares, and only then is one asked to commit. So:

- A write that some node has committed counts; participants that have only prepared it are to commit.
- Where no node has committed, and a participant is here that has not prepared or none is away, no node has committed: the
  write is undone.
- Where every participant that is here has prepared, and others are away, one of those may have committed: the write counts.

An update gives new content to some nodes only, at least n-k+1 of them, and tells these. Any k nodes have one of them among
them, so the newest header of any k nodes says, by its `writes`, whose content is of today (docs/STORE.md has the argument).
"""
from dataclasses import dataclass, field

from .errors import StoreError, TooFewNodes


@dataclass(frozen=True)
class View:
    """What is seen of an image: the header of each node that has a share, that of each prepared write, and the nodes of
    which nothing is known: away, or with a header that cannot be read."""
    n: int
    k: int
    current: dict
    pending: dict
    silent: frozenset

    def seen(self):
        return [node for node in range(self.n) if node not in self.silent]

    def holds(self, node, header):
        """Whether the node has the content that a header says it has."""
        held = self.current.get(node)
        if held is None:
            return header.removed and node not in self.silent
        return held.content == header.writes[node]

    def may_hold(self, node, header):
        """Whether it has, or will have when it commits what it has prepared."""
        prepared = self.pending.get(node)
        return self.holds(node, header) or (prepared is not None and prepared.content == header.writes[node])

    def holders(self, header):
        return [node for node in self.seen() if self.may_hold(node, header)]


@dataclass(frozen=True)
class Ruling:
    """The header that counts, None where there is no such image, and what follows for the nodes that are here."""
    header: object = None
    right: tuple = ()
    wrong: tuple = ()
    commit: dict = field(default_factory=dict)
    drop: tuple = ()

    @property
    def exists(self):
        return self.header is not None and not self.header.removed

    @property
    def settled(self):
        return not self.commit and not self.drop


def newest(view, undo):
    """The newest committed header that k nodes hold, or None. Where a newer one may be held by nodes that are away: refused."""
    found = {header.write: header for header in view.current.values()}
    for generation in sorted({header.generation for header in found.values()}, reverse=True):
        rivals = [header for header in found.values() if header.generation == generation]
        whole = [header for header in rivals if len(view.holders(header)) >= view.k]
        if len(whole) > 1:
            raise StoreError(f"{whole[0].name}: two writes of generation {generation} are held by {view.k} nodes each")
        if whole:
            return whole[0]
        for header in rivals:
            held = view.holders(header)
            if len(held) + len(view.silent) >= view.k and not undo:
                raise TooFewNodes(
                    f"{header.name}: {len(held)} nodes are here that hold generation {generation}, and {view.k} are needed")
    return None


def undecided(view, counted):
    """The prepared writes that are newer than the one that counts, newest first."""
    generation = counted.generation if counted else 0
    found = {header.write: header for header in view.pending.values() if header.generation > generation}
    return sorted(found.values(), key=lambda header: -header.generation)


def counts(view, header, undo):
    """Whether a write that no node here has committed may have been committed by one that is away."""
    here = {node for node in header.participants if node not in view.silent}
    prepared = {node for node in here if node in view.pending and view.pending[node].write == header.write}
    if here != prepared or here == header.participants or undo:
        return False
    if len(view.holders(header)) < view.k:
        raise TooFewNodes(
            f"{header.name}: a write is in doubt, and {len(here)} of the {len(header.participants)} nodes that know of it are here")
    return True


def decide(view, undo=False):
    """The ruling on what is seen. With `undo` what k nodes that are here do not hold is given up."""
    counted = newest(view, undo)
    for header in undecided(view, counted):
        if counts(view, header, undo):
            counted = header
            break
    if counted is None:
        if view.current and not undo:
            raise TooFewNodes(f"{next(iter(view.current.values())).name}: fewer than {view.k} nodes hold a share of one write")
        return Ruling(drop=tuple(view.pending))
    return ruling(view, counted)


def ruling(view, counted):
    """What follows for each node from the header that counts."""
    commit, drop, right, wrong = {}, [], [], []
    for node in view.seen():
        prepared = view.pending.get(node)
        if prepared and (prepared.write == counted.write or
                         (prepared.content == counted.writes[node] and not view.holds(node, counted))):
            commit[node] = prepared.write
        elif prepared:
            drop.append(node)
        (right if view.holds(node, counted) or node in commit else wrong).append(node)
    return Ruling(counted, tuple(right), tuple(wrong), commit, tuple(drop))
