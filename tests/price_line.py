#!/usr/bin/env python3
"""Tries the bound of the price line on every scheme of tiny sizes, by going through all of them.

A scheme lays k symbols on n nodes so that any k nodes fix the message. What a node holds counts only up to its name: two contents
are equal or different. So a node is a way to put the messages into groups, those that it tells apart being in different ones.
With `any` contents all groupings are tried, and these are all schemes of that size, whatever the nodes hold; else those with so
many groups at most. For each scheme

    every change of one symbol alters at least n-k+1 nodes, and
    some node depends on at least k(n-k+1)/n symbols, rounded up.

Both least numbers are reached at every size here, so no larger ones would hold. This shares nothing with the proofs: it is for
readers who would rather see the bound tried than read why it holds.
"""
import sys
from itertools import combinations, product

# symbols of the alphabet, k, n, contents of a node
SIZES = [
    (2, 1, 2, "any"), (2, 1, 3, "any"), (3, 1, 3, "any"), (2, 2, 2, "any"), (2, 2, 3, "any"), (2, 2, 4, "any"),
    (3, 2, 2, 3), (3, 2, 3, 3), (3, 2, 4, 3), (2, 3, 3, 2), (2, 3, 4, 2),
]


def groupings(count, most):
    """The ways to put so many messages into at most so many groups: for each message its group, numbered as they first come."""
    if count == 0:
        return [()]
    return [(*rest, group) for rest in groupings(count - 1, most) for group in range(min(max(rest, default=-1) + 2, most))]


def fixes(nodes):
    """Whether no two messages are in the same group at each of the nodes."""
    held = list(zip(*nodes))
    return len(set(held)) == len(held)


def fitting(k, ways, nodes):
    """The ways that fix the message together with the newest node and any k-2 of the others."""
    if k == 1:
        return [node for node in ways if fixes([node])]
    if not nodes:
        return ways
    return [node for node in ways if all(fixes([*others, nodes[-1], node]) for others in combinations(nodes[:-1], k - 2))]


def schemes(k, n, ways, nodes=()):
    """Every list of n nodes any k of which fix the message."""
    if len(nodes) == n:
        yield nodes
        return
    fit = fitting(k, ways, nodes)
    for node in fit:
        yield from schemes(k, n, fit, (*nodes, node))


def changes(messages):
    """Every pair of messages that differ at one symbol, as their numbers, with that symbol's place."""
    for (u, before), (v, after) in combinations(enumerate(messages), 2):
        places = [r for r, (x, y) in enumerate(zip(before, after)) if x != y]
        if len(places) == 1:
            yield u, v, places[0]


def costs_of(nodes, altered):
    """The least nodes that a change alters, and the most symbols that a node depends on, from which changes alter which node."""
    writes = min(map(sum, zip(*(altered[node][0] for node in nodes))))
    return writes, max(altered[node][1] for node in nodes)


def altered_by(node, changed):
    """For each change whether it alters the node, and how many symbols the node depends on."""
    alters = [node[u] != node[v] for u, v, _ in changed]
    return alters, len({r for (_, _, r), hit in zip(changed, alters) if hit})


def tried(symbols, k, n, contents):
    """All schemes of one size: how many there are, and the least of each cost over all of them."""
    messages = list(product(range(symbols), repeat=k))
    most = len(messages) if contents == "any" else contents
    # k-1 other nodes tell no more messages of one group apart than they have contents together
    ways = [node for node in groupings(len(messages), most) if max(map(node.count, node)) <= most ** (k - 1)]
    changed = list(changes(messages))
    altered = {node: altered_by(node, changed) for node in ways}
    found = [costs_of(nodes, altered) for nodes in schemes(k, n, ways)]
    return len(found), min(writes for writes, _ in found), min(reads for _, reads in found)


def main():
    faults = total = 0
    for symbols, k, n, contents in SIZES:
        count, writes, reads = tried(symbols, k, n, contents)
        d = n - k + 1
        bound = d, -(-k * d // n)
        total, faults = total + count, faults + ((writes, reads) != bound)
        print(f"alphabet {symbols}, k = {k}, n = {n}, contents {contents}: schemes {count}, least writes {writes}, least busiest node {reads}, bound {bound[0]} {bound[1]}")
    print(f"price line: {total} schemes of {len(SIZES)} sizes, {faults} faults")
    sys.exit(1 if faults else 0)


if __name__ == "__main__":
    main()
