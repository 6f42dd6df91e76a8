"""What each node has to add where one row of a message changes, the node's side of it, and Update for a run of lanes.

What node j adds is its share of the message that holds new - old in the row that changes, and zeros elsewhere.
"""
from balanced import above, call, combine, lanes_bad, lanes_of, symbols_bad


def difference(plan, old, new):
    """new - old, symbol by symbol."""
    return plan.field.row(plan.field.minus(y, x) for x, y in zip(old, new))


def total(plan, one, two):
    return [plan.field.plus(x, y) for x, y in zip(one, two)]


def differences(record, lanes, symbol, old, new, room):
    """(number, what each node adds, node after node)"""

    def faults(plan):
        yield 7, lanes_bad(lanes)
        yield 8, not len(old) == len(new) == plan.size(lanes) or room != plan.size(plan.n * lanes)
        yield 9, symbol >= plan.k
        yield 11, symbols_bad(plan, old) or symbols_bad(plan, new)

    def work(plan):
        rows = [plan.field.row([0] * lanes) for _ in range(plan.k)]
        rows[symbol] = difference(plan, plan.symbols(old), plan.symbols(new))
        return b"".join(plan.bytes(combine(plan.field, plan.column(j), rows)) for j in range(plan.n))

    return call(record, faults, work)


def add_share(record, lanes, difference, share):
    """(number, the share afterwards)"""

    def faults(plan):
        yield 7, lanes_bad(lanes)
        yield 8, not len(difference) == len(share) == plan.size(lanes)
        yield 11, symbols_bad(plan, difference) or symbols_bad(plan, share)

    return call(record, faults, lambda plan: plan.bytes(total(plan, plan.symbols(share), plan.symbols(difference))))


def update_lanes(record, lanes, symbol, first, old, new, shares):
    """(number, (count, shares afterwards)): lane first + i changes from symbol i of `old` to symbol i of `new`.

    Every lane is judged before one is changed, in their order: 12 where the first that may not change is no word, 13 where its message holds another symbol.
    """

    def run(plan):
        """The lanes that are to change."""
        return lanes_of(plan.symbols(shares), plan.n)[first:first + len(old) // plan.size(1)]

    def stale(plan, lane, held):
        """The lane's number, or 0."""
        return 12 if not plan.is_word(lane) else 13 if plan.message(lane)[symbol] != held else 0

    def faults(plan):
        yield 7, lanes_bad(lanes)
        yield 8, len(old) != len(new) or len(old) % plan.size(1) != 0 or len(shares) != plan.size(plan.n * lanes)
        yield 9, symbol >= plan.k or first + len(old) // plan.size(1) > lanes
        yield 11, symbols_bad(plan, old) or symbols_bad(plan, new) or any(above(plan, lane) for lane in run(plan))
        number = next(filter(None, (stale(plan, *each) for each in zip(run(plan), plan.symbols(old)))), 0)
        yield 12, number == 12
        yield 13, number == 13

    def work(plan):
        before = list(plan.symbols(shares))
        after = list(before)
        changes = difference(plan, plan.symbols(old), plan.symbols(new))
        for t, amount in enumerate(changes, first):
            row = plan.field.multiple(amount, plan.field.row(plan.entries[symbol]))
            after[t * plan.n:(t + 1) * plan.n] = total(plan, before[t * plan.n:(t + 1) * plan.n], row)
        return sum(x != y for x, y in zip(before, after)), plan.bytes(after)

    return call(record, faults, work)
