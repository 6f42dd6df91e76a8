"""Lost and wrong together: the message of listed nodes, some of which hold wrong symbols, and which those are.

In each lane the message is the one whose encoding differs from the symbols of the s listed nodes at no more than (s - k)/2 of
them, rounded down. It is found by Berlekamp and Welch's linear system, over the listed nodes alone.
"""
from balanced import call, combine, lanes_bad, lanes_of, message_of, null_vector, symbols_bad


def near_word(plan, nodes, symbols):
    """(the message, what the listed nodes hold for it), or None.

    If there is such a message, the polynomials E of degree up to t and N of degree below k + t with N = symbol·E at every listed
    node, not both zero, have N = f·E, where f is the word's polynomial: they agree at s >= k + 2t points. So E is zero
    wherever a symbol is wrong, and k other nodes give the message.
    """
    field, most = plan.field, (len(nodes) - plan.k) // 2
    equations = []
    for j, symbol in zip(nodes, symbols):
        equations.append([*plan.power_row(j, plan.k + most, 1), *plan.power_row(j, most + 1, field.minus(0, symbol))])
    solution = null_vector(field, equations, plan.k + 2 * most + 1)
    if solution is None:
        return None
    errors = [field.row([c]) for c in solution[plan.k + most:]]
    left = [i for i, j in enumerate(nodes) if combine(field, plan.power_row(j, most + 1, 1), errors)[0]][:plan.k]
    if len(left) < plan.k:
        return None
    rows = message_of(plan, [nodes[i] for i in left], plan.bytes([symbols[i] for i in left]))
    word = [combine(field, plan.column(j), rows)[0] for j in nodes]
    near = sum(x != y for x, y in zip(word, symbols)) <= most
    return ([row[0] for row in rows], word) if near else None


def correct_listed(record, lanes, nodes, shares, message_room, wrong_room):
    """(number, (total, message, in how many lanes each place of the list was wrong))"""
    found = []

    def faults(plan):
        yield 7, lanes_bad(lanes)
        yield 8, not plan.k <= len(nodes) <= plan.n
        yield 8, len(shares) != plan.size(len(nodes) * lanes)
        yield 8, message_room != plan.size(plan.k * lanes) or wrong_room != len(nodes)
        yield 9, any(j >= plan.n for j in nodes)
        yield 10, len(set(nodes)) < len(nodes)
        yield 11, symbols_bad(plan, shares)
        found.extend(near_word(plan, nodes, lane) for lane in lanes_of(plan.symbols(shares), len(nodes)))
        yield 14, None in found

    def work(plan):
        held = lanes_of(plan.symbols(shares), len(nodes))
        wrong = [sum(word[i] != lane[i] for (_, word), lane in zip(found, held)) for i in range(len(nodes))]
        rows = zip(*(message for message, _ in found))
        return sum(wrong), b"".join(plan.bytes(row) for row in rows), wrong

    return call(record, faults, work)
