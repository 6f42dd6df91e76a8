"""The shares of k listed nodes, as Recover and Rebuild take them, from node after node to lane after lane and back."""
from balanced import call, lane_after_lane, lanes_bad, rows_of, shares_of


def faults_of(plan, lanes, source, room):
    yield 7, lanes_bad(lanes)
    yield 8, len(source) != plan.size(plan.k * lanes) or room != plan.size(plan.k * lanes)


def listed_to_lanes(record, lanes, by_node, room):
    """(number, the shares lane after lane)"""

    def work(plan):
        return lane_after_lane(plan, rows_of(plan.symbols(by_node), lanes))

    return call(record, lambda plan: faults_of(plan, lanes, by_node, room), work)


def listed_to_nodes(record, lanes, by_lane, room):
    """(number, the shares node after node)"""

    def work(plan):
        return b"".join(plan.bytes(row) for row in shares_of(plan, by_lane, plan.k))

    return call(record, lambda plan: faults_of(plan, lanes, by_lane, room), work)
