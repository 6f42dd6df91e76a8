"""leave and return: the events of the roster."""
import balanced

from .errors import StoreError, UsageError


def leave(store, node):
    """The node has left: no command asks it any more."""
    return event(store, node, "leave", "has left already")


def rejoin(store, node):
    """The node is back; what it holds that is not of today is found by its headers, and made anew by `rebuild`."""
    return event(store, node, "rejoin", "has not left")


def event(store, node, what, already):
    with store.changed_roster() as roster:
        try:
            getattr(roster, what)(node)
        except balanced.AlreadyError:
            raise StoreError(f"node {node} {already}") from None
        except balanced.RangeError:
            raise UsageError(f"there is no node {node}: the nodes are 0 to {store.plan.n - 1}") from None
        return {"node": node, "present": roster.present(), "needed": store.plan.k}
