"""rm: an image is removed. Each node keeps the word of it until all n nodes know, so that a node that was away brings nothing back."""
from . import lock
from .errors import StoreError
from .names import check_name
from .rebuild import purge
from .whole import write_whole


def remove(store, name, force=False):
    """Removes an image; with `force` also what is left of one that too few nodes hold."""
    check_name(name)
    with store.session(lock.EXCLUSIVE, f"rm {name}") as session:
        seen = store.look(session, name, undo=True) if force else store.existing(session, name)
        if not seen.exists and not seen.view.current:
            raise StoreError(f"there is no image {name}")
        header, done = write_whole(store, session, seen, None)
        seen = store.look(session, name)
        purge(store, session, seen)
        return {"image": name, "generation": header.generation, "nodes": done,
                "absent": {node: session.down.get(node, "it has left") for node in range(store.plan.n) if node not in done},
                "traffic": session.traffic()}
