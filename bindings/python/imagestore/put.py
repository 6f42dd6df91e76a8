"""put: a new image."""
from . import lock
from .errors import StoreError
from .names import check_name
from .source import Source
from .whole import write_whole


def put(store, name, path):
    check_name(name)
    with Source(path) as source, store.session(lock.EXCLUSIVE, f"put {name}") as session:
        seen = store.look(session, name)
        if seen.exists:
            raise StoreError(f"there is an image {name} already: `update` changes it, `rm` removes it")
        header, done = write_whole(store, session, seen, source)
        return {"image": name, "length": header.length, "generation": header.generation, "digest": header.digest.hex(),
                "nodes": done, "absent": absent(store, session, done), "traffic": session.traffic()}


def absent(store, session, done):
    """The nodes that a write did not reach, each with the reason."""
    return {node: session.down.get(node, "it has left") for node in range(store.plan.n) if node not in done}
