"""list and nodes: what the nodes say of the images, and of themselves."""
from . import image, lock
from .errors import StoreError, TooFewNodes


def describe(store, session, name, found):
    """One image as the headers have it; nothing is finished or undone."""
    try:
        seen = image.see(store.settings, store.plan, name, found)
    except TooFewNodes as error:
        return {"image": name, "lost": str(error)}
    except StoreError as error:
        return {"image": name, "doubt": str(error)}
    if not seen.exists:
        return None
    header = seen.header
    return {"image": name, "length": header.length, "generation": header.generation, "digest": header.digest.hex(),
            "right": seen.right(), "wrong": seen.faults, "unsettled": not seen.ruling.settled}


def list_images(store):
    with store.session(lock.SHARED, "list") as session:
        found = image.look_at_all(session)
        images = [describe(store, session, name, entries) for name, entries in found.items()]
        return {"images": [one for one in images if one], "absent": dict(session.down)}


def list_nodes(store):
    """Each node: where it is, whether it is present and reached, and how many images it holds."""
    present = set(store.present())
    with store.session(lock.SHARED, "nodes", need=0) as session:
        found = image.look_at_all(session)
        images = [one for one in (describe(store, session, name, entries) for name, entries in found.items()) if one]
        nodes = []
        for node, place in enumerate(store.settings.nodes):
            state = "left" if node not in present else "here" if node in session.links else "away"
            held = sum(node in one.get("right", ()) for one in images)
            wrong = sum(node in one.get("wrong", ()) for one in images)
            nodes.append({"node": node, "place": place, "state": state, "right": held, "wrong": wrong, "why": session.down.get(node)})
        return {"nodes": nodes, "needed": store.plan.k, "images": len(images)}
