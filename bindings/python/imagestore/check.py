"""check: every block of every node is read and compared; what is wrong is named and, if so asked, set right."""
from . import image, interrupts, lock, rebuild
from .errors import NodesFailed, StoreError, TooFewNodes
from .examine import Findings, examine
from .names import check_name


def set_right(store, session, seen, found):
    """Makes the shares of the wrong nodes anew from right ones; gives the nodes that were."""
    done, jobs = [], rebuild.job_roster(store, {*found.wrong, *session.down})
    for node in sorted(found.wrong):
        if node in session.links:
            try:
                rebuild.rebuild_image(store, session, seen, node, jobs, found.untold, whole=bool(found.doubts))
                done.append(node)
            except NodesFailed:
                pass  # the node is down, and said to be
    return done


def check_name_of(store, session, name, correct, undo):
    """Checks one image, and sets it right if so asked."""
    seen = store.look(session, name, undo)
    if seen.header is None:
        return None
    found = examine(store, session, seen) if seen.exists else Findings(seen.faults)
    first, done = dict(found.wrong), []
    if correct and found.wrong and not found.lost:
        done = set_right(store, session, seen, found)
        seen = store.look(session, name)
        found = examine(store, session, seen) if seen.exists else Findings(seen.faults)
    rebuild.purge(store, session, seen)
    if not seen.exists and not found:
        return None
    return {"image": name, "generation": seen.header.generation, "length": seen.header.length, "removed": seen.header.removed,
            "digest": seen.header.digest.hex(), "found": first, "corrected": done, "wrong": found.wrong, "doubts": found.doubts,
            "lost": found.lost}


def check(store, names, correct=False, undo=False):
    """Checks images, all where none is named. One that cannot be had does not keep the others from being checked."""
    for name in names:
        check_name(name)
    mode = lock.EXCLUSIVE if correct or undo else lock.SHARED
    with store.session(lock.NONE, "check") as session:
        session.try_lock(lock.EXCLUSIVE)  # for a moment, if it can be had: what crashes have left is then removed
        session.lock(mode, store.wait)
        results, lost, failed = [], {}, {}
        listed = image.look_at_all(session)
        for name in names or listed:
            interrupts.point()
            try:
                result = check_name_of(store, session, name, correct, undo)
            except TooFewNodes as error:
                lost[name] = str(error)
                continue
            except StoreError as error:
                failed[name] = str(error)
                continue
            if result is None and names and name not in listed:
                raise StoreError(f"there is no image {name}")
            if result:
                results.append(result)
        return {"images": results, "lost": lost, "failed": failed, "absent": dict(session.down), "traffic": session.traffic()}
