"""What the nodes hold of an image, and which of them have it right as far as headers say."""
import struct
from dataclasses import dataclass

from . import entries, frames, share
from .decide import View, decide
from .frames import Request
from .layout import Layout
from .names import is_name


@dataclass
class Image:
    """An image as a session sees it. `faults` has a sentence for each node that is here and whose share is not right."""
    name: str
    view: View
    ruling: object
    layout: Layout
    faults: dict

    @property
    def header(self):
        return self.ruling.header

    @property
    def exists(self):
        return self.ruling.exists

    def holders(self):
        """The nodes that have the content that counts now; blocks of it may still be damaged or cut off."""
        return [node for node in self.ruling.right if self.view.holds(node, self.header)]

    def right(self):
        """The nodes of which nothing wrong is known."""
        return [node for node in self.ruling.right if node not in self.faults]

    def next_generation(self):
        seen = [*self.view.current.values(), *self.view.pending.values()]
        return max((header.generation for header in seen), default=0) + 1


def foreign(settings, name, node, header):
    """What is wrong with the header of a share as a node's share of an image, or None."""
    if header.store != settings.store:
        return "the share is of another store"
    if (header.record, header.lanes) != (settings.record, settings.lanes):
        return "the share is of another record, or of other lanes"
    if header.name != name:
        return f"the share is of the image {header.name}"
    if header.node != node:
        return f"the share is that of node {header.node}"
    return None


def read_header(settings, name, node, data, damage):
    """The header and None, None and what is wrong with it, or None and None where there is none."""
    if damage or data is None:
        return None, damage
    try:
        header = share.unpack_header(data)
    except share.BadShare as error:
        return None, str(error)
    why = foreign(settings, name, node, header)
    return (None, why) if why else (header, None)


def see(settings, plan, name, found, undo=False):
    """The image, from the entry of each node that is here."""
    current, pending, faults = {}, {}, {}
    for node, entry in found.items():
        header, why = read_header(settings, name, node, entry.header, entry.damage)
        prepared, why_not = read_header(settings, name, node, entry.pending, entry.pending_damage)
        if why or why_not:
            faults[node] = why or f"what it has prepared: {why_not}"
            continue
        if header:
            current[node] = header
        if prepared:
            pending[node] = prepared
    silent = frozenset(node for node in range(plan.n) if node not in found or node in faults)
    view = View(plan.n, plan.k, current, pending, silent)
    ruling = decide(view, undo)
    return described(name, view, ruling, plan, found, faults)


def described(name, view, ruling, plan, found, faults):
    """The image with the faults that follow from the ruling."""
    header = ruling.header
    layout = Layout(plan, header.lanes, header.length, name) if header else None
    for node in ruling.wrong:
        held = view.current.get(node)
        faults[node] = f"it holds generation {held.generation}, an older write" if held else "it holds no share of the image"
        if held and header.removed:
            faults[node] = "it holds a share of an image that was removed"
        elif held and held.generation >= header.generation:
            faults[node] = f"it holds a write of generation {held.generation} that was given up"
    for node in ruling.right if ruling.exists else ():
        if node not in ruling.commit and found[node].size != layout.file_len:
            faults[node] = f"the share has {found[node].size} bytes, and {layout.file_len} are right"
    return Image(name, view, ruling, layout, faults)


def page_of(session, node, data, fits):
    """The entries of a node's answer. One that makes no sense, or whose names do not fit, is the end of the node."""
    try:
        page = entries.unpack(bytes(data))
        if fits([entry.name for entry in page]):
            return page
    except (ValueError, struct.error):
        pass
    session.fail(node, "its answer makes no sense")
    return []


def look(session, plan, name, undo=False):
    """The image of a name."""
    answers = session.try_ask(session.up(), lambda node: Request(frames.STAT, name))
    pages = {node: page_of(session, node, data, lambda names: names == [name]) for node, data in answers.items()}
    return see(session.settings, plan, name, {node: page[0] for node, page in pages.items() if page}, undo)


def are_next(names, after):
    """Whether these are names of images, in order, behind a name."""
    return all(map(is_name, names)) and all(one < two for one, two in zip([after, *names], names))


def look_at_all(session):
    """The entries of all nodes that are here: for each name that a node has, what each node says of it."""
    after, listed = {node: "" for node in session.up()}, {}
    while after:
        answers = session.try_ask(sorted(after), lambda node: Request(frames.LIST, after[node]))
        for node in list(after):
            page = page_of(session, node, answers.get(node, b""), lambda names: are_next(names, after[node]))
            for entry in page:
                listed.setdefault(entry.name, {})[node] = entry
            if page:
                after[node] = page[-1].name
            else:
                del after[node]
    here = session.up()
    return {name: {node: found.get(node, entries.Entry(name)) for node in here} for name, found in sorted(listed.items())}
