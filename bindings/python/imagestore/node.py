"""One node: its folder, its lock, and what a command asks of it.

The file `.imagestore` of the folder says which node of which store it is, and carries the lock.
"""
import json
import os

from . import entries, files, frames, share
from .errors import Busy, Refused
from .folder import Folder
from .lock import EXCLUSIVE, NONE, SHARED, Lock
from .names import is_name

MARKER = ".imagestore"
MAKE, FREE = 1, 2
LIST_BYTES = 1 << 20
MAX_BLOCKS = 1024  # whose bits are asked for at once: 2 KB at most for each


def which(marker):
    """What a marker says, in words."""
    try:
        says = json.loads(marker)
        return f"node {says['node']} of the store {says['store']}"
    except (ValueError, KeyError, TypeError):
        return "marked as nothing that this program knows"


class Node:
    """`answer` takes a request and gives the bytes of the answer."""

    def __init__(self, path):
        self.path, self.folder, self.lock, self.drafts, self.marker = path, None, None, {}, None

    def answer(self, request):
        if request.op == frames.HELLO:
            return self.hello(request)
        if self.folder is None:
            raise Refused("a request before the greeting")
        if request.op == frames.LOCK:
            return self.take_lock(request.count)
        act, mode = ACTS.get(request.op, (None, NONE))
        if act is None:
            raise Refused(f"there is no request {request.op}")
        if request.op != frames.LIST and not is_name(request.name):
            raise Refused(f"{request.name!r} is no name of an image")
        if self.lock.mode < mode:
            raise Refused("a request without the lock that it needs")
        return act(self, request) or b""

    def close(self):
        self.forget_drafts()
        if self.lock:
            self.lock.close()
        if self.folder:
            self.folder.close()
        self.lock = self.folder = None

    # the greeting and the lock

    def hello(self, request):
        """Sees that the folder is the node that is meant. A folder that is none yet becomes it with MAKE, and could with FREE."""
        head = frames.GREETING + frames.PROTOCOL.to_bytes(2, "big")
        if bytes(request.data[:len(head)]) != head:
            raise Refused(f"this is imagestore with protocol {frames.PROTOCOL}, and the other side speaks another")
        if self.folder is not None:
            raise Refused("a second greeting")
        if request.count == MAKE:
            files.make_folder(self.path)
        try:
            folder = files.open_folder(self.path)
        except (FileNotFoundError, NotADirectoryError):
            if request.count == FREE and not os.path.lexists(self.path):
                return head
            raise Refused(f"there is no folder {self.path}") from None
        try:
            if request.count == FREE:
                self.see_free(folder)
                os.close(folder)
            else:
                self.see_marker(folder, bytes(request.data[len(head):]), request.count == MAKE)
                self.folder = Folder(folder)
        except BaseException:
            os.close(folder)
            raise
        return head

    def see_free(self, folder):
        kept = files.content(folder, MARKER)
        if kept is not None:
            raise Refused(f"{self.path} is {which(kept)} already")

    def see_marker(self, folder, meant, make):
        kept = files.content(folder, MARKER)
        if kept is None and make:
            files.replace(folder, MARKER, meant)
            kept = meant
        if kept is None:
            raise Refused(f"{self.path} is no node of a store: it has no {MARKER} (is its disk there?)")
        if kept != meant:
            raise Refused(f"{self.path} is {which(kept)}, not {which(meant)}")
        self.marker, self.lock = json.loads(meant), Lock(files.open_file(folder, MARKER))

    def take_lock(self, mode):
        """Takes, changes or gives back the lock; what a crash has left is seen to first."""
        if mode not in (NONE, SHARED, EXCLUSIVE):
            raise Refused(f"there is no lock {mode}")
        self.forget_drafts()
        if mode != NONE and self.folder.names("redo"):
            if not self.lock.take(EXCLUSIVE):
                raise Busy("another command writes to this node")
            self.folder.finish_redos()
        if not self.lock.take(mode):
            raise Busy("another command writes to this node" if mode == SHARED else "another command uses this node")
        if mode == EXCLUSIVE:
            self.folder.remove_drafts()
        return b""

    def forget_drafts(self):
        """Gives up the drafts that were not ended, and the room that they take."""
        for name in list(self.drafts):
            self.forget_draft(name)

    # what is there

    def list(self, request):
        """The entries of the images after a name, as many as an answer has room for."""
        answer = b""
        for name in self.folder.names("share", "next", "redo"):
            if name > request.name and len(answer) < LIST_BYTES:
                answer += entries.pack(self.folder.entry(name))
        return answer

    def stat(self, request):
        return entries.pack(self.folder.entry(request.name))

    def read(self, request):
        if request.count > frames.MAX_DATA:
            raise Refused(f"{request.count} bytes are asked for: at most {frames.MAX_DATA} are sent")
        return self.folder.read(request.name, request.place, request.count)

    def bits(self, request):
        """For the repair of the node that the first byte of the data names, without those that the others name."""
        if not request.data or not 0 < request.count <= MAX_BLOCKS:
            raise Refused(f"a repair names its target, and at most {MAX_BLOCKS} blocks")
        return self.folder.bits(request.name, request.place, request.count, request.data[0], bytes(request.data[1:]))

    # a write: begin, write, patch or add, seal; then commit or drop

    def begin(self, request):
        """Begins a draft: of a whole share with count 0, of ranges with count 1."""
        self.forget_draft(request.name)
        begin = self.folder.patch_draft if request.count else self.folder.whole_draft
        self.drafts[request.name] = begin(request.name)

    def forget_draft(self, name):
        if name in self.drafts:
            self.drafts.pop(name).close()
            self.folder.remove_draft(name)

    def draft(self, name):
        if name not in self.drafts:
            raise Refused(f"no write of {name} was begun")
        return self.drafts[name]

    def write(self, request):
        self.draft(request.name).write(request.place, request.data)

    def patch(self, request):
        self.draft(request.name).patch(request.data, request.op == frames.ADD)

    def seal(self, request):
        """Ends a draft with its header, and prepares it."""
        header, _ = share.unpack_header(request.data), self.draft(request.name)
        if (header.name, header.node, header.store.hex()) != (request.name, self.marker["node"], self.marker["store"]):
            raise Refused("the header is of another image, node or store")
        try:
            self.folder.prepare(request.name, self.drafts[request.name], bytes(request.data))
        except BaseException:
            self.forget_draft(request.name)
            raise
        self.drafts.pop(request.name).close()

    def commit(self, request):
        self.folder.commit(request.name, request.place)

    def drop(self, request):
        self.forget_draft(request.name)
        self.folder.drop(request.name)

    def purge(self, request):
        self.folder.purge(request.name)


ACTS = {
    frames.LIST: (Node.list, SHARED), frames.STAT: (Node.stat, SHARED), frames.READ: (Node.read, SHARED),
    frames.BITS: (Node.bits, SHARED),
    frames.BEGIN: (Node.begin, EXCLUSIVE), frames.WRITE: (Node.write, EXCLUSIVE), frames.PATCH: (Node.patch, EXCLUSIVE),
    frames.ADD: (Node.patch, EXCLUSIVE),
    frames.SEAL: (Node.seal, EXCLUSIVE), frames.COMMIT: (Node.commit, EXCLUSIVE), frames.DROP: (Node.drop, EXCLUSIVE),
    frames.PURGE: (Node.purge, EXCLUSIVE),
}
