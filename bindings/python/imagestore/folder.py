"""The files of one node's folder. Every write is made so that after a crash the old share is there, or the new one.

For an image NAME the folder has, of these, what there is:

    NAME.share   the share file
    NAME.tmp     a draft, which a crash leaves behind and which the next writer removes
    NAME.next    a whole draft that was synced: it is prepared. A share file, or a redo (imagestore.redo)
    NAME.redo    a redo that is committed: whoever takes the lock next applies it to NAME.share before anything is read
"""
import os

from . import arithmetic, blocks, entries, files, redo, share
from .drafts import PatchDraft, WholeDraft
from .errors import Refused, of_disk
from .names import is_name


class Folder:
    def __init__(self, descriptor):
        self.descriptor = descriptor

    def close(self):
        os.close(self.descriptor)

    def names(self, *kinds):
        """The images of which there are files of these kinds, in order."""
        found = set()
        for file in os.listdir(self.descriptor):
            name, _, kind = file.rpartition(".")
            if kind in kinds and is_name(name):
                found.add(name)
        return sorted(found)

    def open(self, file, write=False):
        return files.open_file(self.descriptor, file, write)

    # what is there

    def header(self, file):
        """The header of a share file or a whole redo as bytes, and the file's size; None where there is no file."""
        try:
            opened = self.open(file)
        except FileNotFoundError:
            return None, 0
        try:
            start = files.read(opened, 0, share.MAX_HEADER)
            data = redo.verified_header(opened) if redo.is_redo(start) else start[:share.stated_len(start)]
            share.unpack_header(data)
            return data, os.fstat(opened).st_size
        finally:
            os.close(opened)

    def entry(self, name):
        """What there is of an image."""
        parts = {"name": name}
        try:
            if files.exists(self.descriptor, name + ".redo"):
                raise share.BadShare("a committed update could not be finished")
            parts["header"], parts["size"] = self.header(name + ".share")
        except (share.BadShare, OSError) as error:
            parts["damage"] = of_disk(error)
        try:
            parts["pending"], _ = self.header(name + ".next")
        except (share.BadShare, OSError) as error:
            parts["pending_damage"] = of_disk(error)
        return entries.Entry(**parts)

    def read(self, name, place, count):
        try:
            opened = self.open(name + ".share")
        except FileNotFoundError:
            raise Refused(f"there is no share of {name}") from None
        try:
            return files.read(opened, place, count)
        finally:
            os.close(opened)

    def bits(self, name, first, count, target, missing):
        """What this node sends of some blocks for the repair of another: for each a byte that says whether its checksum is right,
        and if so the bits."""
        data, _ = self.header(name + ".share")
        if data is None:
            raise Refused(f"there is no share of {name}")
        header, parts = share.unpack_header(data), []
        opened = self.open(name + ".share")
        try:
            for number in range(first, first + count):
                _, symbols = blocks.read(opened, header, number)
                parts.append(bytes([symbols is not None]))
                if symbols is not None:
                    parts.append(arithmetic.repair_bits(header.record, header.node, target, missing, symbols))
        finally:
            os.close(opened)
        return b"".join(parts)

    # a write

    def whole_draft(self, name):
        return WholeDraft(files.create(self.descriptor, name + ".tmp"))

    def patch_draft(self, name):
        data, _ = self.header(name + ".share")
        if data is None:
            raise Refused(f"there is no share of {name}")
        shared = self.open(name + ".share")
        return PatchDraft(files.create(self.descriptor, name + ".tmp"), shared, share.unpack_header(data))

    def prepare(self, name, draft, header):
        """Ends a draft with its header: from now on it survives a crash."""
        draft.end(header)
        files.sync(draft.file)
        files.rename(self.descriptor, name + ".tmp", name + ".next")
        files.sync(self.descriptor)

    def commit(self, name, write):
        """What was prepared by the write with this number becomes the share; once it is, nothing more is done."""
        data, _ = self.header(name + ".next")
        if data is None:
            held, _ = self.header(name + ".share")
            if held is None or share.unpack_header(held).write != write:
                raise Refused(f"there is nothing of {name} to commit")
            return
        if share.unpack_header(data).write != write:
            raise Refused(f"another write of {name} is prepared")
        if files.remove(self.descriptor, name + ".redo"):  # one that could not be applied must not be applied to the new share
            files.sync(self.descriptor)
        ranges = self.is_redo(name + ".next")
        files.rename(self.descriptor, name + ".next", name + (".redo" if ranges else ".share"))
        files.sync(self.descriptor)
        if ranges:
            self.apply(name)

    def is_redo(self, file):
        opened = self.open(file)
        try:
            return redo.is_redo(files.read(opened, 0, len(redo.MAGIC)))
        finally:
            os.close(opened)

    def apply(self, name):
        """Applies a committed redo to its share file."""
        committed = self.open(name + ".redo")
        try:
            shared = self.open(name + ".share", write=True)
            try:
                redo.apply(committed, shared)
            finally:
                os.close(shared)
        finally:
            os.close(committed)
        # not synced: a redo that comes back is applied once more, and every later write syncs the folder before it changes a share
        files.remove(self.descriptor, name + ".redo")

    def remove_draft(self, name):
        """Removes a draft. One that a disk does not let go of is removed by the next writer."""
        try:
            files.remove(self.descriptor, name + ".tmp")
        except OSError:
            pass

    def drop(self, name):
        """Gives up a write that was begun or prepared."""
        if any([files.remove(self.descriptor, name + kind) for kind in (".tmp", ".next")]):
            files.sync(self.descriptor)

    def purge(self, name):
        """Forgets an image that was removed."""
        data, _ = self.header(name + ".share")
        if data is not None:
            if not share.unpack_header(data).removed:
                raise Refused(f"{name} was not removed")
            files.remove(self.descriptor, name + ".share")
            files.sync(self.descriptor)

    # what a crash has left

    def finish_redos(self):
        """Applies committed redos. One that cannot be applied stays, and its share counts as damaged."""
        for name in self.names("redo"):
            try:
                self.apply(name)
            except (share.BadShare, OSError):
                pass

    def remove_drafts(self):
        for name in self.names("tmp"):
            self.remove_draft(name)
