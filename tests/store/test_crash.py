"""A stop at every change of a disk, in put, update, rebuild, rm and check: afterwards every image is the old one or the new one, whole."""
import shutil
import unittest
from unittest import mock

from support import StoreCase, command, in_child  # first: it finds the program

from disk import STOPPED, STOPPED_AT_A_WRITE, Disk
from imagestore import changes


class CrashCase(StoreCase):
    """A store that is put back as it was before each stop."""

    def setUp(self):
        super().setUp()
        self.saved = self.top / "saved"

    def save(self):
        self.saved.mkdir()
        for place in self.places:
            shutil.copytree(place, self.saved / place.name)

    def restore(self):
        for place in self.places:
            shutil.rmtree(place, ignore_errors=True)
            shutil.copytree(self.saved / place.name, place)

    def stopped(self, stop, mode, *words):
        """How the command ended, when it may make so many changes."""
        def action():
            Disk(stop, mode, stop).install()
            return command("--store", self.store, "--threads", "1", *words)[0]

        status = in_child(action)
        self.assertIn(status, (0, STOPPED, STOPPED_AT_A_WRITE), f"{words} stopped at {stop}, {mode}")
        return status

    def try_stop(self, judge, stop, mode, *words):
        """Runs the command with a stop, and has what is left judged."""
        self.restore()
        status = self.stopped(stop, mode, *words)
        with self.subTest(mode=mode, stop=stop):
            judge()
            self.assertEqual(self.left_over(), [])
        return status

    def every_stop(self, judge, *words):
        """A stop at each change, with everything before kept, with a write half made, and with what was not synced lost."""
        self.save()
        ends = []
        while not ends or ends[-1]:
            ends.append(self.try_stop(judge, len(ends) + 1, "stop", *words))
        self.assertGreater(len(ends), 8, "the command makes few changes: is the disk followed?")
        for stop, status in enumerate(ends, 1):
            if status == STOPPED_AT_A_WRITE:
                self.try_stop(judge, stop, "torn", *words)
            self.try_stop(judge, stop, "power", *words)

    def old_or_new(self):
        """A check leaves every node right, with the one image or the other, or none where one is None."""
        self.all_right(self.old, self.new)

    def corrected(self):
        self.right("check", "--correct")
        self.all_right(self.old)


class Crashes(CrashCase):
    """Three nodes of which two are needed; the image has two whole blocks and a part of one."""

    def setUp(self):
        super().setUp()
        self.make(3, 2, 16)
        self.old, self.new = self.bytes(70), self.bytes(70)

    def test_put(self):
        self.old = None
        self.every_stop(self.old_or_new, "put", "image", self.file(self.new, "new"))

    def test_update_at(self):
        self.put(self.old)
        self.new = self.old[:20] + b"thirty bytes that are new now." + self.old[50:]
        self.every_stop(self.old_or_new, "update", "image", "--at", "20", self.file(self.new[20:50], "part"))

    def test_update_by_new_symbols(self):
        """As where many rows of a block change."""
        self.put(self.old)
        with mock.patch.object(changes, "FEW_ROWS", 0):
            self.every_stop(self.old_or_new, "update", "image", self.file(self.new, "new"))

    def test_update_to_another_length(self):
        self.put(self.old)
        self.new = self.bytes(101)
        self.every_stop(self.old_or_new, "update", "image", self.file(self.new, "new"))

    def test_rm(self):
        self.put(self.old)
        self.new = None
        self.every_stop(self.old_or_new, "rm", "image")

    def test_rebuild(self):
        self.put(self.old)
        self.share(1).unlink()
        self.every_stop(self.corrected, "rebuild", "1")

    def test_check_that_sets_right(self):
        self.put(self.old)
        self.flip(2, -10)
        self.every_stop(self.corrected, "check", "--correct")

    def test_check_that_finishes_an_update(self):
        """A check is stopped while it finishes an update that was stopped."""
        self.put(self.old)
        self.new = self.old[:-1] + bytes([self.old[-1] ^ 1])
        part = self.file(self.new[-1:], "part")
        self.save()
        stop = 1
        while not self.committed():
            self.restore()
            stop += 1
            self.stopped(stop, "stop", "update", "image", "--at", "69", part)
        shutil.rmtree(self.saved)
        self.every_stop(self.old_or_new, "check")

    def committed(self):
        """Whether one node has committed and another has not."""
        kinds = [{path.suffix for path in place.iterdir()} for place in self.places]
        return any(".redo" in found for found in kinds) and any(".next" in found for found in kinds)


class Beside(CrashCase):
    """What is written beside the nodes: the file that `get` writes, the roster, store.toml and the folders of a new store."""

    def stops(self, before, judge, *words):
        """A stop at each change, in each mode; `judge` is told whether the command ended."""
        for mode in ("stop", "torn", "power"):
            stop, status = 0, None
            while status != 0:
                stop += 1
                before()
                status = self.stopped(stop, mode, *words)
                with self.subTest(mode=mode, stop=stop):
                    judge(status == 0)
            self.assertGreater(stop, 4, "the command makes few changes: is the disk followed?")

    def test_get(self):
        self.make(3, 2, 16)
        data, target = self.bytes(70), self.top / "got"
        self.put(data)

        def judge(done):
            self.assertIn(target.read_bytes(), [data] if done else [data, b"old"])
            self.all_right(data)

        self.stops(lambda: target.write_bytes(b"old"), judge, "get", "image", target)

    def test_leave_and_return(self):
        self.make(3, 2, 16)
        roster = self.top / "store.roster"
        self.right("leave", 0)
        kept = roster.read_bytes()
        for word, node, before, after in (("leave", 1, [1, 2], [2]), ("return", 0, [1, 2], [0, 1, 2])):
            def judge(done):
                states = [one["node"] for one in self.right("nodes")["nodes"] if one["state"] != "left"]
                self.assertIn(states, [after] if done else [before, after])

            self.stops(lambda: roster.write_bytes(kept), judge, word, node)

    def test_init(self):
        """No store, and then it can be made; or a store, to which `rebuild` adds the nodes that are missing."""
        places = [self.top / "nodes" / f"n{node}" for node in range(3)]

        def before():
            shutil.rmtree(self.top / "nodes", ignore_errors=True)
            self.store.unlink(missing_ok=True)

        def judge(done):
            if not self.store.exists():
                self.right("init", self.store, "--needed", 2, *places)
            self.right("rebuild", 0, 1, 2)
            self.assertEqual([one["state"] for one in self.right("nodes")["nodes"]], ["here"] * 3)
            data = self.bytes(10)
            self.put(data)
            self.assertEqual(self.got(), data)

        self.stops(before, judge, "init", self.store, "--needed", 2, *places)


class OtherRecords(CrashCase):
    """Six nodes, on which words are carried behind masks; 51 nodes, where a share is made anew by traces."""

    def test_update_of_carried_bytes(self):
        self.make(6, 5, 16)
        self.old = self.bytes(70)
        self.put(self.old)
        self.new = self.old[:20] + b"thirty bytes that are new now." + self.old[50:]
        self.every_stop(self.old_or_new, "update", "image", "--at", "20", self.file(self.new[20:50], "part"))

    def test_rebuild_by_traces(self):
        self.make(51, 33, 2)
        self.old = self.bytes(100)
        self.put(self.old)
        self.share(1).unlink()
        self.every_stop(self.corrected, "rebuild", "1")


class CrashesWithLoss(StoreCase):
    """A stop, then the loss of as many nodes as may be lost: the image is whole, and stays what it is when they come back."""

    def test_update(self):
        self.old = self.bytes(60)
        self.new = self.old[:30] + self.bytes(10) + self.old[40:]
        part = self.file(self.new[30:40], "part")
        for stop in range(1, 200):
            shutil.rmtree(self.top / "store", ignore_errors=True)
            self.store.unlink(missing_ok=True)
            self.make(5, 3, 8)
            self.put(self.old)
            if not self.stop_and_lose(stop, part):
                break
        self.assertGreater(stop, 20)

    def stop_and_lose(self, stop, part):
        def action():
            Disk(stop, "power", stop).install()
            return command("--store", self.store, "--threads", "1", "update", "image", "--at", "30", part)[0]

        status = in_child(action)
        lost = self.random.sample(range(self.n), self.n - self.k)
        with self.subTest(stop=stop, lost=lost):
            with self.without(*lost):
                status_then, result = self.command("check")
                self.assertEqual((status_then, result["lost"]), (1, {}))  # nodes are away
                first = self.got()
                self.assertIn(first, (self.old, self.new))
            self.right("check", "--correct")
            self.all_right(first)
        return status != 0


if __name__ == "__main__":
    unittest.main()
