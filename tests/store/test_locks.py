"""Two commands at once: writers wait for each other and for readers, and whoever cannot have the lock changes nothing."""
import os
import subprocess
import threading
import time
import unittest
from dataclasses import replace
from unittest import mock

from support import PROGRAM, StoreCase, command, in_child

from imagestore import frames, lock, share
from imagestore.errors import StoreError
from imagestore.node import ACTS, Node
from imagestore.store import Store


class Locks(StoreCase):
    def setUp(self):
        super().setUp()
        self.make(3, 2, 16)
        self.data = self.bytes(100)
        self.put(self.data)

    def while_locked(self, mode, *words):
        """The status of a command of another process while this one has the nodes' locks."""
        with Store(self.store).session(mode, "test"):
            return in_child(lambda: command("--store", self.store, "--wait", "0", *words)[0])

    def test_a_writer_keeps_others_out(self):
        for words in (["get", "image", self.top / "x"], ["put", "other", self.file(b"x")], ["update", "image", "--at", 0, self.file(b"x")],
                      ["rm", "image"], ["check"], ["rebuild", 0], ["list"]):
            self.assertEqual(self.while_locked(lock.EXCLUSIVE, *words), 1, words)
        self.all_right(self.data)

    def test_readers_read_together_and_keep_writers_out(self):
        for words in (["get", "image", self.top / "x"], ["list"], ["check"], ["nodes"]):
            self.assertEqual(self.while_locked(lock.SHARED, *words), 0, words)
        for words in (["put", "other", self.file(b"x")], ["update", "image", "--at", 0, self.file(b"x")], ["rm", "image"], ["rebuild", 0]):
            self.assertEqual(self.while_locked(lock.SHARED, *words), 1, words)
        self.all_right(self.data)

    def test_one_locked_node_is_enough(self):
        store = Store(self.store)
        with store.session(lock.SHARED, "test") as session:
            for node in (0, 1):
                session.fail(node, "left out")
            self.assertEqual(in_child(lambda: command("--store", self.store, "--wait", "0", "rm", "image")[0]), 1)
        self.all_right(self.data)

    def test_waiting(self):
        """A writer that waits has its turn when the other ends."""
        words = [PROGRAM, "--store", self.store, "--wait", "60", "update", "image", "--at", "0", self.file(b"news", "news")]
        with Store(self.store).session(lock.EXCLUSIVE, "test"):
            writer = subprocess.Popen(words, stdout=subprocess.DEVNULL)
            time.sleep(0.5)
            self.assertIsNone(writer.poll())
        self.assertEqual(writer.wait(), 0)
        self.assertEqual(self.got(), b"news" + self.data[4:])

    def test_two_writers_at_once(self):
        """Writers that begin together each end whole: their parts stand in the image, and no generation is lost."""
        parts = [(place, self.file(bytes([65 + place]) * 10, f"part{place}")) for place in range(0, 40, 10)]
        children = []
        for place, path in parts:
            child = os.fork()
            if child == 0:
                os._exit(in_child(lambda: command("--store", self.store, "--wait", "60", "update", "image", "--at", place, path)[0]))
            children.append(child)
        self.assertEqual([os.waitstatus_to_exitcode(os.waitpid(child, 0)[1]) for child in children], [0] * 4)
        self.data = b"".join(path.read_bytes() for _, path in parts) + self.data[40:]
        self.all_right(self.data)
        self.assertEqual(self.right("list")["images"][0]["generation"], 5)

    def test_two_that_change_the_roster(self):
        """Nodes that leave at once, each by a command of its own: all of them have left."""
        self.store = self.top / "many.toml"
        self.make(15, 3, 16)
        children = []
        for node in range(0, 12, 2):
            child = os.fork()
            if child == 0:
                os._exit(in_child(lambda: command("--store", self.store, "leave", node)[0]))
            children.append(child)
        self.assertEqual([os.waitstatus_to_exitcode(os.waitpid(child, 0)[1]) for child in children], [0] * 6)
        left = [one["node"] for one in self.right("nodes")["nodes"] if one["state"] == "left"]
        self.assertEqual(left, list(range(0, 12, 2)))

    def test_a_writer_in_another_thread(self):
        """A lock is the link's, not the process': two threads of one program keep each other out too."""
        done = []
        with Store(self.store).session(lock.EXCLUSIVE, "test"):
            thread = threading.Thread(target=lambda: done.append(self.locked_out()))
            thread.start()
            thread.join()
        self.assertEqual(done, [True])

    def test_threads_that_ask_the_same_nodes(self):
        """Two threads ask the nodes of one session, each in another order: neither waits for the other for ever."""
        real = Node.read

        def slow(node, request):
            time.sleep(0.001)
            return real(node, request)

        with Store(self.store).session(lock.SHARED, "test") as session, mock.patch.dict(ACTS, {frames.READ: (slow, lock.SHARED)}):
            def ask(nodes):
                for _ in range(40):
                    session.ask(nodes, lambda node: frames.Request(frames.READ, "image", count=10))

            threads = [threading.Thread(target=ask, args=(nodes,), daemon=True) for nodes in ([0, 1, 2], [2, 1, 0], [1, 0, 2])]
            for thread in threads:
                thread.start()
            for thread in threads:
                thread.join(30)
                self.assertFalse(thread.is_alive(), "the threads wait for each other")

    def test_a_reader_does_not_wait_for_an_interrupted_write(self):
        """A write was prepared at one node and cut short; while another reads, a reader reads what is there."""
        def action():
            with Store(self.store).session(lock.EXCLUSIVE, "test") as session:
                header = share.unpack_header(self.share(0).read_bytes())
                session.ask([0], lambda node: frames.Request(frames.BEGIN, "image", count=1))
                later = share.pack_header(replace(header, generation=2, write=7, writes=(7, 7, 7)))
                session.ask([0], lambda node: frames.Request(frames.SEAL, "image", data=later))
                os._exit(0)

        self.assertEqual(in_child(action), 0)
        self.assertTrue((self.places[0] / "image.next").exists())
        self.assertEqual(self.while_locked(lock.SHARED, "get", "image", self.top / "got"), 0)
        self.assertEqual((self.top / "got").read_bytes(), self.data)
        self.all_right(self.data)

    def locked_out(self):
        try:
            with Store(self.store, wait=0).session(lock.SHARED, "test"):
                return False
        except StoreError:
            return True


if __name__ == "__main__":
    unittest.main()
