"""Work that children of the command do, batch by batch: the same results, figures and names of nodes as in one process, whatever fails."""
import os
import resource
import signal
import subprocess
import sys
import time
import unittest
from unittest import mock

from support import TOP, StoreCase, command, in_child

from imagestore import files, pipeline, share


class Children(StoreCase):
    """Eight blocks of 48 bytes are a batch, so a short image has many, and four children work on them."""

    def setUp(self):
        super().setUp()
        patch = mock.patch.object(pipeline, "BATCH_BYTES", 1)
        patch.start()
        self.addCleanup(patch.stop)
        self.forks, real = 0, os.fork

        def fork():
            self.forks += 1
            return real()

        patch = mock.patch.object(os, "fork", fork)
        patch.start()
        self.addCleanup(patch.stop)
        self.make(5, 3, 16)
        self.data = self.bytes(10 * 8 * 48 + 5)

    def by_four(self, *words):
        """The result of a command, for which four children were begun."""
        self.forks = 0
        result = self.right("--threads", 4, *words)
        self.assertEqual(self.forks, 4, words)
        return result

    def right(self, *words):
        """The command may have its options in front."""
        status, result = self.command(*words) if words[0] != "init" else (0, super().right(*words))
        self.assertEqual(status, 0, result)
        return result

    def same(self, *words, before=lambda: None):
        """The command has the same result by one process and by four."""
        before()
        one = self.right("--threads", 1, *words)
        before()
        four = self.by_four(*words)
        self.assertEqual(one, four)
        return four

    def test_the_same_as_by_one(self):
        path = self.file(self.data)
        self.same("put", "image", path, before=lambda: self.command("rm", "image"))
        self.same("get", "image", self.top / "got")
        self.assertEqual((self.top / "got").read_bytes(), self.data)
        self.same("check")
        for node in range(5):
            self.same("rebuild", node, before=lambda: self.lose(node))
        with self.without(0, 3):
            self.same("get", "image", self.top / "got")
            self.assertEqual((self.top / "got").read_bytes(), self.data)
        self.all_right(self.data)

    def lose(self, node):
        """The node has no share, and the first rebuild is the next."""
        self.share(node).unlink()
        (self.top / "store.roster").unlink(missing_ok=True)

    def test_damage_is_named(self):
        """Blocks that a child finds damaged are named by the parent; what children find wrong is set right."""
        self.put(self.data)
        self.flip(1, -30)
        self.flip(2, 300)
        self.assertEqual(sorted(self.by_four("get", "image", self.top / "got")["wrong"]), ["1", "2"])
        self.assertEqual((self.top / "got").read_bytes(), self.data)
        status, result = self.command("--threads", 4, "check")
        self.assertEqual((status, sorted(result["images"][0]["wrong"])), (1, ["1", "2"]))
        self.right("check", "--correct")
        self.all_right(self.data)

    def test_too_few_right_blocks(self):
        self.put(self.data)
        for node in range(3):
            self.flip(node, -10)
        self.assertIn("is right at 2 nodes, and 3 are needed", self.refused(3, "--threads", 4, "get", "image", self.top / "got"))
        self.assertFalse((self.top / "got").exists())

    def test_wrong_shares_with_right_checksums(self):
        """What the children made has another digest: the wrong node is found, and left out."""
        self.put(self.data)
        data = bytearray(self.share(0).read_bytes())
        head = share.unpack_header(data)
        place = share.block_place(head.record, head.name, head.lanes, 70)
        data[place] ^= 1
        data[place + 16:place + 20] = share.checksum(share.seed(70), data[place:place + 16])
        self.share(0).write_bytes(data)
        result = self.right("--threads", 4, "get", "image", self.top / "got")
        self.assertEqual(((self.top / "got").read_bytes(), list(result["wrong"])), (self.data, ["0"]))
        self.assertEqual(list(self.command("--threads", 4, "check")[1]["images"][0]["wrong"]), ["0"])

    def test_a_node_that_fails_on_the_way(self):
        """A disk that refuses in the middle: the node is left out and named, and the others begin anew."""
        real = files.write

        def write(file, place, data):
            if str(self.places[3]) in os.readlink(f"/proc/self/fd/{file}") and place > 400:
                raise OSError(28, "No space left on device")
            real(file, place, data)

        with mock.patch.object(files, "write", write):
            result = self.right("--threads", 4, "put", "image", self.file(self.data))
        self.assertEqual(result["absent"], {"3": "No space left on device"})
        self.assertEqual((self.got(), self.left_over()), (self.data, []))
        self.right("--threads", 4, "check", "--correct")
        self.all_right(self.data)

    def test_no_room_at_all(self):
        def action():
            resource.setrlimit(resource.RLIMIT_FSIZE, (900, 900))
            return command("--store", self.store, "--threads", 4, "put", "image", path)[0]

        path = self.file(self.data)
        self.assertEqual((in_child(action), self.left_over()), (3, []))
        self.all_right(None)

    def test_an_interrupt_when_a_child_is_born(self):
        """One that comes to a child changes nothing; one that came before ends the command, whatever comes to its children."""
        fork, pipe, path = os.fork, pipeline.Pipe, self.file(self.data)

        def before():
            if self.forks == 0:
                signal.raise_signal(signal.SIGINT)
            return pipe()

        def after():
            child = fork()
            if child == 0:
                signal.raise_signal(signal.SIGINT)
            return child

        with mock.patch.object(os, "fork", after):
            self.by_four("put", "image", path)
            self.all_right(self.data)
            self.right("rm", "image")
            self.forks = 0
            with mock.patch.object(pipeline, "Pipe", before):
                self.assertIn("interrupted", self.refused(1, "--threads", 4, "put", "image", path))
        self.assertEqual((self.forks, self.left_over()), (4, []))
        self.all_right(None)

    def test_an_error_that_nobody_expects(self):
        """It reaches the parent as it is, and no child is left."""
        with mock.patch.object(share, "checksums", side_effect=ZeroDivisionError("here")), self.assertRaisesRegex(ZeroDivisionError, "here"):
            command("--store", self.store, "--threads", 4, "put", "image", self.file(self.data))
        with self.assertRaises(ChildProcessError):
            os.waitpid(-1, os.WNOHANG)
        self.right("check")
        self.assertEqual(self.left_over(), [])


# the command in a process of its own, whose children wait before they encode until a pipe is closed
HELD = """
import os, sys
from imagestore import cli, coding
real, held = coding.shares_of, int(sys.argv.pop(1))

def shares_of(*what):
    os.read(held, 1)
    return real(*what)

coding.shares_of = shares_of
sys.exit(cli.main())
"""


class Ends(StoreCase):
    """The command in the middle of its work, and something from outside."""

    def setUp(self):
        super().setUp()
        self.make(5, 3, 4096)
        self.path = self.file(os.urandom(20_000_000), "large")

    def begun(self):
        """A put whose four children are forked, the children, and what to call so that they go on."""
        held, go = os.pipe()
        program = subprocess.Popen(
            [sys.executable, "-B", "-c", HELD, str(held), "--store", self.store, "--threads", "4", "put", "image", self.path],
            stdout=subprocess.DEVNULL, stderr=subprocess.PIPE, start_new_session=True, pass_fds=(held,),
            env={**os.environ, "PYTHONPATH": str(TOP / "bindings" / "python")})
        os.close(held)
        end = os.fdopen(go, "wb")
        for undo in (program.stderr.close, program.wait, end.close, program.kill):  # the last one first
            self.addCleanup(undo)
        deadline, children = time.monotonic() + 60, []
        while len(children) < 4:
            self.assertIsNone(program.poll(), "the put ended before it had four children")
            self.assertLess(time.monotonic(), deadline, "the put does not fork four children")
            time.sleep(0.001)
            with open(f"/proc/{program.pid}/task/{program.pid}/children", encoding="ascii") as file:
                children = list(map(int, file.read().split()))
        return program, children, end.close

    def test_a_child_that_is_killed(self):
        program, children, go = self.begun()
        os.kill(children[2], signal.SIGKILL)
        go()
        _, err = program.communicate()
        self.assertEqual((program.returncode, err), (1, b"imagestore: a process that worked on the image was ended\n"))
        self.all_right(None)

    def test_a_parent_that_is_killed(self):
        """Its children end too, and with them the locks; the next command has nothing to wait for, or not long."""
        program, children, go = self.begun()
        program.kill()
        program.wait()
        go()
        self.assertEqual(command("--store", self.store, "--wait", "20", "check")[0], 0)
        self.all_right(None)
        for _ in range(200):
            if not any(os.path.exists(f"/proc/{child}") for child in children):
                return
            time.sleep(0.05)
        self.fail("a child is left")

    def test_interrupts(self):
        """Ctrl-C reaches the whole group: the children go on with what they have, and the parent undoes it."""
        for number in (signal.SIGINT, signal.SIGTERM):
            program, children, go = self.begun()
            os.killpg(program.pid, number)
            go()
            _, err = program.communicate()
            self.assertEqual(program.returncode, 1, err)
            self.assertIn(b"interrupted", err)
            self.assertFalse(any(os.path.exists(f"/proc/{child}") for child in children))
            self.assertEqual(self.left_over(), [])
            self.all_right(None)


if __name__ == "__main__":
    unittest.main()
