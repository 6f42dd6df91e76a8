"""Disks that are full: a command that has no room changes nothing; one node without room is left out."""
import os
import resource
import subprocess
import unittest
from unittest import mock

from support import StoreCase, command, in_child

from imagestore import files


class Full(StoreCase):
    def setUp(self):
        super().setUp()
        self.make(5, 3, 512)
        self.data = self.bytes(20_000)
        self.put(self.data)

    def with_room(self, count, *words):
        """The status of a command whose files may have so many bytes."""
        def action():
            resource.setrlimit(resource.RLIMIT_FSIZE, (count, count))
            return command("--store", self.store, *words)[0]
        return in_child(action)

    def test_every_disk_is_full(self):
        large = self.file(self.bytes(60_000), "large")
        part = self.file(self.bytes(9_000), "part")
        before = [self.share(node).read_bytes() for node in range(5)]
        for room in (0, 1, 100, 1000, 3000):
            self.assertIn(self.with_room(room, "put", "other", large), (1, 3), room)
            self.assertIn(self.with_room(room, "update", "image", large), (1, 3), room)
            self.assertIn(self.with_room(room, "update", "image", "--at", 0, part), (1, 3), room)
            self.assertEqual(([self.share(node).read_bytes() for node in range(5)], self.left_over()), (before, []))
            self.assertEqual([one["image"] for one in self.right("list")["images"]], ["image"])
        self.all_right(self.data)

    def test_no_room_for_what_is_made_anew(self):
        """A rebuild, a check that sets right, a removal and the roster: what was there is there."""
        self.share(2).unlink()
        self.flip(4, -7)
        for room in (0, 1, 100, 1000):
            self.assertEqual(self.with_room(room, "rebuild", 2), 1, room)
            self.assertEqual(self.with_room(room, "check", "--correct"), 1, room)
            self.assertIn(self.with_room(min(room, 100), "rm", "image"), (1, 3), room)
            self.assertEqual(self.with_room(min(room, 100), "leave", 1), 1, room)
            self.assertEqual((self.got(), self.left_over()), (self.data, []))
            self.assertEqual(self.right("nodes")["nodes"][1]["state"], "here")
        self.right("check", "--correct")
        self.all_right(self.data)

    def test_no_room_for_what_is_got(self):
        target = self.file(b"old", "target")
        self.assertEqual(self.with_room(1000, "get", "image", target), 1)
        self.assertEqual(target.read_bytes(), b"old")
        self.assertEqual([name for name in os.listdir(self.top) if "target" in name], ["target"])

    def test_one_disk_is_full(self):
        """A node that has no room is left out, and named; when it has room again, it is set right."""
        real = files.write

        def write(file, place, data):
            if str(self.places[3]) in os.readlink(f"/proc/self/fd/{file}"):
                raise OSError(28, "No space left on device")
            real(file, place, data)

        other = self.bytes(5000)
        with mock.patch.object(files, "write", write):
            result = self.put(other, "other")
            self.assertIn("No space left", result["absent"]["3"])
            self.right("update", "image", "--at", 0, self.file(b"new"))
            self.assertIn("No space left", self.refused(1, "rebuild", 3))
        self.assertEqual(self.got("other"), other)
        self.assertEqual(self.got(), b"new" + self.data[3:])
        self.right("check", "--correct")
        self.all_right()

    def test_a_disk_that_fills_up_while_an_update_is_applied(self):
        """The last step fails at a node: the redo waits there, and the next command finishes it."""
        real, count = files.write, [0]

        def write(file, place, data):
            if os.readlink(f"/proc/self/fd/{file}").endswith("image.share"):
                count[0] += 1
                if count[0] % 2:
                    raise OSError(5, "Input/output error")
            real(file, place, data)

        with mock.patch.object(files, "write", write):
            self.command("update", "image", "--at", 0, self.file(b"new"))
        self.assertGreater(count[0], 0)
        self.assertEqual(self.got(), b"new" + self.data[3:])
        self.all_right(b"new" + self.data[3:])


@unittest.skipUnless(os.getuid() == 0, "a small file system can only be mounted by root: a disk of its own that is full is not tested")
class SmallDisk(StoreCase):
    def test_a_small_file_system(self):
        """Nodes on a file system of 400 KB: an image that does not fit is refused, and what is there stays right."""
        disk = self.top / "store"
        disk.mkdir()
        mounted = subprocess.run(["mount", "-t", "tmpfs", "-o", "size=400k", "tmpfs", disk], capture_output=True)
        if mounted.returncode:
            self.skipTest("a small file system cannot be mounted here: a disk of its own that is full is not tested")
        self.addCleanup(subprocess.run, ["umount", disk], check=True)
        self.make(3, 2, 4096)
        data = self.bytes(100_000)
        self.put(data)
        room = os.statvfs(disk).f_bavail
        self.refused(3, "put", "other", self.file(self.bytes(300_000)))
        self.refused(3, "update", "image", self.file(self.bytes(300_000)))
        self.assertEqual((os.statvfs(disk).f_bavail, self.left_over()), (room, []), "what was begun still takes room")
        self.all_right(data)
        self.assertEqual([one["image"] for one in self.right("list")["images"]], ["image"])


if __name__ == "__main__":
    unittest.main()
