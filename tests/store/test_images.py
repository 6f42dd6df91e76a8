"""Images of every length, put and got back, whole and from any k nodes, on folders."""
import os
import resource
import unittest

from support import StoreCase, command, in_child

import balanced
import share_reader
from imagestore import carrier, coding, digest, layout


class Images(StoreCase):
    def lengths(self):
        block = share_reader.capacity(self.record, self.lanes)
        return sorted({0, 1, 2, self.k, block - 1, block, block + 1, 2 * block, 5 * block, 5 * block + self.random.randrange(1, block)})

    def test_lengths_on_many_numbers_of_nodes(self):
        for n, k, lanes in ((3, 1, 5), (3, 3, 4), (5, 3, 16), (15, 10, 64), (17, 8, 7), (51, 34, 9), (85, 40, 6), (255, 120, 3),
                            (2, 1, 300), (2, 2, 5), (4, 3, 16), (6, 5, 4), (7, 2, 200), (12, 8, 33), (100, 60, 3), (254, 100, 2)):
            self.store = self.top / f"s{n}-{k}.toml"
            with self.subTest(n=n, k=k):
                self.make(n, k, lanes)
                for length in self.lengths() if n < 20 else self.random.sample(self.lengths(), 3):
                    data = self.bytes(length)
                    name = f"image-{length}"
                    result = self.put(data, name)
                    self.assertEqual((result["length"], result["nodes"], result["absent"]), (length, list(range(n)), {}))
                    with self.without(*self.random.sample(range(n), n - k)):
                        self.assertEqual(self.got(name), data)

    def test_every_number_of_nodes(self):
        """Every n from 2 to 255: blocks of random, constant and adversarial bytes, and back from any k shares."""
        for n in range(2, 256):
            plan = balanced.Plan(carrier.choose(n, self.random.randint(1, n)))
            lanes = self.random.choice([1, 2, 5])
            if carrier.capacity(plan, lanes) == 0:
                lanes = 3
            length = 2 * carrier.capacity(plan, lanes) + self.random.randrange(carrier.capacity(plan, lanes)) + 1
            one = layout.Layout(plan, lanes, length, "image")
            data = self.random.choice([self.bytes(length), b"\xff" * length, bytes(i ^ 255 for i in range(256)) * (length // 256 + 1)])[:length]
            pieces, total = coding.shares_of(plan, one, range(one.blocks), data, coding.Room())
            self.assertEqual(digest.to_bytes(total), share_reader.digest(data, plan.record, lanes).to_bytes(32, "big"))
            back = b""
            for block in range(one.blocks):
                held = {node: pieces[node][2 * block] for node in self.random.sample(range(n), plan.k)}
                back += carrier.uncarry(plan, coding.recover(plan, one.lanes_of(block), held), one.size(block))
            self.assertEqual(back, data, f"{n} nodes, {plan.k} needed")

    def test_five_megabytes_on_twelve_nodes(self):
        self.make(12, 8, 4096)
        data = self.bytes(5_000_001)
        self.put(data)
        # 76 whole blocks and a part of one: 1/255 more than the plain bytes of an eighth of the image
        self.assertEqual(self.share(0).stat().st_size, 133 + 8 * 12 + 5 + 77 * 4 + 2 * (76 * 4096 + self.last_lanes(5_000_001)))
        self.assertLess(self.share(0).stat().st_size, 5_000_001 / 8 * 1.005)
        with self.without(0, 3, 5, 11):
            self.assertEqual(self.got(), data)
        data = data[:777_777] + b"news" + data[777_781:]
        result = self.right("update", "image", "--at", 777_777, self.file(b"news"))
        self.assertGreaterEqual(len(result["nodes"]), 5)
        self.all_right(data)

    def last_lanes(self, length):
        left = length - 76 * share_reader.capacity(self.record, 4096)
        return -(-share_reader.symbols_for(self.record, left) // self.k)

    def test_five_megabytes(self):
        self.make(15, 9, 4096)
        data = self.bytes(5_000_000)
        self.put(data)
        self.assertEqual(self.got(), data)
        with self.without(*range(6)):
            self.assertEqual(self.got(), data)
        self.all_right(data)

    def test_memory_is_bounded(self):
        """An image twenty times as long takes no more memory."""
        self.make(15, 10, 4096)
        used = []
        for name, count in (("short", 5_000_000), ("long", 100_000_000)):
            path = self.top / name
            path.write_bytes(bytes(count))
            used.append(self.peak("put", name, path))
            used.append(self.peak("get", name, self.top / "got"))
        self.assertLess(max(used[2:]) - max(used[:2]), 20_000, f"KB at most in put and get of each: {used}")

    def peak(self, *words):
        """The most memory that a command had, in KB."""
        def action():
            self.assertEqual(command("--store", self.store, *words)[0], 0)
            (self.top / "peak").write_text(str(resource.getrusage(resource.RUSAGE_SELF).ru_maxrss))

        self.assertEqual(in_child(action), 0)
        return int((self.top / "peak").read_text())

    def test_many_images(self):
        self.make()
        images = {f"image.{i}": self.bytes(self.random.randrange(300)) for i in range(12)}
        for name, data in images.items():
            self.put(data, name)
        listed = {one["image"]: one["length"] for one in self.right("list")["images"]}
        self.assertEqual(listed, {name: len(data) for name, data in images.items()})
        for name, data in images.items():
            self.assertEqual(self.got(name), data)
        self.right("rm", "image.3")
        self.assertNotIn("image.3", [one["image"] for one in self.right("list")["images"]])
        self.assertIn("there is no image image.3", self.refused(1, "get", "image.3", self.top / "x"))
        self.put(b"again", "image.3")
        self.assertEqual(self.got("image.3"), b"again")

    def test_a_name_is_taken_once(self):
        self.make()
        self.put(b"one")
        self.assertIn("already", self.refused(1, "put", "image", self.file(b"two")))
        self.assertEqual(self.got(), b"one")

    def test_what_is_no_image_file(self):
        self.make()
        self.assertIn("No such file", self.refused(1, "put", "image", self.top / "missing"))
        self.assertIn("no regular file", self.refused(1, "put", "image", "/dev/null"))
        self.assertIn("Is a directory", self.refused(1, "put", "image", self.top))
        self.assertEqual(self.right("list")["images"], [])

    def test_get_leaves_what_was_there_until_it_is_done(self):
        self.make()
        self.put(b"new bytes")
        target = self.file(b"old bytes", "target")
        for node in range(3):
            self.flip(node, -5)
        self.refused(3, "get", "image", target)
        self.assertEqual(target.read_bytes(), b"old bytes")
        self.assertEqual([name for name in os.listdir(self.top) if name.endswith(".tmp")], [])

    def test_get_through_a_link_and_to_a_device(self):
        self.make()
        self.put(b"bytes")
        target = self.file(b"", "target")
        (self.top / "link").symlink_to(target)
        self.right("get", "image", self.top / "link")
        self.assertEqual(target.read_bytes(), b"bytes")
        self.assertTrue((self.top / "link").is_symlink())
        self.right("get", "image", "/dev/null")
        self.assertTrue(os.path.exists("/dev/null") and not os.path.isfile("/dev/null"))


if __name__ == "__main__":
    unittest.main()
