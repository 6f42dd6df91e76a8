"""What the tests of the store share: stores in folders, commands run in this process or in a child, and damage."""
import contextlib
import io
import json
import os
import random
import shutil
import sys
import tempfile
import unittest
from concurrent.futures import ThreadPoolExecutor
from pathlib import Path

TOP = Path(__file__).resolve().parents[2]
PROGRAM = str(TOP / "bin" / "imagestore")
# in memory where that can be: the tests sync much
MEMORY = "/dev/shm" if os.access("/dev/shm", os.W_OK) else None
sys.path.insert(0, str(TOP / "bindings" / "python"))

import share_reader  # noqa: E402
from imagestore import cli, link  # noqa: E402


def command(*words):
    """Runs a command in this process: its status, and what it printed on both outputs."""
    out, err = io.StringIO(), io.StringIO()
    with contextlib.redirect_stdout(out), contextlib.redirect_stderr(err):
        try:
            status = cli.main([str(word) for word in words])
        except SystemExit as end:
            status = end.code
    return status, out.getvalue(), err.getvalue()


def in_child(action):
    """Runs something in a child of this process: its exit status. What it prints is dropped."""
    sys.stdout.flush()
    child = os.fork()
    if child:
        return os.waitstatus_to_exitcode(os.waitpid(child, 0)[1])
    status = 98
    try:
        # threads do not come along
        link.POOL = ThreadPoolExecutor(max_workers=8)
        os.dup2(os.open(os.devnull, os.O_WRONLY), 1)
        os.dup2(1, 2)
        status = action() or 0
    finally:
        os._exit(status)


class StoreCase(unittest.TestCase):
    """A case with a folder of its own."""

    def setUp(self):
        self.top = Path(tempfile.mkdtemp(prefix="imagestore-", dir=MEMORY))
        self.addCleanup(shutil.rmtree, self.top, ignore_errors=True)
        self.random = random.Random(self.id())
        self.store = self.top / "store.toml"

    def make(self, n=5, k=3, lanes=16):
        """A new store of folders."""
        self.n, self.k, self.lanes = n, k, lanes
        self.places = [self.top / self.store.stem / f"n{node:03}" for node in range(n)]
        self.record = bytes(self.right("init", self.store, "--needed", k, "--lanes", lanes, *self.places)["record"])

    def bytes(self, count):
        return self.random.randbytes(count)

    def file(self, data, name="file"):
        path = self.top / name
        path.write_bytes(data)
        return path

    def command(self, *words):
        """The status of a command, and its result as a table."""
        status, out, err = command("--store", self.store, "--json", "--wait", "0", *words)
        return status, json.loads(out) if out else {"error": err}

    def right(self, *words):
        """The result of a command that has to succeed."""
        if words[0] == "init":
            status, out, err = command("--json", *words)
            result = json.loads(out) if out else err
        else:
            status, result = self.command(*words)
        self.assertEqual(status, 0, result)
        return result

    def refused(self, status, *words):
        """The sentence of a command that has to fail with this status."""
        seen, result = self.command(*words)
        self.assertEqual(seen, status, result)
        return result.get("error", result)

    def put(self, data, name="image"):
        return self.right("put", name, self.file(data))

    def got(self, name="image"):
        """The bytes of an image."""
        self.right("get", name, self.top / "got")
        return (self.top / "got").read_bytes()

    def share(self, node, name="image"):
        return self.places[node] / f"{name}.share"

    def flip(self, node, place, name="image", mask=1):
        """Changes bits of a byte of a share file; a place below 0 counts from the end."""
        data = bytearray(self.share(node, name).read_bytes())
        data[place] ^= mask
        self.share(node, name).write_bytes(data)

    @contextlib.contextmanager
    def without(self, *nodes):
        """The nodes' folders are away for a while."""
        for node in nodes:
            self.places[node].rename(f"{self.places[node]}.away")
        try:
            yield
        finally:
            for node in nodes:
                Path(f"{self.places[node]}.away").rename(self.places[node])

    def left_over(self):
        """The files of the nodes that are neither shares nor markers."""
        return sorted(str(path.relative_to(self.top)) for place in self.places if place.is_dir() for path in place.iterdir()
                      if path.suffix != ".share" and path.name != ".imagestore")

    def digest(self, data):
        """The digest of an image in this store, by the reader that was written from the document."""
        return share_reader.digest(data, self.record, self.lanes).to_bytes(32, "big").hex()

    def all_right(self, *images):
        """Every node is there and right, and nothing is left over; the only image is one of these, or of none there is any."""
        result = self.right("check")
        self.assertEqual([one["found"] for one in result["images"]], [{}] * len(result["images"]))
        self.assertEqual(self.left_over(), [])
        seen = [one["digest"] for one in result["images"]]
        if images:
            digests = [self.digest(data) if data is not None else "" for data in images]
            self.assertIn("".join(seen), digests)
