"""Nodes over a real sshd on this machine. Where there is none, tests/store.sh tries to install it; the tests are left out, with a
line that says so, where that fails."""
import json
import os
import shutil
import signal
import socket
import subprocess
import time
import unittest

from support import PROGRAM
from test_pipes import PipeCase

SSHD = shutil.which("sshd", path="/usr/sbin:/usr/local/sbin:" + os.environ.get("PATH", ""))


def free_port():
    with socket.socket() as one:
        one.bind(("127.0.0.1", 0))
        return one.getsockname()[1]


@unittest.skipUnless(SSHD and shutil.which("ssh"), "no sshd on this machine: nodes over ssh are not tested")
class OverSsh(PipeCase):
    def setUp(self):
        super().setUp()
        self.port, keys = free_port(), self.top / "keys"
        keys.mkdir(mode=0o700)
        for name in ("host", "user"):
            subprocess.run(["ssh-keygen", "-q", "-t", "ed25519", "-N", "", "-f", keys / name], check=True)
        if os.getuid() == 0:
            os.makedirs("/run/sshd", exist_ok=True)
        self.sshd = subprocess.Popen([
            SSHD, "-D", "-e", "-f", "/dev/null", "-p", str(self.port), "-h", keys / "host", "-o", f"AuthorizedKeysFile={keys}/user.pub",
            "-o", "StrictModes=no", "-o", "UsePAM=no", "-o", "ListenAddress=127.0.0.1", "-o", f"PidFile={keys}/pid", "-o", "MaxStartups=100",
            "-o", "SetEnv=SHLVL=5"],  # the far bash takes itself for an inner one, and reads no profile, which may take seconds
            stderr=subprocess.DEVNULL)
        self.addCleanup(self.stop)
        self.ssh = ["ssh", "-q", "-F", "/dev/null", "-p", str(self.port), "-i", str(keys / "user"), "-o", "StrictHostKeyChecking=no",
                    "-o", "UserKnownHostsFile=/dev/null", "-o", "BatchMode=yes", "-o", "IdentitiesOnly=yes"]
        self.wait_for_sshd()

    def wait_for_sshd(self):
        for _ in range(100):
            try:
                socket.create_connection(("127.0.0.1", self.port), 1).close()
                return
            except OSError:
                time.sleep(0.05)
        self.fail("sshd does not answer")

    def stop(self):
        self.sshd.terminate()
        self.sshd.wait()

    def make(self, n=3, k=2, lanes=64):
        self.n, self.k, self.lanes = n, k, lanes
        self.places = [self.top / self.store.stem / f"n {node:03}" for node in range(n)]  # a blank in the name, for the far shell
        wanted = [f"127.0.0.1:{place}" for place in self.places]
        words = ["--needed", k, "--lanes", lanes, "--ssh", " ".join(self.ssh), "--program", PROGRAM]
        self.record = bytes(self.right("init", self.store, *words, *wanted)["record"])

    def test_an_image(self):
        """put, update, get with a node lost, rebuild, rm: as on folders."""
        self.make()
        data = bytearray(self.bytes(200_000))
        self.put(data)
        data[1000:1005] = b"fresh"
        self.assertEqual(len(self.right("update", "image", "--at", 1000, self.file(b"fresh"))["nodes"]), 2)
        shutil.rmtree(self.places[1])
        self.assertEqual(self.got(), data)
        self.right("rebuild", 1)
        self.all_right(data)

    def test_a_key_that_is_bound_to_a_folder(self):
        """A node over ssh with a forced command beside two folders: it serves its folder whatever it is asked for."""
        self.n, self.k, self.lanes = 3, 2, 64
        self.places = [self.top / "store" / f"n{node}" for node in range(3)]
        public = (self.top / "keys" / "user.pub").read_text()
        (self.top / "keys" / "user.pub").write_text(f'restrict,command="{PROGRAM} serve {self.places[2]}" {public}')
        wanted = [*self.places[:2], "127.0.0.1:/anywhere"]
        self.right("init", self.store, "--needed", 2, "--lanes", 64, "--ssh", " ".join(self.ssh), *wanted)
        data = self.bytes(1000)
        self.put(data)
        self.assertTrue(self.share(2).exists())
        with self.without(0):
            self.assertEqual(self.got(), data)

    def test_lengths(self):
        """No bytes, one, an odd number, whole blocks and one byte more and less, 5 MB; with a node lost."""
        self.make(lanes=4096)
        for length in (0, 1, 777, 8191, 8192, 8193, 3 * 8192, 5_000_001):
            data = self.bytes(length)
            self.put(data, f"image{length}")
            with self.without(self.random.randrange(3)):
                self.assertEqual(self.got(f"image{length}"), data)
        self.assertEqual(self.right("check")["absent"], {})

    def test_the_connection_drops(self):
        """One node's connection is cut in the middle of put, update, get and rebuild: the command goes on without the node."""
        self.make(lanes=4096)
        data = self.bytes(8_000_000)
        for ended in ("serve", "sshd"):
            result = self.dropped(0, [2], ended, self.draft(2), "put", "image", self.file(data))
            self.back(result, data)
            data = self.bytes(8_000_000)
            result = self.dropped(0, [2], ended, self.draft(2), "update", "image", self.file(data))
            self.back(result, data)
            result = self.dropped(0, [1], ended, lambda: list(self.top.glob(".got.*.tmp")), "get", "image", self.top / "got")
            self.assertEqual((self.top / "got").read_bytes(), data)
            self.share(0).unlink()
            result = self.dropped(3, [2], ended, self.draft(0), "rebuild", 0)  # the node that is made anew and one other are not enough
            self.assertIn("was lost", result["lost"]["image"])
            self.right("check", "--correct")
            self.all_right(data)
            self.right("rm", "image")

    def test_every_connection_drops(self):
        """Then too few nodes are here: the command says so, and the image is what it was."""
        self.make(lanes=4096)
        data = self.bytes(8_000_000)
        error = self.dropped(3, [0, 1, 2], "sshd", self.draft(2), "put", "image", self.file(data))["error"]
        self.assertEqual(error.count("was lost"), 3, error)
        self.all_right(None)
        self.put(data)
        error = self.dropped(3, [0, 1, 2], "sshd", self.draft(2), "update", "image", self.file(self.bytes(8_000_000)))["error"]
        self.assertEqual(error.count("was lost"), 3, error)
        self.all_right(data)

    def back(self, result, data):
        """The node that was lost is named, the image is right without it, and it is set right."""
        self.assertIn("was lost", result["absent"]["2"])
        self.assertEqual(self.got(), data)
        self.right("check", "--correct")
        self.all_right(data)

    def draft(self, node):
        """Whether a node has a draft of the image."""
        return (self.places[node] / "image.tmp").exists

    def dropped(self, status, nodes, ended, begun, *words):
        """The result of a command that loses its connections to these nodes once it has begun: that of the process that serves the folder,
        or that of sshd."""
        program = subprocess.Popen([PROGRAM, "--store", self.store, "--json", *map(str, words)], stdout=subprocess.PIPE, stderr=subprocess.DEVNULL)
        while not begun() and program.poll() is None:
            time.sleep(0.001)
        numbers = {number if ended == "serve" else self.sshd_of(number) for node in nodes for number in self.serving(self.places[node])}
        for number in numbers:
            os.kill(number, signal.SIGKILL)
        out, _ = program.communicate()
        self.assertTrue(numbers, "the command ended before its connections could be cut")
        self.assertEqual(program.returncode, status, out)
        return json.loads(out)

    def sshd_of(self, number):
        """The process of sshd that has the connection of a process."""
        while True:
            with open(f"/proc/{number}/stat", encoding="utf-8") as file:
                name, _, rest = file.read().partition("(")[2].rpartition(")")
            if name.startswith("sshd"):
                return number
            number = int(rest.split()[1])

    def serving(self, place):
        """The processes that serve a folder."""
        for number in filter(str.isdigit, os.listdir("/proc")):
            try:
                with open(f"/proc/{number}/cmdline", "rb") as file:
                    words = file.read().split(b"\0")
            except OSError:
                continue
            if b"serve" in words and str(place).encode() in words:
                yield int(number)


if __name__ == "__main__":
    unittest.main()
