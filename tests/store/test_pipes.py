"""Nodes over pipes: images, traffic byte by byte, connections that break off, and requests that are made to do harm."""
import io
import json
import os
import struct
import sys
import unittest
from pathlib import Path
from unittest import mock

from support import PROGRAM, StoreCase, command

import pipes
from imagestore import entries, frames, node, remote, settings, share
from imagestore.frames import Request
from imagestore.node import Node

PROTOCOL = frames.PROTOCOL.to_bytes(2, "big")


class PipeCase(StoreCase):
    """A store whose nodes are asked over pipes, at `host:/folder`."""
    ssh, program = pipes.HERE, PROGRAM

    def make(self, n=3, k=2, lanes=16):
        self.n, self.k, self.lanes = n, k, lanes
        self.places = [self.top / self.store.stem / f"n{node:03}" for node in range(n)]
        wanted = [f"h{node}:{place}" for node, place in enumerate(self.places)]
        ssh = " ".join(f"'{word}'" for word in self.ssh)
        words = ["--needed", k, "--lanes", lanes, "--ssh", ssh, "--program", self.program]
        self.record = bytes(self.right("init", self.store, *words, *wanted)["record"])


class ServedCase(PipeCase):
    """Children of this process serve the folders."""

    def setUp(self):
        super().setUp()
        patch = mock.patch.object(remote, "subprocess", pipes.Children)
        patch.start()
        self.addCleanup(patch.stop)
        self.addCleanup(self.last)

    def last(self):
        """The children last as long as they are asked."""
        pipes.Child.budgets, pipes.Child.stops = {}, {}


class Served(ServedCase):

    def test_images(self):
        self.make(5, 3, 16)
        for length in (0, 1, 47, 48, 49, 480, 777):
            data = self.bytes(length)
            self.put(data, f"image{length}")
            with self.without(*self.random.sample(range(5), 2)):
                self.assertEqual(self.got(f"image{length}"), data)
        data = bytearray(data)
        data[100:103] = b"new"
        self.right("update", "image777", "--at", 100, self.file(b"new"))
        self.right("rebuild", 2)
        self.right("rm", "image0")
        self.assertEqual(self.got("image777"), data)
        self.assertEqual(self.left_over(), [])

    def test_large_frames(self):
        self.make(3, 2, 4096)
        data = self.bytes(5_000_000)
        self.put(data)
        self.assertEqual(self.got(), data)
        self.right("check")

    def lasting(self, node, budget):
        pipes.Child.budgets = {str(self.places[node]): budget}

    def every_break(self, step, act, judge):
        """The command, with a connection to node 1 that breaks off after ever more bytes."""
        budget, traffic = 0, None
        while traffic is None or budget < traffic:
            self.lasting(1, budget)
            with self.subTest(budget=budget):
                result = act(budget)
                pipes.Child.budgets = {}
                judge(budget)
            whole = result["traffic"].get("1", {"sent": 0, "received": 0})
            if "1" not in result.get("absent", {"1": ""}):
                traffic = whole["sent"] + whole["received"]
            budget += step
            self.assertLess(budget, 10000)

    def test_put_breaks_off(self):
        self.make()
        data = self.bytes(70)

        def judge(budget):
            self.assertEqual(self.got(f"i{budget}"), data)
            self.right("check", "--correct")
            self.assertEqual(self.left_over(), [])
            self.right("rm", f"i{budget}")

        self.every_break(23, lambda budget: self.put(data, f"i{budget}"), judge)

    def test_update_breaks_off(self):
        self.make()
        data = bytearray(self.bytes(70))
        self.put(data)

        def act(budget):
            part = self.bytes(40)
            data[20:60] = part
            return self.right("update", "image", "--at", 20, self.file(part))

        def judge(budget):
            self.assertEqual(self.got(), data)
            self.right("check", "--correct")
            self.assertEqual(self.left_over(), [])

        self.every_break(29, act, judge)

    def test_get_breaks_off(self):
        self.make()
        data = self.bytes(300)
        self.put(data)
        for budget in range(0, 700, 31):
            self.lasting(1, budget)
            self.assertEqual(self.got(), data)

    def test_the_node_that_is_rebuilt_breaks_off(self):
        self.make()
        data = self.bytes(70)
        self.put(data)
        for budget in range(0, 900, 37):
            self.share(1).unlink(missing_ok=True)
            self.lasting(1, budget)
            status, result = self.command("rebuild", 1)
            self.assertIn(status, (0, 1), result)
            pipes.Child.budgets = {}
            self.right("check", "--correct")
            self.all_right(data)


class CountedCase(PipeCase):
    """The bytes on the pipes are counted by what stands in for ssh."""

    def setUp(self):
        super().setUp()
        self.log = self.top / "log"
        self.log.mkdir()
        self.ssh = [sys.executable, "-S", str(Path(pipes.__file__)), str(self.log)]

    def counted(self, *words):
        for path in self.log.iterdir():
            path.unlink()
        result = self.right(*words)
        seen = {}
        for node in range(self.n):
            there, back = map(int, (self.log / f"h{node}").read_text().split())
            seen[str(node)] = {"sent": there, "received": back}
        said = {node: {key: one[key] for key in ("sent", "received")} for node, one in result["traffic"].items()}
        self.assertEqual(said, seen)
        return result

    def over_pipes(self):
        """The nodes of a store of folders are asked over pipes from now on."""
        nodes = [f"h{node}:{place}" for node, place in enumerate(self.places)]
        lines = [line for line in self.store.read_text().splitlines() if line.startswith(("store", "record", "lanes"))]
        lines += [f"ssh = {json.dumps(self.ssh)}", f"program = {json.dumps(self.program)}", f"nodes = {json.dumps(nodes)}"]
        self.store.write_text("\n".join(lines) + "\n")


class Counted(CountedCase):
    """What is counted is what the command prints."""

    def test_traffic(self):
        self.make(5, 3, 64)
        data = bytearray(self.bytes(1000))
        result = self.counted("put", "image", self.file(data))
        self.assertEqual({one["shares_sent"] for one in result["traffic"].values()}, {5 * 64 + 14 + 6 * 4})
        self.counted("get", "image", self.top / "got")
        self.assertEqual((self.top / "got").read_bytes(), data)
        # one byte: what is to be added goes to d = 3 nodes, and no share goes anywhere else
        result = self.counted("update", "image", "--at", 500, self.file(bytes([data[500] ^ 1])))
        self.assertEqual((len(result["nodes"]), result["symbols_sent"], result["told"]), (3, 3, []))
        sent = {int(node): one["shares_sent"] for node, one in result["traffic"].items()}
        self.assertEqual({node for node, count in sent.items() if count}, set(result["nodes"]))
        self.assertEqual({count for count in sent.values() if count}, {12 + 4 + 1})
        # the others are sent the greeting, the lock and questions, as in any reading, and no header
        for node in set(range(5)) - set(result["nodes"]):
            self.assertLess(result["traffic"][str(node)]["sent"], 280)


class Hostile(StoreCase):
    """Frames that are none, names that lead elsewhere, numbers that are too large: each is refused, and nothing is touched."""

    def setUp(self):
        super().setUp()
        self.make(3, 2, 8)
        self.put(b"sixteen bytes...")
        self.secret = self.file(b"secret", "secret.share")
        self.marker = settings.load(self.store).marker(0)

    def served(self, *parts):
        """What is answered to some bytes or requests: a list of status and data."""
        pipe = io.BytesIO()
        for part in parts:
            if isinstance(part, Request):
                raw = part.name.encode("utf-8", "surrogateescape")
                data = struct.pack(">BB", part.op, len(raw)) + raw + struct.pack(">QI", part.place, part.count) + bytes(part.data)
                part = struct.pack(">I", len(data)) + data
            pipe.write(part)
        answers = io.BytesIO()
        with mock.patch("sys.stderr", io.StringIO()):
            remote.serve(str(self.places[0]), io.BytesIO(pipe.getvalue()), answers)
        answers.seek(0)
        found = []
        while answers.tell() < len(answers.getvalue()):
            status, data = frames.read_answer(answers)
            found.append((status, bytes(data)))
        return found

    def hello(self):
        return Request(frames.HELLO, data=frames.GREETING + PROTOCOL + self.marker)

    def opened(self, *requests):
        """The answers to requests after the greeting and the lock."""
        answers = self.served(self.hello(), Request(frames.LOCK, count=2), *requests)
        self.assertEqual([status for status, _ in answers[:2]], [0, 0])
        return answers[2:]

    def untouched(self):
        self.assertEqual(self.secret.read_bytes(), b"secret")
        self.assertEqual(sorted(os.listdir(self.top)), ["file", "secret.share", "store", "store.toml"])
        self.assertEqual(sorted(os.listdir(self.top / "store")), ["n000", "n001", "n002"])
        self.all_right(b"sixteen bytes...")

    def test_names_that_lead_elsewhere(self):
        names = ["../secret", "../../secret", "/etc/passwd", "..", ".", ".imagestore", "a/b", "a\\b", "a b", "a\nb", "", "-" * 201,
                 "\x00", "x\x00y", "é", "image.share/../../secret", "~", "$(id)", "a;b", "\udcff"]
        for name in names:
            for op in range(frames.STAT, frames.PURGE + 1):
                (status, data), = self.opened(Request(op, name, data=b"x"))
                self.assertEqual(status, frames.REFUSED, (name, op))
                self.assertIn(b"no name", data)
            self.refused(2, "put", "--", name, self.file(b"x"))
        self.untouched()

    def test_no_request_without_greeting_or_lock(self):
        for op in range(frames.LOCK, frames.PURGE + 1):
            self.assertEqual(self.served(Request(op, "image"))[0][0], frames.REFUSED)
        for op in range(frames.BEGIN, frames.PURGE + 1):
            for mode in (0, 1):
                answers = self.served(self.hello(), Request(frames.LOCK, count=mode), Request(op, "image"))
                self.assertEqual(answers[2][0], frames.REFUSED)
        self.untouched()

    def test_greetings(self):
        for data in (b"", b"imagestore", b"imagestore\0\0" + self.marker, b"GET / HTTP/1.1\r\n\r\n"):
            self.assertEqual(self.served(Request(frames.HELLO, data=data))[0][0], frames.REFUSED)
        for marker in (b"", b"{}", self.marker.replace(b'"node": 0', b'"node": 1'), b"\xff\xfe"):
            (status, data), = self.served(Request(frames.HELLO, data=frames.GREETING + PROTOCOL + marker))
            self.assertEqual(status, frames.REFUSED)
        self.assertEqual(self.served(self.hello(), self.hello())[1], (frames.REFUSED, b"a second greeting"))
        self.untouched()

    def test_frames_that_are_none(self):
        for data in (b"\0", b"\0\0\0\0", b"\xff\xff\xff\xff", struct.pack(">I", frames.MAX_REQUEST + 1), b"\0\0\0\1\1", b"\0\0\0\2\1\xff",
                     b"\0\0\0\x0f\1\3abc", b"\0\0\1\0short", b"GET / HTTP/1.1\r\n\r\n"):
            answers = self.served(self.hello(), data)
            self.assertEqual((len(answers), answers[-1][0]), (2, frames.BROKEN), data)
        self.untouched()

    def test_requests_that_cannot_be(self):
        header = share.unpack_header(self.share(0).read_bytes())
        forged = share.pack_header(header.of(1))
        for requests in (
                [Request(frames.READ, "image", count=frames.MAX_DATA + 1)], [Request(frames.READ, "other", count=1)],
                [Request(frames.BITS, "image", count=1)], [Request(frames.BITS, "image", data=b"\1")],
                [Request(frames.BITS, "image", count=2 ** 32 - 1, data=b"\1")], [Request(frames.BITS, "image", count=1, data=b"\0\1\2")],
                [Request(frames.BITS, "image", count=1, data=b"\1")], [Request(frames.BITS, "other", count=1, data=b"\1")],
                [Request(frames.WRITE, "image", data=b"x")], [Request(frames.SEAL, "image", data=share.pack_header(header))],
                [Request(frames.BEGIN, "image"), Request(frames.WRITE, "image", place=2 ** 64 - 1, data=b"x")],
                [Request(frames.BEGIN, "image"), Request(frames.SEAL, "image", data=forged)],
                [Request(frames.BEGIN, "image"), Request(frames.SEAL, "image", data=b"")],
                [Request(frames.BEGIN, "other"), Request(frames.SEAL, "other", data=share.pack_header(header))],
                [Request(frames.BEGIN, "image", count=1), Request(frames.PATCH, "image", data=b"x")],
                [Request(frames.BEGIN, "image", count=1), Request(frames.PATCH, "image", data=struct.pack(">QI", 0, 99))],
                [Request(frames.BEGIN, "image", count=1), Request(frames.PATCH, "image", data=struct.pack(">QI", 2 ** 63, 0))],
                [Request(frames.BEGIN, "image", count=1), Request(frames.PATCH, "image", data=struct.pack(">QIHH", 0, 5, 8, 1) + b"x")],
                [Request(frames.BEGIN, "image", count=1), Request(frames.PATCH, "image", data=struct.pack(">QIHH", 0, 5, 0, 9) + b"x")],
                [Request(frames.BEGIN, "image", count=1), Request(frames.ADD, "image", data=struct.pack(">QIHH", 0, 5, 8, 1) + b"x")],
                [Request(frames.BEGIN, "image", count=1), Request(frames.ADD, "image", data=struct.pack(">QIHH", 0, 4, 0, 0))],
                [Request(frames.BEGIN, "image"), Request(frames.ADD, "image", data=struct.pack(">QIHH", 0, 5, 0, 1) + b"x")],
                [Request(frames.BEGIN, "image", count=1), Request(frames.WRITE, "image", data=b"x")],
                [Request(frames.BEGIN, "image"), Request(frames.PATCH, "image", data=b"x")],
                [Request(frames.BEGIN, "other", count=1)], [Request(frames.COMMIT, "image", place=5)], [Request(frames.COMMIT, "other")],
                [Request(frames.PURGE, "image")], [Request(99, "image")], [Request(0, "image")], [Request(frames.LOCK, count=7)]):
            answers = self.opened(*requests)
            self.assertEqual(answers[-1][0], frames.REFUSED, requests)
        self.untouched()

    def test_random_frames(self):
        """Whatever comes, there are answers, and the node is as before."""
        for _ in range(300):
            requests = [Request(self.random.randrange(frames.PURGE + 2), self.random.choice(["image", "x", "../secret", ""]), self.random.randrange(2 ** 64),
                                self.random.randrange(2 ** 32), self.random.randbytes(self.random.randrange(60))) for _ in range(4)]
            requests = [one for one in requests if one.op not in (frames.BEGIN, frames.WRITE)]
            for status, _ in self.opened(*requests):
                self.assertIn(status, (frames.DONE, frames.REFUSED, frames.BROKEN))
        for _ in range(300):
            self.served(self.hello(), self.random.randbytes(self.random.randrange(200)))
        self.untouched()

    def test_answers_that_are_none(self):
        """A node that answers nonsense is lost, and no harm to the command."""
        for nonsense in ("echo hello", "head -c 100000 /dev/zero", "cat", "false", "printf '\\377\\377\\377\\377'"):
            (self.top / "p.toml").unlink(missing_ok=True)
            text = self.store.read_text().replace(f'"{self.places[2].relative_to(self.top)}"', '"host:/nowhere"')
            text += f"ssh = {json.dumps(['sh', '-c', nonsense, 'sh'])}\n"
            (self.top / "p.toml").write_text(self.reordered(text))
            status, out, err = command("--store", self.top / "p.toml", "--json", "get", "image", self.top / "file")
            self.assertEqual(status, 0, err)
            self.assertIn("2", json.loads(out)["absent"])
        (self.top / "p.toml").unlink()
        self.file(b"")

    def test_answers_that_make_no_sense(self):
        """A node that greets as it should and then lies is left out; nothing that it says reaches the terminal as it is."""
        packed = entries.pack(entries.Entry("image"))
        for answer in (b"x", packed[:-1], packed + b"x", packed.replace(b"image", b"../im"), packed.replace(b"image", b"\xff\xff\xff\xff\xff"),
                       packed.replace(b"image", b"other")):
            for what in ("list", "stat"):
                with self.lying(what, answer):
                    self.assertEqual(self.got(), b"sixteen bytes...")
                    status, _ = self.command("check")
                    self.assertIn(status, (0, 1))
        with self.lying("list", packed):  # without end
            self.assertEqual(list(self.right("list")["absent"].values()), ["its answer makes no sense"])
        damaged = entries.pack(entries.Entry("image", damage="\x1b[2J wiped"))
        with self.lying("stat", damaged):
            self.assertEqual(self.right("get", "image", self.top / "file")["wrong"], {"1": "?[2J wiped"})
        (self.top / "got").unlink()
        self.file(b"")

    def lying(self, what, answer):
        """Node 1 answers requests of a kind with these bytes."""
        op, real = {"list": (frames.LIST, Node.list), "stat": (frames.STAT, Node.stat)}[what]

        def lie(one, request):
            return answer if one.path == str(self.places[1]) else real(one, request)

        return mock.patch.dict(node.ACTS, {op: (lie, node.SHARED)})

    def reordered(self, text):
        """Keys stand before the list of nodes."""
        head, _, rest = text.partition("nodes = [")
        nodes, _, tail = rest.partition("]\n")
        return head + tail + "nodes = [" + nodes + "]\n"


class Programs(PipeCase):
    """The program itself serves the folders."""

    def test_an_image(self):
        self.make(3, 2, 64)
        data = self.bytes(1000)
        self.put(data)
        self.assertEqual(self.got(), data)

    def test_a_host_that_is_not_there(self):
        self.ssh = ["sh", "-c", "exit 255", "sh"]
        status, out, _ = command("--json", "init", self.store, "--needed", 2, "--ssh", "sh -c 'exit 255'", "a:/x", "b:/x", "c:/x")
        self.assertEqual(status, 1)
        self.assertIn("the connection to a:/x was lost (status 255: ssh itself ended)", json.loads(out)["error"])
        self.assertFalse(self.store.exists())

    def test_a_host_without_the_program(self):
        status, out, _ = command("--json", "init", self.store, "--needed", 2, "--ssh", " ".join(f"'{word}'" for word in pipes.HERE), "--program",
                                 "/nowhere/imagestore", "a:/x", "b:/x", "c:/x")
        self.assertEqual(status, 1)
        self.assertIn("(status 127: is there a command /nowhere/imagestore? `program` in store.toml names it)", json.loads(out)["error"])


if __name__ == "__main__":
    unittest.main()
