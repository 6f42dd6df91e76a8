"""The command line: exit statuses, --json, help, usage, the store that is meant, and interrupts."""
import json
import os
import pty
import re
import shlex
import signal
import subprocess
import sys
import time
import unittest

from support import PROGRAM, TOP, StoreCase, command, in_child

from disk import Disk
from imagestore import cli, init, settings
from imagestore.examples import EXAMPLES, SHOWN

COMMANDS = ["plan", "init", "put", "get", "list", "check", "rm", "update", "rebuild", "leave", "return", "nodes", "serve", "completion"]


class CommandLine(StoreCase):
    def program(self, *words, **more):
        return subprocess.run([PROGRAM, *map(str, words)], capture_output=True, **more)

    def test_the_program(self):
        """From another folder, with the store in store.toml, named by IMAGESTORE, and by --store; an image on standard output."""
        self.make(3, 2, 16)
        self.put(b"forty-two")
        self.assertEqual(self.program("get", "image", "-", cwd=self.top).stdout, b"forty-two")
        named = self.program("get", "image", "-", env={**os.environ, "IMAGESTORE": str(self.store)}, cwd="/")
        self.assertEqual(named.stdout, b"forty-two")
        self.assertIn(b"9 bytes", named.stderr)
        self.assertEqual(self.program("get", "--store", self.store, "image", "-", cwd="/").stdout, b"forty-two")
        nowhere = self.program("list", cwd="/")
        self.assertEqual((nowhere.returncode, nowhere.stdout), (2, b""))
        self.assertIn(b"there is no store store.toml", nowhere.stderr)

    def test_installed(self):
        """`pip install .` has the command, which needs no repository, and its manual page."""
        if subprocess.run([sys.executable, "-m", "pip", "--version"], capture_output=True).returncode:
            self.skipTest("there is no pip: the installed command is not tested")
        words = [sys.executable, "-m", "pip", "install", "--quiet", "--no-index", "--disable-pip-version-check", "--no-cache-dir", "--target"]
        subprocess.run([*words, self.top / "installed", TOP / "bindings" / "python"], check=True, capture_output=True)
        seen = subprocess.run([self.top / "installed" / "bin" / "imagestore", "plan", "--nodes", "15", "--needed", "10"], cwd="/",
                              env={**os.environ, "PYTHONPATH": str(self.top / "installed")}, capture_output=True, text=True, check=True)
        self.assertIn("record 2 11 15 10\n", seen.stdout)
        page = self.top / "installed" / "share" / "man" / "man1" / "imagestore.1"
        self.assertEqual(page.read_bytes(), (TOP / "docs" / "man" / "imagestore.1").read_bytes())

    def test_every_command_says_what_it_did_in_json(self):
        self.make(3, 2, 16)
        for words in (["plan", "--nodes", 15, "--needed", 10], ["put", "image", self.file(b"x")], ["get", "image", self.top / "got"], ["list"],
                      ["check"], ["update", "image", "--at", 0, self.file(b"y")], ["rebuild", 0], ["leave", 1], ["return", 1], ["nodes"],
                      ["rm", "image"]):
            status, out, err = command("--store", self.store, "--json", *words)
            self.assertEqual((status, json.loads(out)["status"], err), (0, 0, ""), words)
            plain = command("--store", self.store, *words[:1], "--help")
            self.assertIn("usage: imagestore " + words[0], plain[1])
        status, out, err = command("--store", self.store, "--json", "get", "image", self.top / "got")
        self.assertEqual((status, json.loads(out)), (1, {"status": 1, "error": "there is no image image"}))
        self.assertEqual(err, "imagestore: there is no image image\n")

    def test_help_has_examples(self):
        """Each command's --help has examples, and each of them is read as a command line of that command."""
        self.assertEqual(sorted(EXAMPLES), sorted(COMMANDS))
        _, overview, _ = command("--help")
        for word in COMMANDS:
            _, out, _ = command(word, "--help")
            for example in EXAMPLES[word]:
                self.assertIn(f"\n  imagestore {example}\n", out)
                words = shlex.split(re.split(r" [|>]", example)[0])
                self.assertEqual(cli.parser().parse_args(words).command, word)
            self.assertEqual(f"  imagestore {EXAMPLES[word][0]}\n" in overview, word in SHOWN)

    def test_usage(self):
        self.make(3, 2, 16)
        for words in ([], ["nothing"], ["put"], ["put", "a"], ["get", "a"], ["rebuild"], ["rebuild", "x"], ["update", "a", "--at", "x", "f"],
                      ["plan"], ["leave"], ["put", "a/b", self.file(b"")], ["rebuild", 3], ["rebuild", -1], ["leave", 9], ["--wait", -1, "list"],
                      ["--threads", 0, "list"], ["plan", "--nodes", 1, "--needed", 1], ["plan", "--nodes", 256, "--needed", 5],
                      ["plan", "--nodes", 15, "--needed", 0], ["plan", "--nodes", 15, "--needed", 16]):
            status, out, err = command("--store", self.store, *words)
            self.assertEqual((status, out), (2, ""), words)
            self.assertTrue(err, words)

    def test_plan(self):
        for n in (2, 3, 4, 5, 6, 15, 17, 51, 85, 100, 253, 254, 255):
            for k in (1, n // 2, n):
                figures = init.plan(n, k)
                self.assertEqual((figures["nodes"], figures["needed"], figures["nodes_written_by_a_change"]), (n, k, n - k + 1))
        _, out, _ = command("plan", "--nodes", 15, "--needed", 10)
        self.assertIn("record 2 11 15 10\n", out)
        self.assertIn("a changed byte writes 6 nodes; a node depends on 4 of 10 symbols", out)
        _, out, _ = command("plan", "--nodes", 6, "--needed", 5)
        self.assertIn("storage: 1.20 bytes for each byte\n", out)
        self.assertAlmostEqual(init.plan(6, 5)["storage"], 1.2 * 256 / 255, 3)

    def test_init(self):
        self.make(3, 2, 16)
        folders = [self.top / f"m{i}" for i in range(3)]
        for status, words in ((1, [self.store, "--needed", 2, *folders]), (2, [self.top / "s", "--needed", 0, *folders]),
                              (2, [self.top / "s", "--needed", 4, *folders]), (2, [self.top / "s", "--needed", 2, folders[0], *folders[:2]]),
                              (1, [self.top / "s", "--needed", 2, *self.places]), (2, [self.top / "s", "--needed", 1, *folders[:1]]),
                              (2, [self.top / "s", "--needed", 2, "--lanes", 4097, *folders]),
                              (2, [self.top / "s", "--needed", 1, "--lanes", 1, *folders[:2]]),
                              (2, [self.top / "s", "--needed", 2, "-oProxyCommand=x:/y", "a:/b", "c:/d"]),
                              (2, [self.top / "s", "--needed", 2, "--", "-oProxyCommand=x:/y", "a:/b", "c:/d"]),
                              (2, [self.top / "s", "--needed", 2, "a:relative", "b:/b", "c:/d"]),
                              (2, [self.top / "s", "--needed", 2, "a;id:/x", "b:/b", "c:/d"]), (2, [self.top / "s", "--needed", 2, "", "x", "y"])):
            self.assertEqual(command("init", *words)[0], status, words)
        self.assertEqual(sorted(os.listdir(self.top)), ["store", "store.toml"])

    def test_settings(self):
        self.make(3, 2, 16)
        text = self.store.read_text()
        kept = settings.load(str(self.store))
        self.assertEqual(settings.text(kept), text)
        self.assertEqual(kept.nodes, ("store/n000", "store/n001", "store/n002"))
        for wrong in ("", "x", text + "more = 1\n", text.replace("lanes = 16", "lanes = 0"), text.replace("lanes = 16", "lanes = 'x'"),
                      text.replace("record = [2, 214, 3, 2]", "record = [2, 2, 3, 2]"), text.replace("record = [2", "record = [1"),
                      text.replace("[2, 214, 3, 2]", "[300]"), text.replace('store = "', 'store = "zz'), text.replace('    "store/n001",\n', ""),
                      text.replace("[2, 214, 3, 2]", "[1, 7, 2, 3, 2]"), "ssh = []\n" + text):
            self.store.write_text(wrong)
            self.assertEqual(command("--store", self.store, "list")[0], 2, wrong)

    def test_a_store_can_be_moved(self):
        """Folders below that of store.toml are relative to it."""
        self.make(3, 2, 16)
        self.put(b"moved")
        (self.top / "elsewhere").mkdir()
        (self.top / "store").rename(self.top / "elsewhere" / "store")
        self.store = self.store.rename(self.top / "elsewhere" / "store.toml")
        self.assertEqual(self.got(), b"moved")

    def test_store_toml_written_anew(self):
        """From what the nodes' folders say of themselves, as docs/STORE.md has it."""
        self.make(3, 2, 16)
        self.put(b"kept")
        self.store.unlink()
        says = {str(place): json.loads((place / ".imagestore").read_text()) for place in reversed(self.places)}
        nodes, one = sorted(says, key=lambda place: says[place]["node"]), says[str(self.places[0])]
        self.store.write_text(f'store = "{one["store"]}"\nrecord = {one["record"]}\nlanes = {one["lanes"]}\nnodes = {json.dumps(nodes)}\n')
        self.all_right(b"kept")

    def test_the_roster_file(self):
        self.make(3, 2, 16)
        self.right("leave", 1)
        path = self.top / "store.roster"
        self.assertEqual(len(path.read_bytes()), 256)
        path.write_bytes(b"short")
        self.assertIn("is no roster", self.refused(1, "list"))
        path.unlink()
        self.assertEqual(self.right("nodes")["nodes"][1]["state"], "here")

    def completed(self, *words):
        """What bash proposes for the last word."""
        code = f'source <({PROGRAM} completion); COMP_WORDS=("$@"); COMP_CWORD=$(($# - 1)); _imagestore; printf "%s\\n" "${{COMPREPLY[@]}}"'
        seen = subprocess.run(["bash", "-c", code, "bash", "imagestore", *words], capture_output=True, text=True, check=True)
        return seen.stdout.split()

    def test_completion(self):
        self.assertEqual(self.completed("re"), ["rebuild", "return"])
        self.assertEqual(sorted(self.completed("")), sorted([*COMMANDS, "--help", "--store", "--json", "--wait", "--threads"]))
        self.assertEqual(self.completed("check", "--c"), ["--correct"])
        self.assertEqual(self.completed("--json", "rm", "--f"), ["--force"])
        self.assertEqual(self.completed("put", "image", ""), ["--help", "--store", "--json", "--wait", "--threads"])

    def test_the_manual_page_has_every_command(self):
        text = (TOP / "docs" / "man" / "imagestore.1").read_text()
        plain = re.sub(r"\\f[BIRP]|\\", "", text)
        for word in COMMANDS:
            self.assertRegex(plain, rf"(?m)^(\.B |\.BI |\.BR )?\"?{word}\b")
        for words in (parser for parser in [cli.parser(), *cli.parser()._subparsers._group_actions[0].choices.values()]):
            for action in words._actions:
                for option in action.option_strings:
                    self.assertIn(option if option != "-h" else "--help", plain)


class Interrupts(StoreCase):
    """Ctrl-C and SIGTERM: what was begun is undone, what was done is whole, and nothing is left over."""

    def setUp(self):
        super().setUp()
        self.make(3, 2, 16)

    def interrupted(self, stop, *words):
        """The status of a command that is interrupted at some change of a disk."""
        def action():
            Disk(stop, "interrupt").install()
            return command("--store", self.store, *words)[0]

        return in_child(action)

    def test_put_at_every_change(self):
        data, ends = self.bytes(200), set()
        path = self.file(data)
        for stop in range(1, 40):
            status = self.interrupted(stop, "put", "image", path)
            self.all_right(data if status == 0 else None)
            ends.add(status)
            if status == 0:
                self.right("rm", "image")
        self.assertEqual(ends, {0, 1})

    def test_update_at_every_change(self):
        data, ends = bytearray(self.bytes(200)), set()
        self.put(data)
        for stop in range(1, 40):
            status = self.interrupted(stop, "update", "image", "--at", 50, self.file(bytes([stop]) * 20))
            if status == 0:
                data[50:70] = bytes([stop]) * 20
            self.all_right(data)
            ends.add(status)
        self.assertEqual(ends, {0, 1})

    def every_change(self, restore, judge, *words):
        """Interrupts a command at each change of a disk; `judge` is told whether it was done all the same."""
        for stop in range(1, 60):
            restore()
            status = self.interrupted(stop, *words)
            self.assertIn(status, (0, 1))
            with self.subTest(stop=stop):
                judge(status == 0)
                self.assertEqual(self.left_over(), [])

    def test_rm_and_a_new_length_at_every_change(self):
        data, longer = self.bytes(70), self.bytes(101)
        path, old = self.file(longer, "longer"), self.file(data, "old")

        def restore():
            self.command("rm", "image")
            self.right("put", "image", old)

        self.every_change(restore, lambda done: self.all_right(None if done else data), "rm", "image")
        self.every_change(restore, lambda done: self.all_right(longer if done else data), "update", "image", path)

    def test_rebuild_and_check_that_sets_right_at_every_change(self):
        data = self.bytes(70)
        self.put(data)

        def judge(done):
            self.assertEqual(self.got(), data)
            if done:
                self.all_right(data)

        for words in (["rebuild", 1], ["check", "--correct"]):
            self.every_change(lambda: self.share(1).unlink(missing_ok=True), judge, *words)

    def test_get_at_every_change(self):
        data, target = self.bytes(70), self.top / "got"
        self.put(data)

        def judge(done):
            self.assertEqual(target.read_bytes(), data if done else b"old")
            self.assertEqual([name for name in os.listdir(self.top) if name.endswith(".tmp")], [])

        self.every_change(lambda: target.write_bytes(b"old"), judge, "get", "image", target)

    def test_the_program(self):
        """A signal from outside, in the middle of a put and of a get, if it comes in time."""
        path = self.file(bytes(500_000), "large")
        self.right("put", "kept", path)
        for number, words, begun in ((signal.SIGINT, ["put", "image", path], "store/n000/image.tmp"),
                                     (signal.SIGTERM, ["get", "kept", self.top / "got"], ".got.*.tmp")):
            program = subprocess.Popen([PROGRAM, "--store", self.store, *words], stdout=subprocess.PIPE, stderr=subprocess.PIPE)
            while not list(self.top.glob(begun)) and program.poll() is None:
                time.sleep(0.001)
            program.send_signal(number)
            _, err = program.communicate()
            self.assertIn(program.returncode, (0, 1))
            if program.returncode:
                self.assertIn(b"interrupted", err)
                self.assertFalse((self.top / "got").exists())
            self.assertEqual(self.left_over(), [])
            self.assertEqual([name for name in os.listdir(self.top) if name.endswith(".tmp")], [])


class OnATerminal(StoreCase):
    """A bar shows what is done, and goes away."""

    def shown(self, *words):
        """What a command writes to a terminal as standard error."""
        near, far = pty.openpty()
        program = subprocess.Popen([PROGRAM, "--store", self.store, "--threads", "1", *map(str, words)], stdout=subprocess.DEVNULL, stderr=far)
        os.close(far)
        text = b""
        try:
            while part := os.read(near, 1 << 16):
                text += part
        except OSError:
            pass  # the other side is closed
        os.close(near)
        self.assertEqual(program.wait(), 0, text)
        return text.decode()

    def test_a_bar_for_every_command_that_takes_long(self):
        self.make(5, 3, 4096)
        path, other = self.file(self.bytes(8_000_000)), self.file(self.bytes(8_000_000), "other")
        for word, words in (("sent", ["put", "image", path]), ("read", ["get", "image", self.top / "got"]),
                            ("changed", ["update", "image", other]), ("node 2, image", ["rebuild", 2]), ("check image", ["check"])):
            text = self.shown(*words)
            self.assertRegex(text, rf"\r{word} \[#*\.+\]  ?\d+ %")
            self.assertTrue(text.endswith("\r") and not text.rstrip("\r").rpartition("\r")[2].strip(), "the bar is left there")


if __name__ == "__main__":
    unittest.main()
