"""A node over a pipe: `imagestore serve FOLDER` answers requests on its standard input and output.

`ssh HOST imagestore serve FOLDER` starts it on another machine, so who may do so, and secrecy on the way, are OpenSSH's.
"""
import shlex
import subprocess
import sys

from . import frames
from .errors import Broken, Refused
from .link import Link, answer_of
from .node import Node


def serve(path, requests, answers):
    """Answers requests for one folder until the other side ends. Something that is no request ends it with a sentence."""
    node = Node(path)
    try:
        while (request := frames.read_request(requests)) is not None:
            frames.write_answer(answers, *answer_of(node, request))
        return 0
    except Broken as error:
        frames.write_answer(answers, frames.BROKEN, str(error).encode())
        print(f"imagestore serve: {error}", file=sys.stderr)
        return 1
    except BrokenPipeError:
        return 1
    finally:
        node.close()


class PipeLink(Link):
    """A node on another machine: HOST:/FOLDER, by the store's ssh command."""

    def __init__(self, place, ssh, program):
        super().__init__(place)
        self.hints = {127: f": is there a command {program}? `program` in store.toml names it", 255: ": ssh itself ended"}
        host, _, folder = place.partition(":")
        command = [*ssh, host, f"{program} serve {shlex.quote(folder)}"]
        # a session of its own: Ctrl-C reaches this program alone, which then tells the nodes
        self.process = subprocess.Popen(
            command, stdin=subprocess.PIPE, stdout=subprocess.PIPE, start_new_session=True)
        self.pipe = self.process.stdout

    def _send(self, request):
        try:
            frames.write_request(self.process.stdin, request)
        except (OSError, ValueError) as error:
            raise Refused(self.lost()) from error

    def _receive(self):
        try:
            return frames.read_answer(self.process.stdout)
        except (OSError, ValueError, Broken) as error:
            raise Refused(self.lost()) from error

    def lost(self):
        self.process.kill()
        status = self.process.wait()
        return f"the connection to {self.place} was lost" + (f" (status {status}{self.hints.get(status, '')})" if status > 0 else "")

    def _close(self):
        for pipe in (self.process.stdin, self.process.stdout):
            try:
                pipe.close()
            except OSError:
                pass
        try:
            self.process.wait(timeout=10)
        except subprocess.TimeoutExpired:
            self.process.kill()
            self.process.wait()
