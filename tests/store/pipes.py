"""Nodes over pipes. As a module: nodes that children of this process serve, which may break off in the middle. As a program: what
stands in for ssh, runs the command on this machine and counts the bytes of both directions.

    pipes.py FOLDER HOST COMMAND    runs COMMAND, and writes `in out` to FOLDER/HOST at its end
"""
import os
import subprocess
import sys
import threading
from concurrent.futures import ThreadPoolExecutor

# a store.toml's ssh command that runs what is asked for on this machine
HERE = ["sh", "-c", 'exec sh -c "$2"', "sh"]


class Cut:
    """One end of a pipe that breaks off after so many bytes, of both directions together."""

    def __init__(self, file, budget):
        self.file, self.budget = file, budget

    def read(self, count):
        self.budget[0] -= count
        if self.budget[0] < 0:
            os._exit(1)
        return self.file.read(count)

    def write(self, data):
        if len(data) > self.budget[0]:
            self.file.write(data[:max(0, self.budget[0])])
            self.file.flush()
            os._exit(1)
        self.budget[0] -= len(data)
        self.file.write(data)

    def flush(self):
        self.file.flush()


class Child:
    """A child of this process that serves a folder, in the place of subprocess.Popen.

    `budgets` has for a folder how many bytes the child lasts, and `stops` at which change of its disk it ends, and in which mode.
    """
    budgets, stops = {}, {}

    def __init__(self, command, **_):
        folder = command[-1].split()[-1]
        there, back = os.pipe(), os.pipe()
        self.pid = os.fork()
        if self.pid == 0:
            try:
                self.serve(folder, there, back)
            finally:
                os._exit(1)
        os.close(there[0])
        os.close(back[1])
        self.stdin, self.stdout, self.status = os.fdopen(there[1], "wb"), os.fdopen(back[0], "rb"), None

    @classmethod
    def serve(cls, folder, there, back):
        from imagestore import link, remote
        link.POOL = ThreadPoolExecutor(max_workers=1)
        # the other pipes of the parent must not stay open here, or no end is seen
        os.dup2(there[0], 0)
        os.dup2(back[1], 1)
        os.dup2(os.open(os.devnull, os.O_WRONLY), 2)
        os.closerange(3, 512)
        requests, answers = os.fdopen(0, "rb"), os.fdopen(1, "wb")
        if folder in cls.budgets:
            budget = [cls.budgets[folder]]
            requests, answers = Cut(requests, budget), Cut(answers, budget)
        if folder in cls.stops:
            from disk import Disk
            stop, mode = cls.stops[folder]
            Disk(stop, mode, stop).install()
        os._exit(remote.serve(folder, requests, answers))

    def wait(self, timeout=None):
        if self.status is None:
            self.status = os.waitstatus_to_exitcode(os.waitpid(self.pid, 0)[1])
        return self.status

    def kill(self):
        if self.status is None:
            os.kill(self.pid, 9)


class Children:
    """What stands in for the module subprocess in imagestore.remote."""
    Popen, PIPE, TimeoutExpired = Child, subprocess.PIPE, subprocess.TimeoutExpired


def relay(source, target, counts, place):
    while data := os.read(source, 1 << 16):
        counts[place] += len(data)
        view = memoryview(data)
        while view:
            view = view[os.write(target, view):]
    os.close(target)


def main(folder, host, command):
    child = subprocess.Popen(["sh", "-c", command], stdin=subprocess.PIPE, stdout=subprocess.PIPE)
    counts = [0, 0]
    back = threading.Thread(target=relay, args=(child.stdout.fileno(), 1, counts, 1))
    back.start()
    try:
        relay(0, child.stdin.fileno(), counts, 0)
    except BrokenPipeError:
        pass
    back.join()
    with open(os.path.join(folder, host), "a", encoding="ascii") as file:
        file.write(f"{counts[0]} {counts[1]}\n")
    return child.wait()


if __name__ == "__main__":
    sys.exit(main(*sys.argv[1:]))
