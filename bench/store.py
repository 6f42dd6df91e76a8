#!/usr/bin/env python3
"""The image store beside zfec and par2: an image of 64 MB put, got back with n-k nodes lost, and one node's share made anew.

    bench/store.py [ROUNDS] [MEGABYTES]

All write to folders in memory, so that no disk is timed, and sync what they write; the ways run in turn, round after round, and the
best time of each counts: by the clock, for which two cores have to be idle where two are used, and of processors. Ours on one core, on
two, and on as many as there are. zfec by its Python calls, as its command is in Python too; it uses one core, and its shares have no
checksums. par2 is a program; its parts are the image in k files and n-k volumes of recovery blocks. What is got back is compared.
A peer that is missing is left out (apt-get install python3-zfec par2).
"""
import os
import resource
import shutil
import subprocess
import sys
import tempfile
import time
from pathlib import Path

sys.path.insert(0, str(Path(__file__).resolve().parents[1] / "bindings" / "python"))
sys.path.append("/usr/lib/python3/dist-packages")
from imagestore import get, init, pipeline, put, rebuild, remove  # noqa: E402
from imagestore.store import Store  # noqa: E402

try:
    import zfec
except ImportError:
    zfec = None
RECORDS = ((15, 10), (51, 34), (255, 120))


def kept(path, parts):
    """Writes parts to a file under another name, syncs and renames it."""
    with open(f"{path}.tmp", "wb") as file:
        for part in parts:
            file.write(part)
        file.flush()
        os.fsync(file.fileno())
    os.rename(f"{path}.tmp", path)


class Ours:
    def __init__(self, top, n, k, cores):
        self.name, self.n, self.k = f"ours, {cores} core{'s' if cores > 1 else ''}", n, k
        self.top = top / f"ours{cores}"
        self.top.mkdir()
        init.init(str(self.top / "store.toml"), k, [str(self.top / f"n{node}") for node in range(n)], 4096)
        self.store = Store(str(self.top / "store.toml"), threads=cores)

    def put(self, image):
        put.put(self.store, "image", str(image))

    def get(self, target):
        get.get(self.store, "image", str(target))

    def rebuild(self):
        """The share of a lost node, in a new folder."""
        if rebuild.rebuild(self.store, [0])["lost"]:
            raise SystemExit("nothing was rebuilt")

    def lose(self):
        for node in range(self.n - self.k):
            (self.top / f"n{node}").rename(self.top / f"away{node}")

    def clean(self):
        shutil.rmtree(self.top / "n0")
        for node in range(self.n - self.k):
            (self.top / f"away{node}").rename(self.top / f"n{node}")
        remove.remove(self.store, "image")


class Zfec:
    """Chunks of k blocks of 64 KB, the last block of zeros at its end."""
    name, block = "zfec", 1 << 16

    def __init__(self, top, n, k):
        self.top, self.n, self.k = top / "zfec", n, k
        self.top.mkdir()

    def chunks(self, image):
        with open(image, "rb") as file:
            while data := file.read(self.k * self.block):
                data = data.ljust(self.k * self.block, b"\0")
                yield [data[at:at + self.block] for at in range(0, len(data), self.block)]

    def put(self, image):
        self.length = image.stat().st_size
        encoder, files = zfec.Encoder(self.k, self.n), [open(self.top / f"{j}.tmp", "wb") for j in range(self.n)]
        for chunk in self.chunks(image):
            for file, share in zip(files, encoder.encode(chunk)):
                file.write(share)
        for j, file in enumerate(files):
            file.flush()
            os.fsync(file.fileno())
            file.close()
            os.rename(self.top / f"{j}.tmp", self.top / f"{j}")

    def shares(self):
        """The blocks of the k nodes that are left, the last ones, chunk by chunk."""
        nodes = list(range(self.n - self.k, self.n))
        files = [open(self.top / f"{j}", "rb") for j in nodes]
        while (shares := [file.read(self.block) for file in files])[0]:
            yield shares, nodes
        for file in files:
            file.close()

    def decoded(self):
        decoder, left = zfec.Decoder(self.k, self.n), self.length
        for shares, nodes in self.shares():
            for part in decoder.decode(shares, nodes):
                yield part[:left]
                left = max(0, left - len(part))

    def get(self, target):
        kept(target, self.decoded())

    def rebuild(self):
        """The share of a lost node that holds a sum: the image's blocks, and of these the sum."""
        encoder, decoder, target = zfec.Encoder(self.k, self.n), zfec.Decoder(self.k, self.n), self.n - self.k - 1
        number = target if target >= self.k else self.n - 1
        kept(self.top / "rebuilt", (encoder.encode(decoder.decode(shares, nodes), [number])[0] for shares, nodes in self.shares()))

    def lose(self):
        for node in range(self.n - self.k):
            (self.top / f"{node}").unlink()

    def clean(self):
        shutil.rmtree(self.top)
        self.top.mkdir()


class Par2:
    name = "par2"

    def __init__(self, top, n, k):
        self.top, self.n, self.k, self.parts = top / "par2", n, k, max(1, 100 // k)
        self.top.mkdir()

    def run(self, *words):
        subprocess.run(["par2", *map(str, words)], cwd=self.top, check=True, stdout=subprocess.DEVNULL)

    def put(self, image):
        data = image.read_bytes()
        self.length, size = len(data), -(-len(data) // self.k)
        self.files = [f"part{i:03}" for i in range(self.k)]
        for i, name in enumerate(self.files):
            kept(self.top / name, [data[i * size:(i + 1) * size]])
        slice_len = -(-size // self.parts) // 4 * 4 + 4
        count = self.parts * (self.n - self.k)
        self.run("create", "-q", "-q", "-u", f"-s{slice_len}", f"-c{count}", f"-n{min(31, self.n - self.k)}", "image.par2", *self.files)

    def get(self, target):
        self.run("repair", "-q", "-q", "image.par2")
        kept(target, ((self.top / name).read_bytes() for name in self.files))

    def rebuild(self):
        (self.top / self.files[0]).unlink()
        self.run("repair", "-q", "-q", "image.par2")

    def lose(self):
        for name in self.files[:min(self.k, self.n - self.k)]:
            (self.top / name).unlink()

    def clean(self):
        shutil.rmtree(self.top)
        self.top.mkdir()


def used():
    """The processors' time of this process and of the programs that it ran."""
    return sum(one.ru_utime + one.ru_stime for one in map(resource.getrusage, (resource.RUSAGE_SELF, resource.RUSAGE_CHILDREN)))


def seconds(work, *words):
    """By the clock, and of processors."""
    begun, before = time.perf_counter(), used()
    work(*words)
    return time.perf_counter() - begun, used() - before


def one_round(way, image, target):
    """The times of one way: put, get with n-k nodes lost, rebuild."""
    times = {"put": seconds(way.put, image)}
    way.lose()
    times["get"] = seconds(way.get, target)
    if target.read_bytes() != image.read_bytes():
        raise SystemExit(f"{way.name}: another image came back")
    times["rebuild"] = seconds(way.rebuild)
    way.clean()
    return times


def ways_of(top, n, k):
    yield from (Ours(top, n, k, cores) for cores in sorted({1, min(2, pipeline.workers()), pipeline.workers()}))
    if zfec:
        yield Zfec(top, n, k)
    if shutil.which("par2"):
        yield Par2(top, n, k)


def main(rounds=5, megabytes=64):
    memory = "/dev/shm" if os.access("/dev/shm", os.W_OK) else None
    for peer, there in (("zfec: apt-get install python3-zfec", zfec), ("par2: apt-get install par2", shutil.which("par2"))):
        if not there:
            print(f"store: left out {peer}")
    with tempfile.TemporaryDirectory(dir=memory) as folder:
        image, target = Path(folder) / "image", Path(folder) / "target"
        image.write_bytes(os.urandom(megabytes << 20))
        for n, k in RECORDS:
            top = Path(folder) / f"{n}-{k}"
            top.mkdir()
            ways, best = list(ways_of(top, n, k)), {}
            for turn in range(rounds):
                for way in ways:
                    if turn and way.name == "par2":
                        continue  # it takes long: once is enough
                    for what, took in one_round(way, image, target).items():
                        best[what, way.name] = tuple(map(min, took, best.get((what, way.name), took)))
            tell(n, k, megabytes, [way.name for way in ways], best)


def tell(n, k, megabytes, names, best):
    ours = [name for name in names if name.startswith("ours")][-1]
    for what in ("put", "get", "rebuild"):
        clock, work = best[what, ours]
        print(f"store {what} {n} {k}, {megabytes} MB: {ours} {clock:.3f} s by the clock, {work:.3f} s of processors")
        for name in names:
            if name != ours:
                other, work_there = best[what, name]
                print(f"    {name} {other:.3f} s (ratio {clock / other:.2f}), {work_there:.3f} s of processors (ratio {work / work_there:.2f})")


if __name__ == "__main__":
    main(*map(int, sys.argv[1:]))
