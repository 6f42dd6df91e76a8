"""A disk that stops: every change that the program makes goes through here, and the i-th one is the last.

    stop       the program ends before the change; everything before is kept
    torn       likewise, but of a write the first half is made
    power      of what was not synced, some writes and some last changes of names are lost, by chance
    interrupt  the program gets SIGINT, and goes on

Files are followed by what `imagestore.files` is asked to do. A sync of a file keeps its bytes, and a sync of a folder the names in
it; until then a file's bytes may be the old ones or the new ones, range by range, and of the changes of names a first part is kept.
"""
import os
import random
import signal
import threading

from imagestore import files

STOPPED, STOPPED_AT_A_WRITE = 77, 78
REAL = {name: getattr(files, name) for name in ("create", "open_file", "write", "sync", "rename", "remove")}


class Disk:
    def __init__(self, stop, mode, seed=0):
        self.stop, self.mode, self.count, self.random, self.lock = stop, mode, 0, random.Random(seed), threading.RLock()
        self.folders, self.kept, self.writes, self.opened, self.next = {}, {}, {}, {}, 0

    def install(self):
        for name in REAL:
            setattr(files, name, self.guarded(name))

    def guarded(self, name):
        def change(*words, **more):
            with self.lock:
                if name != "open_file":
                    self.count += 1
                    if self.count == self.stop:
                        self.end(name, words)
                self.before(name, words)
                result = REAL[name](*words, **more)
                self.after(name, words, result)
                return result
        return change

    def end(self, name, words):
        if self.mode == "interrupt":
            return os.kill(os.getpid(), signal.SIGINT)
        if name == "write" and self.mode == "torn":
            file, place, data = words
            whole = b"".join(data) if isinstance(data, list) else bytes(data)
            REAL["write"](file, place, whole[:len(whole) // 2])
        if self.mode == "power":
            self.lose()
        os._exit(STOPPED_AT_A_WRITE if name == "write" else STOPPED)

    # what is kept of folders (names) and of files (bytes)

    def folder(self, descriptor):
        """The names of a folder that are kept, and the changes of names since; read when it is first met."""
        key = os.fstat(descriptor).st_ino
        if key not in self.folders:
            path, names = os.readlink(f"/proc/self/fd/{descriptor}"), {}
            for name in os.listdir(path):
                full = os.path.join(path, name)
                if os.path.isfile(full):
                    with open(full, "rb") as file:
                        names[name] = self.new_file(file.read())
            self.folders[key] = [path, names, []]
        return self.folders[key]

    def new_file(self, data):
        self.next += 1
        self.kept[self.next], self.writes[self.next] = data, []
        return self.next

    def before(self, name, words):
        if name in ("create", "rename", "remove", "open_file"):
            self.folder(words[0])

    def now(self, descriptor):
        """The names of a folder as they are, kept or not."""
        _, names, changes = self.folder(descriptor)
        names = dict(names)
        for change in changes:
            change(names)
        return names

    def after(self, name, words, result):
        if name == "create":
            number, called = self.new_file(b""), words[1]
            self.opened[result] = number
            self.folder(words[0])[2].append(lambda names: names.__setitem__(called, number))
        elif name == "open_file":
            self.opened[result] = self.now(words[0]).get(words[1])
        elif name == "write":
            data = b"".join(words[2]) if isinstance(words[2], list) else bytes(words[2])
            self.writes[self.opened[words[0]]].append((words[1], data))
        elif name == "rename":
            old, new = words[1:]
            self.folder(words[0])[2].append(lambda names: names.__setitem__(new, names.pop(old)))
        elif name == "remove":
            gone = words[1]
            self.folder(words[0])[2].append(lambda names: names.pop(gone, None))
        elif name == "sync":
            self.synced(words[0])

    def synced(self, descriptor):
        if os.path.isdir(f"/proc/self/fd/{descriptor}"):
            folder = self.folder(descriptor)
            folder[1], folder[2] = self.now(descriptor), []
        else:
            number = self.opened[descriptor]
            self.kept[number], self.writes[number] = written(self.kept[number], self.writes[number]), []

    def lose(self):
        """Makes the folders what is left after the power is gone."""
        for path, names, changes in self.folders.values():
            for change in changes[:self.random.randint(0, len(changes))]:
                change(names)
            for name in os.listdir(path):
                if os.path.isfile(os.path.join(path, name)):
                    os.unlink(os.path.join(path, name))
            for name, number in names.items():
                some = [write for write in self.writes[number] if self.random.random() < 0.5]
                with open(os.path.join(path, name), "wb") as file:
                    file.write(written(self.kept[number], some))


def written(data, writes):
    """The bytes of a file after some writes."""
    data = bytearray(data)
    for place, part in writes:
        data.extend(bytes(max(0, place + len(part) - len(data))))
        data[place:place + len(part)] = part
    return bytes(data)
