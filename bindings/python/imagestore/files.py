"""Changes of a disk. No other module makes one, so that a test can stop a command before each.

A file is written under a name that nobody reads, synced, and renamed: whoever opens it under the new name finds it whole.
A rename, a new file and a removal are kept once the folder is synced. Folders are descriptors, and names are looked up in
them without following links, so nothing outside a folder is reached.
"""
import os

MAX_PARTS = 512  # buffers that go into one call


def open_folder(path):
    return os.open(path, os.O_RDONLY | os.O_DIRECTORY | os.O_CLOEXEC)


def make_folder(path):
    """The folder and those above it, where they are missing; each new one is kept."""
    path = os.path.abspath(path)
    if os.path.isdir(path):
        return
    above = os.path.dirname(path)
    make_folder(above)
    try:
        os.mkdir(path)
    except FileExistsError:
        if not os.path.isdir(path):  # another node may have made it just now
            raise
    folder = open_folder(above)
    try:
        sync(folder)
    finally:
        os.close(folder)


def create(folder, name):
    """A new empty file, to be written and read."""
    return os.open(name, os.O_RDWR | os.O_CREAT | os.O_TRUNC | os.O_NOFOLLOW | os.O_CLOEXEC, 0o666, dir_fd=folder)


def open_file(folder, name, write=False):
    flags = os.O_RDWR if write else os.O_RDONLY
    return os.open(name, flags | os.O_NOFOLLOW | os.O_CLOEXEC | os.O_NONBLOCK, dir_fd=folder)


def exists(folder, name):
    try:
        os.stat(name, dir_fd=folder, follow_symlinks=False)
        return True
    except FileNotFoundError:
        return False


def read(file, place, count):
    """Up to count bytes from a place on; fewer at the end of the file."""
    parts = []
    while count:
        part = os.pread(file, count, place)
        if not part:
            break
        parts.append(part)
        place, count = place + len(part), count - len(part)
    return parts[0] if len(parts) == 1 else b"".join(parts)


def write(file, place, data):
    """All of the bytes, from a place on: of a buffer, or of a list of them that stand one after the other."""
    parts = data if isinstance(data, list) else [data]
    for at in range(0, len(parts), MAX_PARTS):
        some = parts[at:at + MAX_PARTS]
        size, done = sum(map(len, some)), 0
        while done < size:
            done += os.pwritev(file, behind(some, done) if done else some, place + done)
        place += size


def behind(parts, count):
    """The buffers without their first bytes, so many of them."""
    left = []
    for part in parts:
        left.append(memoryview(part)[min(count, len(part)):])
        count -= min(count, len(part))
    return left


def sync(file):
    """What was written to the file, or changed in the folder, is kept."""
    os.fsync(file)


def rename(folder, name, new):
    os.rename(name, new, src_dir_fd=folder, dst_dir_fd=folder)


def remove(folder, name):
    """True where there was such a file."""
    try:
        os.unlink(name, dir_fd=folder)
        return True
    except FileNotFoundError:
        return False


def replace(folder, name, data):
    """A small file with these bytes in the place of the one that there was, if there was one."""
    temporary = name + ".tmp"
    file = create(folder, temporary)
    try:
        write(file, 0, data)
        sync(file)
    except BaseException:
        remove(folder, temporary)
        raise
    finally:
        os.close(file)
    rename(folder, temporary, name)
    sync(folder)


def content(folder, name):
    """All bytes of a small file, or None where there is none."""
    try:
        file = open_file(folder, name)
    except FileNotFoundError:
        return None
    try:
        return read(file, 0, os.fstat(file).st_size)
    finally:
        os.close(file)
