"""The project's crates, as crates.txt lists them."""
import os

TOP = os.path.dirname(os.path.dirname(os.path.abspath(__file__)))


def crates():
    """Each crate with the crates of the project that it rests on, in the order of crates.txt."""
    found = {}
    with open(os.path.join(TOP, "crates.txt"), encoding="utf-8") as listed:
        for line in listed:
            if ":" in line and not line.startswith("#"):
                name, below = line.split(":", 1)
                # other words, as `staticlib`, may follow the name
                found[name.split()[0]] = below.split()
    return {name: [other for other in below if other in found] for name, below in found.items()}


def all_below(graph, name):
    """All crates that a crate rests on."""
    return set(graph[name]).union(*(all_below(graph, other) for other in graph[name]))


def needed(names):
    """The named crates and all that they rest on."""
    graph = crates()
    return set(names).union(*(all_below(graph, name) for name in names))


def in_order(name):
    """The crates that a crate rests on, each after those that it rests on itself, and then the crate: in this order rt proves them."""
    graph, found = crates(), []

    def add(crate):
        if crate not in found:
            for other in graph[crate]:
                add(other)
            found.append(crate)

    add(name)
    return found


def folder(name):
    return os.path.join(TOP, "crates", name)


def is_program(name):
    return os.path.exists(os.path.join(folder(name), "src", "main.rt"))


def program(name):
    """The file of a proved program, as rt leaves it."""
    return os.path.join(folder(name), "out", name)
