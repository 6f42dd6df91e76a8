"""What a command cannot do: each error has a sentence, and the exit status of the command."""


class StoreError(Exception):
    """A wrong or refused thing; the text says which."""
    status = 1


class UsageError(StoreError):
    """The command line, or store.toml, asks for something that there is not."""
    status = 2


class TooFewNodes(StoreError):
    """Fewer than k nodes are there, or hold what is asked for."""
    status = 3


class Refused(StoreError):
    """A node does not do what it is asked; the text says why."""


class Busy(Refused):
    """Another command has the node's lock."""


class Broken(StoreError):
    """A frame that is none: the connection cannot go on."""


class NodesFailed(StoreError):
    """Some nodes failed in the middle of a command: `why` has a sentence for each."""

    def __init__(self, why):
        super().__init__("; ".join(f"node {node}: {sentence}" for node, sentence in sorted(why.items())))
        self.why = why

    def __reduce__(self):
        return NodesFailed, (self.why,)


def for_nodes(why):
    """A line for each node that something is to be said of."""
    return "".join(f"\n  node {node}: {said}" for node, said in sorted(why.items()))


def of_disk(error):
    """What the system says of an error, in words: the file, where one is named, and the reason."""
    if not isinstance(error, OSError) or not error.strerror:
        return str(error)
    return f"{error.filename}: {error.strerror}" if error.filename is not None else error.strerror


def sentence(data):
    """What another side says, as a line that can be printed."""
    return "".join(letter if letter.isprintable() else "?" for letter in bytes(data).decode("utf-8", "replace"))
