"""The command `imagestore`."""
import argparse
import functools
import json
import os
import resource
import sys

from . import examples, interrupts, report
from .errors import StoreError, UsageError, of_disk
from .progress import Bar

STATUSES = """exit status: 0 done; 1 something is wrong or refused, and a sentence says what; 2 usage; 3 fewer nodes than are needed.
store.toml in this folder is the store, unless --store or the variable IMAGESTORE names another.
`imagestore COMMAND --help` has a command's options and examples. docs/STORE.md says what is kept when, and what survives what."""


def common():
    """Options that stand before or after the command."""
    parser = argparse.ArgumentParser(add_help=False, argument_default=argparse.SUPPRESS)
    parser.add_argument("--store", metavar="STORE.toml", help="the store's file")
    parser.add_argument("--json", action="store_true", help="print one JSON object")
    parser.add_argument("--wait", type=float, metavar="SECONDS", help="wait so long for another command's lock (10)")
    parser.add_argument("--threads", type=int, metavar="N", help="work on so many batches of blocks at a time (as many as there are cores)")
    return parser


@functools.cache
def parser():
    shared = common()
    top = argparse.ArgumentParser(
        prog="imagestore", description="Keeps images on n nodes, any k of which give them back.", parents=[shared],
        epilog=f"{examples.overview()}\n\n{STATUSES}", formatter_class=argparse.RawDescriptionHelpFormatter)
    commands = top.add_subparsers(dest="command", required=True, metavar="COMMAND")

    def command(name, what):
        return commands.add_parser(
            name, help=what, description=what, parents=[shared], epilog=examples.epilog(name),
            formatter_class=argparse.RawDescriptionHelpFormatter)

    one = command("plan", "print the record of a store of so many nodes, and what it costs")
    one.add_argument("--nodes", type=int, required=True, metavar="N")
    one.add_argument("--needed", type=int, required=True, metavar="K")
    one = command("init", "make a new store")
    one.add_argument("path", metavar="STORE.toml")
    one.add_argument("--needed", type=int, required=True, metavar="K", help="any K nodes give an image back")
    one.add_argument("--lanes", type=int, default=4096, help="lanes of a block, 1 to 4096 (4096)")
    one.add_argument("--ssh", metavar="COMMAND", help="the ssh command, with its options, for nodes on other machines")
    one.add_argument("--program", help="the command imagestore on these machines (imagestore)")
    one.add_argument("nodes", nargs="+", metavar="NODE", help="a folder, or HOST:/FOLDER")
    image_commands(command)
    node_commands(command)
    return top


def image_commands(command):
    one = command("put", "store a new image")
    one.add_argument("name", metavar="NAME")
    one.add_argument("file", metavar="FILE")
    one = command("get", "read an image; FILE is there once it is whole and right")
    one.add_argument("name", metavar="NAME")
    one.add_argument("file", metavar="FILE", help="a file, or - for standard output")
    command("list", "list the images")
    one = command("check", "read and compare every block of every node; finish or undo an interrupted write")
    one.add_argument("names", nargs="*", metavar="NAME")
    one.add_argument("--correct", action="store_true", help="make wrong shares anew")
    one.add_argument("--undo", action="store_true", help="give up a write that too few of the nodes hold that are here")
    one = command("rm", "remove an image")
    one.add_argument("name", metavar="NAME")
    one.add_argument("--force", action="store_true", help="remove also what is left of an image that too few nodes hold")
    one = command("update", "change an image: some bytes of it with --at, or all; only what differs is sent")
    one.add_argument("name", metavar="NAME")
    one.add_argument("--at", type=int, metavar="OFFSET", help="the file's bytes replace those from OFFSET on")
    one.add_argument("file", metavar="FILE")


def node_commands(command):
    one = command("rebuild", "make all shares of nodes anew; a new and empty folder becomes the node")
    one.add_argument("numbers", nargs="+", type=int, metavar="NODE-NUMBER")
    one.add_argument("--whole", action="store_true", help="from k whole shares alone, and see that the images' digests are right")
    one = command("leave", "a node leaves: no command asks it any more")
    one.add_argument("number", type=int, metavar="NODE-NUMBER")
    one = command("return", "a node is back; `rebuild` or `check --correct` brings it up to date")
    one.add_argument("number", type=int, metavar="NODE-NUMBER")
    command("nodes", "list the nodes")
    one = command("serve", "answer for a node's folder on standard input and output, as ssh starts it")
    one.add_argument("folder", metavar="FOLDER")
    command("completion", "print completion for bash: source <(imagestore completion)")


def open_store(options, bar):
    from .store import Store
    path = getattr(options, "store", None) or os.environ.get("IMAGESTORE") or "store.toml"
    wait, threads = getattr(options, "wait", 10.0), getattr(options, "threads", None)
    if wait < 0 or (threads is not None and threads < 1):
        raise UsageError("--wait is 0 or more, and --threads 1 or more")
    return Store(path, wait, threads, bar)


def run(options, bar):
    """What the command gives, as a table."""
    import shlex
    from . import check, events, get, init, listing, put, rebuild, remove, update
    if options.command == "plan":
        return init.plan(options.nodes, options.needed)
    if options.command == "init":
        ssh = shlex.split(options.ssh) if options.ssh else None
        return init.init(options.path, options.needed, options.nodes, options.lanes, ssh, options.program)
    store = open_store(options, bar)
    return {
        "put": lambda: put.put(store, options.name, options.file),
        "get": lambda: get.get(store, options.name, options.file),
        "list": lambda: listing.list_images(store),
        "check": lambda: check.check(store, options.names, options.correct, options.undo),
        "rm": lambda: remove.remove(store, options.name, options.force),
        "update": lambda: update.update(store, options.name, options.file, options.at),
        "rebuild": lambda: rebuild.rebuild(store, options.numbers, options.whole),
        "leave": lambda: events.leave(store, options.number),
        "return": lambda: events.rejoin(store, options.number),
        "nodes": lambda: listing.list_nodes(store),
    }[options.command]()


def tell(options, result, out):
    """Prints what was done, and gives the exit status."""
    status, lines = report.report(options.command, result)
    if getattr(options, "json", False):
        lines = [json.dumps({"status": status, **result})]
    print("\n".join(lines), file=out)
    out.flush()
    return status


def say(options, status, sentence):
    if getattr(options, "json", False):
        print(json.dumps({"status": status, "error": sentence}))
    print(f"imagestore: {sentence}", file=sys.stderr)
    return status


def allow_files():
    """Up to four files for each of 255 nodes are open at once, which is more than a process may have where nothing is said."""
    soft, hard = resource.getrlimit(resource.RLIMIT_NOFILE)
    wanted = 4096 if hard == resource.RLIM_INFINITY else min(4096, hard)
    if soft != resource.RLIM_INFINITY and soft < wanted:
        resource.setrlimit(resource.RLIMIT_NOFILE, (wanted, hard))


def main(words=None):
    options = parser().parse_args(words)
    if options.command == "serve":
        from .remote import serve
        return serve(options.folder, sys.stdin.buffer, sys.stdout.buffer)
    if options.command == "completion":
        from .completion import script
        print(script(parser()))
        return 0
    allow_files()
    with interrupts.noted():
        return carry_out(options)


def carry_out(options):
    """Runs a command and tells what came of it; gives the exit status."""
    bar = Bar()
    # an image on standard output is not mixed with words
    out = sys.stderr if options.command == "get" and options.file == "-" else sys.stdout
    try:
        result = run(options, bar)
        bar.clear()
        return tell(options, result, out)
    except StoreError as error:
        bar.clear()
        return say(options, error.status, str(error))
    except OSError as error:
        bar.clear()
        return say(options, 1, of_disk(error))
    except KeyboardInterrupt:
        bar.clear()
        return say(options, 1, "interrupted: what was begun is undone, what was done is whole")
