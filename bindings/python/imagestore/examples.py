"""Examples of each command, which its --help shows; a test reads each of them as the command line is read."""

EXAMPLES = {
    "plan": ["plan --nodes 15 --needed 9"],
    "init": [
        "init store.toml --needed 9 /srv/disk{00..14}",
        "init store.toml --needed 9 host{00..14}:/srv/store",
        "init store.toml --needed 2 --ssh 'ssh -p 2222 -o BatchMode=yes' --program /opt/bin/imagestore /srv/a b:/srv/b c:/srv/c"],
    "put": ["put firmware-1.2 firmware.bin"],
    "get": ["get firmware-1.2 copy.bin", "get firmware-1.2 - | sha256sum"],
    "list": ["list", "--json list"],
    "check": ["check", "check firmware-1.2 --correct", "check --undo --correct"],
    "rm": ["rm firmware-1.2"],
    "update": ["update firmware-1.2 --at 4096 patch.bin", "update firmware-1.2 new-firmware.bin"],
    "rebuild": ["rebuild 3", "rebuild 1 4 5 --whole"],
    "leave": ["leave 3"],
    "return": ["return 3"],
    "nodes": ["nodes"],
    "serve": ["serve /srv/store"],
    "completion": ["completion >/etc/bash_completion.d/imagestore"],
}
SHOWN = ["plan", "init", "put", "update", "get", "check", "leave", "rebuild", "return"]  # by the program's --help


def lines(examples):
    return "".join(f"\n  imagestore {example}" for example in examples)


def overview():
    """What stands below the program's --help: an example of each of the commands that are shown."""
    return f"examples:{lines(EXAMPLES[command][0] for command in SHOWN)}"


def epilog(command):
    """What stands below a command's --help."""
    return f"example{'s' if len(EXAMPLES[command]) > 1 else ''}:{lines(EXAMPLES[command])}"
