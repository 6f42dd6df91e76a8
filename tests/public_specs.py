#!/usr/bin/env python3
"""What stands in crates/*/specs at the top level is what a reader must believe: some public statement leads to each definition there,
and none leads to a definition of specs/Inner.

Public statements are the contracts of the calls that crates/balanced passes on, of the functions for C, and of the programs' texts, all that
crates/demands states, and what docs/CLAIMS.md cites. A statement leads to the names that it uses, and these to those that their
definitions use. What only the contracts of functions behind a call speak of may stand in either place.
"""
import glob
import os
import re
import sys

top = os.path.dirname(os.path.dirname(os.path.abspath(__file__)))
sys.path.append(os.path.join(top, "tests"))
from check_claims import public_calls  # noqa: E402
from house import declarations, read, short  # noqa: E402

# whose functions are the programs' texts
TEXTS = "sheet_text plain_text compare_text weights_text small_plans_text tables".split()
# whose functions are the library's calls, those for C, and what stands behind them
CALLS = "plan encode update update_lanes differences rearrange recover repair belongs correct roster weight_counts find_update mends roster_bytes balanced_c balanced_c_c".split()
STATED = ("demands",)
USE = re.compile(r"(?m)^(?:pub |ghost )*use Rattle\.(\w+)\.specs\.([\w.]+?)(?:\.\{([^}]*)\})?(?: as (\w+))?;?$")
WORD = re.compile(r"[^\s(){}\[\],;.:]+")


def imports(text):
    """name or prefix as it is used → (crate, file, name there; None for a prefix)"""
    found = {}
    for crate, path, names, prefix in USE.findall(text):
        for name in filter(None, (word.strip() for word in names.split(","))):
            there, _, here = name.partition(" as ")
            found[here or there] = (crate, path, there)
        if prefix:
            found[prefix] = (crate, path, None)
    return found


def load():
    """(crate, file) → (path, {name: text of its definition}, imports)"""
    found = {}
    for path in glob.glob(f"{top}/crates/*/specs/**/*.antt", recursive=True):
        text = read(path)
        crate, inside = path[len(top) + len("/crates/"):-len(".antt")].split("/specs/")
        definitions = {}
        for name, lines, around in declarations(text):
            definitions[name] = definitions.get(name, around) + "\n" + "\n".join(lines)
        found[crate, inside.replace("/", ".")] = (path, definitions, imports(text))
    return found


class Reader:
    """follows statements to definitions"""

    def __init__(self):
        self.specs, self.reached = load(), set()

    def follow(self, text, known, home=None):
        for word in set(WORD.findall(text)):
            if home and word in self.specs[home][1]:
                self.reach(home, word)
            elif word in known:
                crate, path, name = known[word]
                for name in [name] if name else re.findall(r"(?<!\w)%s\.([^\s(){}\[\],;.:]+)" % re.escape(word), text):
                    self.reach((crate, path), name)

    def reach(self, home, name):
        if (home, name) in self.reached or home not in self.specs or name not in self.specs[home][1]:
            return
        self.reached.add((home, name))
        _, definitions, known = self.specs[home]
        self.follow(definitions[name], known, home)

    def read_functions(self, crates):
        """the contracts of their functions that ask nothing of their callers"""
        for crate in crates:
            for path in glob.glob(f"{top}/crates/{crate}/src/*.rt"):
                text = read(path)
                for contract in contracts(text):
                    self.follow(contract, imports(text))


def contracts(text):
    """the contracts of a file's public functions that ask nothing of their callers"""
    return [found for found in re.findall(r"(?m)^\s*pub (?:extern \"C\" )?fn [\s\S]*?^\s*\{$", text) if "requires" not in found]


def main():
    reader = Reader()
    for call, _, text in public_calls():
        reader.follow(re.search(rf"(?m)\bfn {call}\b[\s\S]*?^\s*\{{$", text).group(0), imports(text))
    reader.read_functions(TEXTS)
    for home, (_, definitions, _) in reader.specs.items():
        if home[0] in STATED:
            for name in definitions:
                reader.reach(home, name)
    for crate, path, names in re.findall(r"`(\w+)/specs/([\w/]+)\.antt`((?::|,| and)? `[^`/]+`(?:(?:,| and) `[^`/]+`)*)?", read(f"{top}/docs/CLAIMS.md")):
        for name in re.findall(r"`([^`.]+)", names):
            if not path.startswith("Inner"):
                reader.reach((crate, path.replace("/", ".")), name)
    public = set(reader.reached)
    reader.read_functions(CALLS)
    faults = 0
    for home, (path, definitions, _) in sorted(reader.specs.items()):
        for name in definitions:
            inner = home[1].startswith("Inner")
            if inner and (home, name) in public:
                faults += 1
                print(f"{short(path)}: a public statement leads to {name}")
            elif not inner and (home, name) not in reader.reached:
                faults += 1
                print(f"{short(path)}: no public statement leads to {name}")
    print(f"public specs: {len(public)} definitions to believe, {faults} faults")
    sys.exit(1 if faults else 0)


if __name__ == "__main__":
    main()
