#!/usr/bin/env python3
"""Tests the commands that people type: what they say, their exit statuses, and that no text of theirs reaches a shell.

Needs the proved programs sheet, plain, compare and weights, and rt. What is said of a record is held to the programs: every
root and every record that the words offer must be accepted.
"""
import os
import re
import subprocess
import sys
import tempfile

TOP = os.path.dirname(os.path.dirname(os.path.abspath(__file__)))
sys.path.append(os.path.join(TOP, "tools"))
from crates import in_order, program as program_file  # noqa: E402
from record_text import NoRecord, bytes_of  # noqa: E402
from refusal_words import words_for  # noqa: E402

faults = []
seen = 0


def expect(holds, words):
    global seen
    seen += 1
    if not holds:
        faults.append(words)


def program(name, record):
    """What a proved program says to the bytes of a record."""
    return subprocess.run([program_file(name)], input=record, capture_output=True, check=True).stdout.decode()


def command(words, **variables):
    return subprocess.run(words, cwd=TOP, env={**os.environ, **variables}, capture_output=True, text=True)


# ---------------------------------------------------------------- records as people write them

WRITTEN = {
    "": [], " 1  7 3\t6 4\n": [1, 7, 3, 6, 4], "2 2 255 120": [2, 2, 255, 120], "1 37 6 4 2": [1, 37, 6, 4, 2],
    "1 7 3 6 4 0": [1, 7, 3, 6, 4, 0], "3 1 1 0 16 4 2": [3, 1, 1, 0, 16, 4, 2], "3 1 1 0 16 4 2 9": [3, 1, 1, 0, 16, 4, 2, 9],
    "3 257 16 4 2": [3, 1, 1, 0, 16, 4, 2], "3 65521 17 240 7": [3, 255, 241, 0, 17, 240, 7], "3 257 300 4 2": [3, 1, 1, 1, 44, 4, 2],
    "3 7 3 6 4": [3, 7, 3, 6, 4], "007 0 255": [7, 0, 255],
}
NO_RECORD = [
    "1 7 3 6 x", "1,7,3,6,4", "-1 7 3 6 4", "1 7 3 6 4.0", "1 ７ 3 6 4", "1 1_0 3 6 4", "9" * 5000, "1; touch x", "$(touch x)",
    "1 257 16 4 2", "2 300 3 1", "256", "3 257 0 16 4 2", "3 1 1 300 4 2", "3 70000 1 4 2", "3 257 70000 4 2", "3 257 16 256 2", "3 257 16 4 256",
]


def reading():
    for text, record in WRITTEN.items():
        expect(bytes_of(text) == bytes(record), f"the record {text!r} is read as {list(bytes_of(text))}")
    for text in NO_RECORD:
        try:
            expect(False, f"{text!r} is read as {list(bytes_of(text))}")
        except NoRecord as fault:
            expect(len(str(fault)) > 20, f"nothing is said of {text!r}")


# ---------------------------------------------------------------- what a refusal says

REFUSED = [
    "", "0", "4 7 3 6 3", "1", "1 7 3 6", "1 7 3 6 4 0", "2 2 255 120 1 1 1 1", "3 7 3 6 4", "3 1 1 0 16 4 2 9",
    "1 9 3 6 3", "1 2 1 2 1", "1 0 1 2 1", "1 253 3 6 3", "3 255 3 6 3 1 1", "3 259 16 4 2", "3 65535 16 4 2", "3 65520 2 254 10",
    "1 7 3 1 1", "1 7 3 6 0", "1 7 3 6 7", "2 2 0 0", "3 257 16 4 5",
    "1 7 2 6 3", "1 7 0 6 3", "1 7 9 6 3", "1 7 3 15 10", "1 251 6 50 20", "2 2 15 10", "2 0 15 10", "2 2 16 10", "2 2 254 3",
    "3 257 16 5 2", "3 257 300 4 2", "3 257 256 4 2", "3 65521 2 255 10", "3 65521 2 254 10", "1 7 3 227 100",
]
NAMES = {1: "kind", 2: "body", 3: "field", 4: "size", 5: "root", 16: "many"}


def offered(words, record):
    """The records that the words offer: with another root, or whole."""
    for roots in re.findall(r"have it: ([\d, ]+)", words):
        for root in map(int, roots.split(", ")):
            pair = divmod(root, 256)
            yield bytes([3, *record[1:3], *pair, *record[5:]]) if record[0] == 3 else bytes([*record[:-3], root, *record[-2:]])
    if words.startswith("root"):
        yield from map(bytes_of, re.findall(r"RECORD='([\d ]+)'", words))


def refusing():
    for text in REFUSED:
        record = bytes_of(text)
        for name in ("sheet", "plain", "compare", "weights"):
            answer = program(name, record)
            expect(re.fullmatch(r"refused [1-5]\n", answer), f"{name} says to {text!r}: {answer[:40]!r}")
        number = int(answer.split()[1])
        words = words_for(number, record)
        expect(words.startswith(NAMES[number] + ": ") and words.endswith("."), f"{text!r}: {words}")
        found = list(offered(words, record))
        expect((number == 5) == bool(found), f"{text!r}: no root and no record is offered")
        for other in found:
            expect(program("sheet", other).startswith("plan "), f"{text!r}: {list(other)} is offered and not accepted")
    many = bytes_of("1 7 3 6 6")
    expect(program("weights", many) == "refused 16\n" and "up to 5" in words_for(16, many), "many messages are not told of")


def statuses():
    for words, status, output, said in [
            (["tools/run_program.py", "compare", "2", "2", "255", "120"], 0, program("compare", bytes_of("2 2 255 120")), ""),
            (["tools/run_program.py", "sheet", "1", "7", "2", "6", "3"], 1, "refused 5\n", "root: 2 has order 3 modulo 7"),
            (["tools/run_program.py", "weights", "1", "7", "3", "6", "6"], 1, "refused 16\n", "many: "),
            (["tools/run_program.py", "sheet", "x"], 2, "", "is not a number"),
            (["tools/run_program.py", "record", "15", "10"], 0, program("record", bytes([15, 10])), ""),
            (["tools/run_program.py", "record", "15", "16"], 1, "refused 4\n", "size: n is from 2 to 255"),
            (["tools/run_program.py", "record", "15"], 2, "", "write n and k"),
            (["tools/run_program.py", "record", "256", "1"], 2, "", "write n and k"),
            (["tools/run_program.py", "cases", "1"], 2, "", "usage: "),
            (["tools/run_program.py"], 2, "", "usage: "),
            (["tools/prove.py"], 2, "", "usage: "),
            (["tools/prove.py", "nothing"], 2, "", "crates.txt lists no nothing")]:
        ended = command(words)
        expect((ended.returncode, ended.stdout) == (status, output) and said in ended.stderr, f"{' '.join(words)}: {ended}")


def cutting():
    """A reader that closes the output early, of a sheet that is longer than a pipe holds, is no fault."""
    words = "make sheet RECORD='2 2 255 120' | head -n 1; echo ${PIPESTATUS[0]}"
    ended = command(["bash", "-c", words])
    expect(ended.stdout == "plan 255 120 136 64\n0\n" and not ended.stderr, f"{words}: {ended}")


# ---------------------------------------------------------------- make

def asking():
    """n and k come from make's variables."""
    for n, k in ((6, 5), (15, 10), (255, 1)):
        for words, variables in [(["make", "record", f"N={n}", f"K={k}"], {}), (["make", "record"], {"N": str(n), "K": str(k)})]:
            ended = command(words, **variables)
            expect(ended.stdout == program("record", bytes([n, k])) and ended.returncode == 0, f"{' '.join(words)}: {ended}")


def making():
    """make's targets give the programs' output and nothing else, also where this Makefile's make starts make."""
    with tempfile.NamedTemporaryFile("w", suffix=".mk") as outer:
        outer.write("include Makefile\nouter:\n\t@make $(TARGET)\n")
        outer.flush()
        for target, text in [("sheet", "1 37 6 4 2"), ("plain", "1 7 3 6 4"), ("compare", "3 257 16 4 2"), ("weights", "1 7 3 6 3"), ("sheet", "")]:
            want = program(target, bytes_of(text))
            given = f"RECORD={text}"
            for words, variables in [(["make", target, given], {}), (["make", target], {"RECORD": text}), (["make", "-f", outer.name, "outer", f"TARGET={target}", given], {})]:
                ended = command(words, **variables)
                expect(ended.stdout == want and (ended.returncode == 0) == (not want.startswith("refused")), f"{' '.join(words)}: {ended}")


def hostile(file):
    """Texts that would make the file if a shell or make read them."""
    yield f"1; touch {file}"
    yield f"1 7 3 6 4\n\ttouch {file}"
    yield f"1 7 3 6 4' ; touch {file} ; '"
    yield f"1 7 3 6 4\" ; touch {file} ; \""
    for form in ("$(shell touch {})", "$(touch {})", "$$(touch {})", "`touch {}`", "${{shell touch {}}}", "| touch {}", "&& touch {}", "$(eval x:=$(shell touch {}))"):
        yield form.format(file)


def keeping_out():
    with tempfile.TemporaryDirectory() as folder:
        file = os.path.join(folder, "made")
        for text in hostile(file):
            for given, variables in [([f"RECORD={text}"], {}), ([], {"RECORD": text})]:
                for target in ("sheet", "plain", "compare", "weights"):
                    ended = command(["make", target, *given], **variables)
                    expect(ended.returncode and not ended.stdout and "is not a number" in ended.stderr, f"make {target} RECORD={text!r}: {ended}")
                    expect(not os.path.exists(file), f"make {target} ran the text {text!r}")
            for given in (f"N={text}", f"K={text}"):
                ended = command(["make", "record", given])
                expect(ended.returncode and not ended.stdout and "is not a number" in ended.stderr, f"make record {given!r}: {ended}")
                expect(not os.path.exists(file), f"make record ran the text {text!r}")
            command(["make", "help", f"LIBRARY={text}"])
            expect(not os.path.exists(file), f"make ran the text {text!r} of LIBRARY")


# ---------------------------------------------------------------- waiting

FAKE = """#!/bin/sh
if [ "$1" = version ]; then echo "kit of test $$"; exit; fi
echo "$PWD $@" >"$0.words"
echo 'only=0 proved=0'
echo 'rt: chose --jobs 2 for lists'
echo 'fn lists::f: proved'
echo 'logic=proved functions=1 sum=0'
sleep 1
echo 'rt: chose --jobs 2 for field'
[ -e "$0.fails" ] || { echo 'logic=proved functions=2 sum=0'; exit 0; }
echo 'field: what is wrong'
echo 'logic=not-proved'
exit 3
"""


def waiting():
    """A line for each crate that was proved, counted; where one is not proved all that rt said, and its status."""
    with tempfile.TemporaryDirectory() as folder:
        rt = os.path.join(folder, "rt")
        with open(rt, "w", encoding="utf-8") as file:
            file.write(FAKE)
        os.chmod(rt, 0o755)
        path, order = {"PATH": folder + os.pathsep + os.environ["PATH"]}, in_order("field")
        ended = command(["tools/prove.py", "field"], **path)
        expect(open(rt + ".words", encoding="utf-8").read() == f"{TOP}/crates/field lib\n", "prove.py calls rt with other words, or elsewhere")
        said = [rf"{order.index(name) + 1} of {len(order)} proved: {name} \([0-9]+ s\)" for name in ("lists", "field")]
        lines = re.findall(r"\d+ of \d+ proved: .*", ended.stderr)
        expect(ended.returncode == 0 and not ended.stdout, f"prove.py: {ended}")
        expect(len(lines) == 2 and all(map(re.fullmatch, said, lines)), f"prove.py: {ended}")
        open(rt + ".fails", "w", encoding="utf-8").close()
        ended = command(["tools/prove.py", "field"], **path)
        expect(ended.returncode == 3 and "field: what is wrong" in ended.stderr and ended.stderr.count("proved: ") == 1, f"prove.py: {ended}")
        ended = command([sys.executable, "tools/prove.py", "field"], PATH=os.path.join(folder, "nowhere"))
        expect(ended.returncode == 2 and "rt is not on the path" in ended.stderr, f"prove.py without rt: {ended}")


def main():
    for part in (reading, refusing, statuses, cutting, asking, making, keeping_out, waiting):
        part()
    for fault in faults:
        print(fault)
    print(f"commands: {seen} tests, {len(faults)} faults")
    sys.exit(1 if faults else 0)


if __name__ == "__main__":
    main()
