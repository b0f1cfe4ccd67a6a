"""Holds the library's answers against the original's: the body of the command `compare`.

    oracle/compare [--seed SEED] [--size SIZE] [--raytable PATH] [--show N] [--quick]

SIZE multiplies the number of random lines; N differences are shown in full, ten by default. With --quick the third
reading is asked only where the two answers differ.
"""

import argparse
import hashlib
import os
import subprocess
import sys
from collections import Counter

import departures
import generate
import reference

HERE = os.path.dirname(os.path.abspath(__file__))
ORACLE = os.path.join(HERE, "target", "release", "oracle")
RAYTABLE = os.path.join(HERE, "..", "crates", "rayscript", "out", "rayscript")
SCRIPTS = os.path.join(HERE, "target", "scripts")
ORIGINAL = os.path.join(HERE, "original")
DIFFERENCES = os.path.join(HERE, "..", "docs", "DIFFERENCES.md")
# Calls of ring kinds: there both sides are ours, since the original's field types are in other crates.
STAND_INS = {"byte_length", "zero", "one", "encode", "read", "plus", "minus", "times", "from_bool", "equal"}
# One good line for each call, to see whether a program knows it.
PROBES = ["new p 0 0", "with_min_dense_variables p 0 0 0", "show p", "column_height p 0", "encode_layout p 40",
          "byte_length word", "encode word 1 8", "read word -", "zero word", "one word", "plus word 1 1",
          "minus word 1 1", "times word 1 1", "from_bool word true", "equal word 1 1", "equality_prefix word - 9",
          "table word p - - 9", "evaluate word p - - -", "check_order - 0", "height dense:0:0 1 0",
          "pass dense:0:0 1 0", "heights - 0 -", "piece_height dense:0:0 0", "read_columns word p dense:0:0 1 - - 9",
          "read_committed word p 1", "witness_of_vector word p 1", "witness_of_buffer word p 1",
          "write_piece word dense:0:0 0 - - -", "encode_statement word p - - 1 48"]


def check_sources():
    """The original's files are those that were copied, and every rule has a departure of its name on the page."""
    with open(os.path.join(ORIGINAL, "SHA256SUMS")) as sums:
        for line in sums:
            digest, name = line.split()
            with open(os.path.join(ORIGINAL, name), "rb") as file:
                if hashlib.sha256(file.read()).hexdigest() != digest:
                    sys.exit(f"original/{name} is not the file that was copied")
    with open(DIFFERENCES) as page:
        headings = {line[4:].strip() for line in page if line.startswith("### ")}
    unlisted = departures.RULES.keys() - headings
    if unlisted:
        sys.exit(f"docs/DIFFERENCES.md does not list: {', '.join(sorted(unlisted))}")


def run(program, script):
    """What a program prints for a script, by the number of the line."""
    done = subprocess.run([program], input=script, capture_output=True, check=False)
    if done.returncode:
        sys.exit(f"{program} ended with {done.returncode}: {done.stderr.decode(errors='replace')[:500]}")
    answers = {}
    for line in done.stdout.decode().splitlines():
        number, _, answer = line.partition(" ")
        answers[int(number)] = answer
    return answers


def unknown(program):
    """The calls that a program does not know."""
    answers = run(program, "\n".join(PROBES).encode())
    return {probe.split()[0] for number, probe in enumerate(PROBES, 1) if answers[number] == "no call"}


def verdict(answer):
    """What kind of answer it is: ok, a numbered fault, no call, panic, inexpressible or absent."""
    words = answer.split(" ", 2)
    return " ".join(words[:2]) if words[0] in ("fault", "no") else words[0]


class Tally:
    def __init__(self):
        self.calls, self.kinds, self.verdicts, self.departures = Counter(), Counter(), Counter(), Counter()
        self.compared = self.same = self.differ = self.original = self.stand_ins = self.third = self.left_out = 0
        self.shown = []
        self.examples = {}


def slot_of(session, words):
    """The layout that a line's call looks at, by the third reading."""
    place = {"show": 1, "column_height": 1, "encode_layout": 1, "table": 2, "evaluate": 2, "encode_statement": 2,
             "read_columns": 2, "read_committed": 2, "witness_of_vector": 2, "witness_of_buffer": 2}.get(words[0])
    if place is None or place >= len(words):
        return None
    return session.slots.get(words[place]) or reference.Layout()


def judge(tally, words, layout, ours, theirs, rule, where):
    kind = words[1] if len(words) > 1 and words[1] in reference.KINDS else "no kind"
    tally.compared += 1
    tally.calls[words[0] if ours != "no call" else "no call"] += 1
    tally.kinds[kind] += 1
    tally.verdicts[verdict(ours)] += 1
    if ours != "no call":
        tally.stand_ins += words[0] in STAND_INS
        tally.original += words[0] not in STAND_INS and verdict(theirs) not in ("inexpressible", "absent")
    if rule is not None and rule != ours:
        tally.third += 1
        tally.shown.append((where, words, "ours " + ours, "rule " + rule))
    if ours == theirs:
        tally.same += 1
        return
    case = departures.Case(words, layout, ours, theirs, rule)
    name = "no such call of the original" if theirs == "absent" and ours == rule else departures.departure(case)
    if name is None:
        tally.differ += 1
        tally.shown.append((where, words, "ours " + ours, "its " + theirs))
        return
    tally.departures[name] += 1
    text = " ".join(words)
    if name not in tally.examples or len(text) < len(tally.examples[name][0]):
        tally.examples[name] = (text, ours, theirs)


def compare(tally, raytable, path, absent, quick):
    with open(path, "rb") as file:
        script = file.read()
    ours, theirs = run(raytable, script), run(ORACLE, script)
    if ours.keys() != theirs.keys():
        sys.exit(f"{path}: the programs answer different lines")
    session = reference.Session()
    for number, line in enumerate(script.decode().split("\n"), 1):
        words = [word for word in line.replace("\t", " ").replace("\r", " ").split(" ") if word]
        if not words or words[0][0] == "#":
            continue
        layout = slot_of(session, words)
        needed = not quick or ours[number] != theirs[number] or words[0] in departures.BUILDERS
        rule = session.answer(words) if needed else None
        if words[0] in absent:
            tally.left_out += 1
            continue
        where = f"{os.path.basename(path)}:{number}"
        judge(tally, words, layout, ours[number], theirs[number], rule, where)


def counted(title, counter):
    print(f"{title}:")
    for name, count in sorted(counter.items(), key=lambda item: (-item[1], item[0])):
        print(f"  {count:8} {name}")


def main():
    options = argparse.ArgumentParser(usage=__doc__)
    options.add_argument("--seed", default="1")
    options.add_argument("--size", type=float, default=1)
    options.add_argument("--raytable", default=RAYTABLE)
    options.add_argument("--show", type=int, default=10)
    options.add_argument("--quick", action="store_true")
    options = options.parse_args()

    check_sources()
    subprocess.run(["cargo", "build", "--release", "--offline", "--quiet"], cwd=HERE, check=True)
    if not os.path.exists(options.raytable):
        sys.exit(f"{options.raytable} is not there: `rt run` in crates/rayscript builds it")
    absent = unknown(options.raytable)

    tally = Tally()
    for path in generate.generate(SCRIPTS, options.seed, options.size):
        compare(tally, options.raytable, path, absent, options.quick)

    for where, words, left, right in tally.shown[:options.show]:
        print(f"{where}: {' '.join(words)[:600]}\n  {left[:300]}\n  {right[:300]}")
    counted("answers by call", tally.calls)
    counted("answers by kind", tally.kinds)
    counted("answers by verdict", tally.verdicts)
    counted("listed departures", tally.departures)
    print("the shortest line of each departure:")
    for name, (text, ours, theirs) in sorted(tally.examples.items()):
        print(f"  {name}\n    {text[:200]}\n    ours {ours[:120]}\n    its  {theirs[:120]}")
    if absent:
        print(f"left out, since this raytable does not know them: {tally.left_out} lines of {', '.join(sorted(absent))}")
    print(f"the original itself answered {tally.original} of these lines; {tally.stand_ins} are answers of the "
          f"stand-ins alone; {tally.third} are not those of the third reading")
    print(f"compared {tally.compared} answers: {tally.same} the same, {sum(tally.departures.values())} listed "
          f"departures, {tally.differ} differ")
    sys.exit(1 if tally.differ or tally.third else 0)


if __name__ == "__main__":
    main()
