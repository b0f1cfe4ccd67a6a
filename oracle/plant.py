"""Plants each change of plants.txt in a copy of the original's files, and counts the answers that turn.

    oracle/plant [--seed SEED] [--size SIZE]

A change that turns no answer shows a hole in the scripts of the comparison. A line of plants.txt is the file, the
text and what it becomes, with tabs between them.
"""

import argparse
import glob
import os
import shutil
import subprocess
import sys

import generate
from compare import HERE, ORACLE

COPY = os.path.join(HERE, "target", "planted")
SCRIPTS = os.path.join(HERE, "target", "scripts")


def answers(program, path):
    with open(path, "rb") as file:
        return subprocess.run([program], stdin=file, capture_output=True, check=True).stdout.splitlines()


def turned(base):
    """How many answers of the planted copy are others."""
    program = os.path.join(COPY, "target", "release", "oracle")
    return sum(ours != theirs for path, expected in base.items()
               for ours, theirs in zip(expected, answers(program, path), strict=True))


def build(folder):
    subprocess.run(["cargo", "build", "--release", "--offline", "--quiet"], cwd=folder, check=True)


def main():
    options = argparse.ArgumentParser(usage=__doc__)
    options.add_argument("--seed", default="1")
    options.add_argument("--size", type=float, default=1)
    options = options.parse_args()

    build(HERE)
    generate.generate(SCRIPTS, options.seed, options.size)
    base = {path: answers(ORACLE, path) for path in sorted(glob.glob(os.path.join(SCRIPTS, "*.script")))}
    for folder in ("driver", "jagged", "original", "stand-ins"):
        shutil.copytree(os.path.join(HERE, folder), os.path.join(COPY, folder), dirs_exist_ok=True)
    for file in ("Cargo.toml", "Cargo.lock"):
        shutil.copy(os.path.join(HERE, file), COPY)

    unseen = 0
    with open(os.path.join(HERE, "plants.txt")) as file:
        plants = [line.rstrip("\n").split("\t") for line in file]
    for name, old, new in plants:
        path = os.path.join(COPY, "original", "jagged", name)
        with open(os.path.join(HERE, "original", "jagged", name)) as file:
            text = file.read()
        if old not in text:
            sys.exit(f"{name} does not have: {old}")
        with open(path, "w") as file:
            file.write(text.replace(old, new, 1))
        build(COPY)
        count = turned(base)
        unseen += count == 0
        print(f"{count:8} {name}: {old.strip()} -> {new.strip()}", flush=True)
        with open(path, "w") as file:
            file.write(text)
    print(f"{len(plants)} changes planted, {unseen} turned no answer")
    sys.exit(1 if unseen else 0)


if __name__ == "__main__":
    main()
