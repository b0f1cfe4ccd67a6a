"""Chooses some hundreds of lines on which the original itself answers, and records its answers.

    oracle/record [--folder FOLDER] [--raytable PATH]

The script goes to FOLDER/stdin and the answers to FOLDER/stdout; FOLDER is crates/recorded by default. Calls that
this raytable does not know are left out. A line is taken where the original gives an answer or an error of its own: no
panic, nothing that it cannot be handed, no answer longer than the lent buffer, no departure, and no call of the
stand-ins alone.
"""

import argparse
import os
import re
import subprocess
import tempfile

import generate
from compare import HERE, ORACLE, RAYTABLE, STAND_INS, run, unknown, verdict
from departures import TABLE_WORD
from reference import KINDS, Session, table

FOLDER = os.path.join(HERE, "..", "crates", "recorded")
SEED = "recorded"
LONGEST = 260
SLOT_WORD = {"show": 1, "column_height": 1, "encode_layout": 1, "table": 2, "evaluate": 2, "encode_statement": 2,
             "read_columns": 2, "read_committed": 2, "witness_of_vector": 2, "witness_of_buffer": 2}
BUILDERS = ("new", "with_min_dense_variables")
# How many lines of a group are taken; a group is a call, a ring kind, a verdict and the kinds of records.
QUOTA = {"new": 3, "with_min_dense_variables": 3, "show": 6, "encode_layout": 8, "column_height": 6, "height": 1,
         "pass": 1, "heights": 1, "equality_prefix": 4, "table": 2, "evaluate": 6, "encode_statement": 2,
         "witness_of_buffer": 2}
HEADER = """# Answers that the original itself gave: recorded by oracle/record, and replayed here without it.
# docs/COMPARISON.md says how the original was run.
"""


def group(words, answer):
    """What a line is an example of."""
    kind = words[1] if words[1] in KINDS else ""
    records = ""
    if words[0] in TABLE_WORD:
        kinds = {entry[0] for entry in table(words[TABLE_WORD[words[0]]])}
        records = "+".join(sorted(kinds))
    return words[0], kind, verdict(answer), records if answer.startswith("ok") else ""


def telling(answer):
    """Whether an accepted read has some rows to tell of."""
    found = re.search(r"^ok (?:.* live|height)=(\d+) .*cells=", answer)
    return found is None or int(found[1]) >= 3


def candidates(path, without):
    """The lines of a script on which the original answers by itself, with the line that filled the slot."""
    with open(path, "rb") as file:
        script = file.read()
    answers, session, filled = run(ORACLE, script), Session(), {}
    for number, line in enumerate(script.decode().split("\n"), 1):
        words = line.split()
        if not words or words[0][0] == "#":
            continue
        answer, rule = answers[number], session.answer(words)
        if words[0] in BUILDERS and answer == rule == "ok":
            filled[words[1]] = line
        own = answer.startswith(("ok", "fault")) and not answer.startswith("ok longer")
        own = own and answer == rule and telling(answer)
        if own and words[0] not in STAND_INS | without and len(line) <= LONGEST:
            filling = filled.get(words[SLOT_WORD[words[0]]], "") if words[0] in SLOT_WORD else None
            if filling is None or 0 < len(filling) <= LONGEST:
                yield group(words, answer), filling, line, answer == "ok" and words[0] in BUILDERS


def chosen(without):
    """Lines by their groups, few of each, and the fillings that they need."""
    taken, lines = {}, []
    with tempfile.TemporaryDirectory() as folder:
        for path in generate.generate(folder, SEED, 0.2):
            for key, filling, line, fills in candidates(path, without):
                seen = taken.setdefault(key, set())
                refused = key[1] and key[2] != "ok"
                if len(seen) < (1 if refused else QUOTA.get(key[0], 1)) and line not in seen:
                    seen.add(line)
                    lines.append((filling, line, fills))
    return lines


def main():
    options = argparse.ArgumentParser(usage=__doc__)
    options.add_argument("--folder", default=FOLDER)
    options.add_argument("--raytable", default=RAYTABLE)
    options = options.parse_args()
    subprocess.run(["cargo", "build", "--release", "--offline", "--quiet"], cwd=HERE, check=True)

    # A slot is filled anew only where it holds another layout.
    script, held = [], {}
    for filling, line, fills in chosen(unknown(options.raytable)):
        if filling and held.get(filling.split()[1]) != filling:
            script.append(filling)
            held[filling.split()[1]] = filling
        script.append(line)
        if fills:
            held[line.split()[1]] = line
    text = HEADER + "\n".join(script) + "\n"

    answers = run(ORACLE, text.encode())
    os.makedirs(options.folder, exist_ok=True)
    with open(os.path.join(options.folder, "stdin"), "w") as file:
        file.write(text)
    with open(os.path.join(options.folder, "stdout"), "w") as file:
        file.writelines(f"{number} {answer}\n" for number, answer in sorted(answers.items()))
    print(f"recorded {len(answers)} answers of the original")


if __name__ == "__main__":
    main()
