"""Prints, for the inputs of departures.script, what the library, the checked original and the optimised original answer.

    oracle/show [--raytable PATH]
"""

import argparse
import os
import subprocess

from compare import HERE, ORACLE, RAYTABLE, run

UNCHECKED = os.path.join(HERE, "target", "unchecked", "oracle")


def main():
    options = argparse.ArgumentParser(usage=__doc__)
    options.add_argument("--raytable", default=RAYTABLE)
    options = options.parse_args()
    for profile in ("release", "unchecked"):
        subprocess.run(["cargo", "build", "--profile", profile, "--offline", "--quiet"], cwd=HERE, check=True)
    with open(os.path.join(HERE, "departures.script"), "rb") as file:
        script = file.read()
    programs = {"library": options.raytable, "original, checked": ORACLE, "original, optimised": UNCHECKED}
    answers = {name: run(program, script) for name, program in programs.items()}
    for number, line in enumerate(script.decode().splitlines(), 1):
        print(line)
        for name, found in answers.items():
            if number in found:
                print(f"    {name:20} {found[number][:160]}")


if __name__ == "__main__":
    main()
