#!/usr/bin/env python3
"""Runs `stress` with many numbers: stress_runs.py PROGRAM FIRST PAST COUNT [BASE]

For each number from FIRST to the one before PAST the program makes COUNT words, and its summary is compared with what `cases/stress_cases.py` says of them.
What that does not know (known bits of some branches) is to end with a verdict that is `accepted`, or with a refusal. Prints how many runs there were, and each that
differs; the status is 1 where one does. The 10,000 runs of docs/PERFORMANCE.md:

    python3 examples/stress_runs.py crates/tsl_cli/out/tsl_cli 0 10000 64
"""
import os
import subprocess
import sys

sys.dont_write_bytecode = True
sys.path.insert(0, os.path.join(os.path.dirname(os.path.abspath(__file__)), "cases"))

from stress_cases import outcome


def run(program, number, count, base):
    ended = subprocess.run([program, "stress", str(number), str(count), "--base", base], stdout=subprocess.PIPE, stderr=subprocess.DEVNULL, check=False)
    return ended.returncode, ended.stdout.decode().splitlines()


def agrees(found, wanted):
    if wanted is not None:
        return found == wanted
    status, lines = found
    return status in (9, 10) or status == 0 and lines[3:4] == ["verdict accepted"]


def main(program, first, past, count, base="kset+interval"):
    different = 0
    for number in range(int(first), int(past)):
        found, wanted = run(program, number, int(count), base), outcome(number, int(count), base)
        if not agrees(found, wanted):
            different += 1
            print("%d ended with %s, wanted %s" % (number, found, wanted))
    print("%d runs, %d differ" % (int(past) - int(first), different))
    return 1 if different else 0


if __name__ == "__main__":
    sys.exit(main(*sys.argv[1:]))
