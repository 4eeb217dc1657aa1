#!/usr/bin/env python3
"""The plan for N huts that can all call each other, written independently of the proved program.

  plan_reference.py N          prints what `plan N` must print
  plan_reference.py --compare PLAN
                               runs the program PLAN for every N from 1 to 1,024 and compares, byte for byte;
                               plays each plan to see that everybody knows everything; and tries the refusals
"""
import subprocess
import sys


def calls(n):
    if n < 4:
        return {1: [], 2: [(0, 1)], 3: [(0, 1), (0, 2), (0, 1)]}[n]
    hub = [(0, hut) for hut in range(4, n)]
    return hub + [(0, 1), (2, 3), (0, 2), (1, 3)] + hub


def text(n):
    plan = calls(n)
    lines = [f"{a} {e}" for a, e in plan]
    lines.append("square 0 1 2 3" if n >= 4 else "no square")
    lines.append(f"{len(plan)} calls")
    return "".join(line + "\n" for line in lines)


def does_it(n):
    known = [1 << hut for hut in range(n)]
    for a, e in calls(n):
        known[a] = known[e] = known[a] | known[e]
    return all(k == (1 << n) - 1 for k in known)


def compare(program):
    wrong = 0
    for n in range(1, 1025):
        run = subprocess.run([program, str(n)], capture_output=True, text=True)
        if run.returncode != 0 or run.stderr or run.stdout != text(n):
            wrong += 1
            print(f"{n}: differs")
        if not does_it(n) or (n >= 4 and len(calls(n)) != 2 * n - 4):
            wrong += 1
            print(f"{n}: the plan does not do it")
    cause = "refused 2: no huts, more than 1024, or a hut that isn't there"
    for word in ["0", "1025", "65535", "65536", "99999999999999999999999"]:
        run = subprocess.run([program, word], capture_output=True, text=True)
        if run.returncode != 1 or run.stdout or run.stderr != f"plan: {word}: {cause}\n":
            wrong += 1
            print(f"{word}: not refused as it should be: {run.stderr!r}")
    for words in [[], ["ten"], ["-4"], ["+4"], ["4", "5"], ["--huts"], [""], ["4 "], ["--", "-4"]]:
        run = subprocess.run([program] + words, capture_output=True, text=True)
        if run.returncode != 1 or run.stdout or "usage: plan HUTS" not in run.stderr:
            wrong += 1
            print(f"{words}: no usage line: {run.stderr!r}")
    for words, begins in [(["--help"], "usage: plan HUTS"), (["--version"], "plan "), (["--", "4"], "0 1\n"), (["7", "--help"], "usage: ")]:
        run = subprocess.run([program] + words, capture_output=True, text=True)
        if run.returncode != 0 or run.stderr or not run.stdout.startswith(begins):
            wrong += 1
            print(f"{words}: {run.stdout[:40]!r} {run.stderr!r}")
    print(f"1024 plans compared, {wrong} differ")
    return wrong == 0


if sys.argv[1:2] == ["--compare"]:
    sys.exit(0 if compare(sys.argv[2]) else 1)
print(text(int(sys.argv[1])), end="")
