"""Runs `judge` of a program on FIGURE.fold and the plain rival on it, with FIGURE.txt for the folded places, five times each, one after the other, checks that
both answer the same, and prints the least processor time of each and their ratio.

    judge_beside.py NAME PROGRAM RIVAL FIGURE
"""
import os, subprocess, sys

name, program, rival, figure = sys.argv[1:]

def once(command, path):
    with open(path, "rb") as given:
        process = subprocess.Popen(command, stdin=given, stdout=subprocess.PIPE, stderr=subprocess.DEVNULL)
        written = process.stdout.read()
        _, status, used = os.wait4(process.pid, 0)
        process.returncode = status
        return used.ru_utime + used.ru_stime, written

runs = [(once([program, "judge"], figure + ".fold"), once([rival, figure + ".txt"], figure + ".fold")) for _ in range(5)]
assert all(one[1] == other[1] for one, other in runs), (runs[0][0][1], runs[0][1][1])
mine, theirs = (min(run[side][0] for run in runs) for side in (0, 1))
print("%s, %s: %s %.2f s, plain C++ %.2f s, ratio %.2f" % (
    name, runs[0][0][1].decode().strip(), os.path.basename(program), mine, theirs, mine / max(theirs, 0.001)))
