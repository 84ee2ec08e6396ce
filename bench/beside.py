"""Runs two programs on one input, five times each, one after the other, so that what else the machine does falls on both.
Checks that both write the same, and prints the least processor time of each, their ratio, and the memory of each. It keeps
nothing that they write, as a child's memory is counted from that of the process which starts it.

    beside.py NAME INPUT PROGRAM WORD.. -- RIVAL WORD..
"""
import hashlib, os, subprocess, sys

name, path = sys.argv[1:3]
cut = sys.argv.index("--")
mine, theirs = sys.argv[3:cut], sys.argv[cut + 1:]

def once(command):
    with open(path, "rb") as given:
        process = subprocess.Popen(command, stdin=given, stdout=subprocess.PIPE)
        written = hashlib.sha256()
        while piece := process.stdout.read(65536):
            written.update(piece)
        _, status, used = os.wait4(process.pid, 0)
        process.returncode = status
        assert status == 0, "%s failed" % command[0]
        return used.ru_utime + used.ru_stime, used.ru_maxrss // 1024, written.digest()

runs = [(once(mine), once(theirs)) for _ in range(5)]
assert all(one[2] == other[2] for one, other in runs), "the two programs print different texts"
a, b = (min(run[side][0] for run in runs) for side in (0, 1))
print("%s, %d bytes: %s %.2f s, %s %.2f s, ratio %.2f; memory %d and %d MiB" % (
    name, os.path.getsize(path), os.path.basename(mine[0]), a, os.path.basename(theirs[0]), b, a / b,
    max(run[0][1] for run in runs), max(run[1][1] for run in runs)))
