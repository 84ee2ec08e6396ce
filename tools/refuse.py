#!/usr/bin/env python3
"""Runs the built program with one request after the other refused, and looks at how each run ends.

    tools/refuse.py [PROGRAM [KIND]]

For each command and each kind of request, memory, reads of standard input, writes to standard output
and to standard error, the first run has its first request refused, the next its second, and so on,
until a run meets no refusal. Memory is refused once, and from that request on. A run in want of
memory ends with the status 10 and no text, or as if nothing had been refused, at most without its
line to standard error. One that reads or writes in vain ends with the status 7 and no text, or with
8 and a beginning of the text. Want of standard error changes nothing but the line. Not part of the
gate. refuse.c, built by cc, stands in front of the C library.
"""
import os, subprocess, sys, tempfile

here = os.path.dirname(os.path.abspath(__file__))
program = sys.argv[1] if len(sys.argv) > 1 else os.path.join(here, "../crates/fold_program/out/fold_program")
work = tempfile.mkdtemp()
shim = os.path.join(work, "refuse.so")
subprocess.run(["cc", "-O2", "-shared", "-fPIC", "-o", shim, os.path.join(here, "refuse.c")], check=True)

DIAGONALS = "1 0 0 1 0\n1 1 0 1 1\n1 1 1 0 1\n1 0 1 0 0\n2 0 0 1 1\n3 0 1 1 0\n"
CROSS = (
    '{"vertices_coords":[[0,0],[2,0],[2,2],[0,2],[1,1]],'
    '"edges_vertices":[[0,1],[1,2],[2,3],[3,0],[4,0],[4,1],[4,2],[4,3]],'
    '"edges_assignment":["B","B","B","B","V","V","V","M"],'
    '"faces_vertices":[[0,1,4],[1,2,4],[2,3,4],[3,0,4]],'
    '"faceOrders":[[1,0,1],[2,0,1],[3,0,1],[1,2,1],[1,3,-1],[3,2,-1]]}'
)
TEE = (
    '{"vertices_coords":[[0,0],[1,0],[2,0],[2,1],[2,2],[0,2],[0,1],[1,1]],'
    '"edges_vertices":[[0,1],[1,2],[2,3],[3,4],[4,5],[5,6],[6,0],[7,6],[7,3],[7,1]],'
    '"edges_assignment":["B","B","B","B","B","B","B","V","V","V"],'
    '"faces_vertices":[[6,7,3,4,5],[0,1,7,6],[1,2,3,7]]}'
)
with open(os.path.join(here, "../crates/fold_program/stdin"), encoding="utf-8") as file:
    FISH = file.read()
RUNS = [
    ("show", ["show"], FISH),
    ("show of lines", ["show", "--from=cp"], DIAGONALS),
    ("convert to lines", ["convert", "--to=cp"], CROSS),
    ("convert from lines", ["convert", "--from=cp"], DIAGONALS),
    ("repair of lines", ["repair", "--from=cp"], DIAGONALS),
    ("repair of a frame", ["repair"], FISH),
    ("fold of a fish base", ["fold"], FISH),
    ("fold that does not close", ["fold"], TEE),
    ("judge of four creases", ["judge"], CROSS),
    ("judge of a fish base", ["judge"], FISH),
    ("no text", ["show"], "[1,"),
    ("too wide", ["repair", "--from=cp"], "2 0 0 4194305 0"),
    ("refused words", ["fly"], ""),
]
DRILL = ("drill", ["drill", "--count=3"], "")
MEMORY = (10, b"", b"fold_program: memory\n")


def run(words, given, refuse="", most=""):
    """What came of a run, and whether a request was refused in it."""
    met, told = os.pipe()
    env = {"LD_PRELOAD": shim, "REFUSE": refuse, "MOST": most, "MET": str(told)}
    done = subprocess.run([program, *words], input=given.encode(), capture_output=True, env=env, pass_fds=[told])
    os.close(told)
    refused = os.read(met, 1) != b""
    os.close(met)
    return (done.returncode, done.stdout, done.stderr), refused


def counted(words, given, kind, most, is_right):
    """How many runs met a refusal, how many of them came to an end of their own, and the wrong ones."""
    calm, _ = run(words, given)
    ends = wrong = number = 0
    while True:
        number += 1
        told, refused = run(words, given, kind + str(number), most)
        if not refused:
            if told != calm:
                wrong += 1
                print("%s %s: without a refusal %r" % (words, kind, told))
            return number - 1, ends, wrong
        ends += told != calm
        if not is_right(told, calm, number):
            wrong += 1
            print("%s %s%d: %r" % (words, kind, number, told))


def wants_memory(told, calm, _):
    """A line for which there's no memory is left out."""
    return told in (calm, calm[:2] + (b"",), MEMORY, MEMORY[:2] + (b"",))


def fails_to_read(told, calm, _):
    return told == (7, b"", b"fold_program: read failed\n")


def fails_to_write(told, calm, number):
    return told == (8, calm[1][: 16 * (number - 1)], b"fold_program: write failed\n")


def is_unheard(told, calm, number):
    return told == (*calm[:2], calm[2][: 16 * (number - 1)])


KINDS = [
    ("memory", "m", "", wants_memory),
    ("memory from there on", "m+", "", wants_memory),
    ("reads of 16 bytes", "r", "16", fails_to_read),
    ("writes of 16 bytes", "w", "16", fails_to_write),
    ("notes of 16 bytes", "n", "16", is_unheard),
]
if len(sys.argv) > 2:
    KINDS = [kind for kind in KINDS if sys.argv[2] in kind[0]]
if run(*DRILL[1:])[0][0] == 0:
    RUNS.append(DRILL)
failed = 0
print("| run | " + " | ".join(name for name, *_ in KINDS) + " |")
print("|---" * (1 + len(KINDS)) + "|")
for name, words, given in RUNS:
    cells = []
    for _, kind, most, is_right in KINDS:
        met, ends, wrong = counted(words, given, kind, most, is_right)
        failed += wrong
        cells.append("%d, %d" % (met, ends) if kind[0] == "m" else str(met))
    print("| %s | %s |" % (name, " | ".join(cells)), flush=True)
print("%d runs ended wrongly" % failed)
sys.exit(failed != 0)
