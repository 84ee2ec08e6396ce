"""Runs each command of docs/TOUR.md on the built program, and compares what it prints with what the page says.

A command is a line that begins with '$ ' in a block of the page, and what follows it, up to the next command or the end of the
block, is what it is to print on standard output and standard error together. The commands run in the top folder of the repository,
with `fold_program` as the built program. Not part of the gate. `bench/tour.py PROGRAM` runs that program.
"""
import os, subprocess, sys, tempfile

top = os.path.dirname(os.path.dirname(os.path.abspath(__file__)))
program = os.path.abspath(sys.argv[1]) if len(sys.argv) > 1 else os.path.join(top, "crates/fold_program/out/fold_program")

def steps(page):
    inside, step = False, None
    for line in page:
        line = line.rstrip("\n")
        if line.startswith("```"):
            inside = not inside
            if not inside and step:
                yield step
            step = None
        elif inside and line.startswith("$ "):
            if step:
                yield step
            step = (line[2:], [])
        elif inside and step:
            step[1].append(line)

with open(os.path.join(top, "docs/TOUR.md")) as page:
    all_steps = list(steps(page))
wrong = 0
with tempfile.TemporaryDirectory() as folder:
    os.symlink(program, os.path.join(folder, "fold_program"))
    path = folder + os.pathsep + os.environ["PATH"]
    for command, due in all_steps:
        run = subprocess.run(["bash", "-c", command], cwd=top, env={**os.environ, "PATH": path}, stdout=subprocess.PIPE, stderr=subprocess.STDOUT)
        printed = run.stdout.decode().splitlines()
        if printed != due:
            wrong += 1
            print("$ %s\nprints\n%s\nand not\n%s\n" % (command, "\n".join(printed), "\n".join(due)))
print("%d commands, %d of which print something else than the page says" % (len(all_steps), wrong))
sys.exit(wrong > 0 or not all_steps)
