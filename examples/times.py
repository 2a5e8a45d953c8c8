"""Measures solve on each example and writes the seconds into the pages: python3 examples/times.py [PROGRAM]"""
import os
import re
import subprocess
import sys
import time

HERE = os.path.dirname(os.path.abspath(__file__))


def seconds(program, folder, name, mode):
    words = [program, "solve", "domain.pddl", name + ".pddl", "--mode", mode]
    began = time.perf_counter()
    try:
        status = subprocess.run(words, cwd=folder, stdout=subprocess.DEVNULL, timeout=60).returncode
    except subprocess.TimeoutExpired:
        return "over 60"
    took = time.perf_counter() - began
    return "%.2f%s" % (took, " (spent)" if status == 4 else "")


def main(words):
    program = os.path.abspath(words[0]) if words else os.path.join(HERE, "..", "crates", "kplan", "out", "kplan")
    for folder in sorted(os.listdir(HERE)):
        page = os.path.join(HERE, folder, "README.md")
        if not os.path.exists(page):
            continue
        with open(page) as text:
            lines = text.read().split("\n")
        for i, line in enumerate(lines):
            row = re.match(r"(\| `(p\d)` .*`(k\d|models|auto)`, \d+ tags \|.*\|)[^|]*\|$", line)
            if row:
                lines[i] = "%s %s |" % (row[1], seconds(program, os.path.join(HERE, folder), row[2], row[3]))
        with open(page, "w") as text:
            text.write("\n".join(lines))


if __name__ == "__main__":
    main(sys.argv[1:])
