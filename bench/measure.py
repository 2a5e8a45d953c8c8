"""What the scripts of this folder share: one run of kplan, timed, and tables of several runs."""

import argparse
import os
import subprocess
import sys
import tempfile
import time
from importlib.machinery import SourceFileLoader
from importlib.util import module_from_spec, spec_from_loader
from itertools import islice
from pathlib import Path

PROGRAM = Path(__file__).resolve().parent.parent / "crates" / "kplan" / "out" / "kplan"


def neighbour(name):
    """Another script of this folder."""
    loader = SourceFileLoader(name, str(Path(__file__).resolve().parent / name))
    module = module_from_spec(spec_from_loader(name, loader))
    loader.exec_module(module)
    return module


def built_program(about):
    """The program that the command line names, or the one that this repository builds."""
    parser = argparse.ArgumentParser(description=about, formatter_class=argparse.RawDescriptionHelpFormatter)
    parser.add_argument("--program", type=Path, default=PROGRAM, help="the built program (default: %(default)s)")
    program = parser.parse_args().program.resolve()
    if not program.is_file():
        sys.exit(f"there is no program {program}: build it by rt run in crates/kplan")
    return program


def timed(program, files, words):
    """Seconds, usage, exit status and first printed lines of one run with these words on files, given by their parts.

    The time is that of the whole run, from all files to all files. The usage is what the system tells of the program:
    its processor time, and as its peak the most memory that it held at once, which is at least what this script holds
    when it starts the program.
    """
    with tempfile.TemporaryDirectory() as name:
        folder = Path(name)
        for file, parts in files.items():
            with open(folder / file, "w", encoding="ascii") as out:
                out.writelines(parts)
        with open(folder / "out.txt", "w", encoding="ascii") as out:
            begun = time.perf_counter()
            child = subprocess.Popen([str(program), *words], cwd=folder, stdout=out, stderr=subprocess.STDOUT)
            _, status, usage = os.wait4(child.pid, 0)
            seconds = time.perf_counter() - begun
        child.returncode = os.waitstatus_to_exitcode(status)
        with open(folder / "out.txt", encoding="ascii", errors="replace") as out:
            printed = [line.rstrip("\n") for line in islice(out, 10)]
    return seconds, usage, child.returncode, printed


def measure(program, domain, problem, options=()):
    """Seconds, peak in bytes, exit status and first printed lines of one translation of two files, given by their parts."""
    mode = () if "--mode" in options else ("--mode", "k0")
    words = ["translate", "d.pddl", "p.pddl", "od.pddl", "op.pddl", *mode, *options]
    seconds, usage, status, printed = timed(program, {"d.pddl": domain, "p.pddl": problem}, words)
    return seconds, usage.ru_maxrss * 1_024, status, printed


def print_table(about, problems):
    """Measures problems, each with a title, the parts of its files and options, and prints a line for each."""
    program = built_program(about)
    print(f"{'problem':40} {'seconds':>8} {'MB':>7} {'status':>6}  printed")
    for title, (domain, problem), options in problems:
        seconds, peak, status, printed = measure(program, domain, problem, options)
        print(f"{title:40} {seconds:8.2f} {peak / 1e6:7.0f} {status:6}  {', '.join(printed[:2])}", flush=True)


def print_commands(about, runs):
    """Measures runs of commands, each with a title, files given by their parts, and words, and prints a line for each."""
    program = built_program(about)
    print(f"{'command':10} {'problem':34} {'seconds':>8} {'MB':>7} {'status':>6}  printed")
    for title, files, words in runs:
        seconds, usage, status, printed = timed(program, files, words)
        first = " ".join(printed)
        print(f"{words[0]:10} {title:34} {seconds:8.2f} {usage.ru_maxrss * 1_024 / 1e6:7.0f} {status:6}  {first[:40]}", flush=True)
