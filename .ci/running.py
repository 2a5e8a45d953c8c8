"""The built program run in a folder of its own, and what is wanted of it: for `.ci/edge` and what it tries."""
import os
import resource
import shutil
import subprocess
import sys
import tempfile

TOP = os.path.dirname(os.path.dirname(os.path.abspath(__file__)))
WORDS = [word for word in sys.argv[1:] if word != "--told"]
PROGRAM = os.path.abspath(WORDS[0]) if WORDS else os.path.join(TOP, "crates/kplan/out/kplan")
WORK = tempfile.mkdtemp()
OLD = b"old\n"
NONE = OLD, OLD
MOST = 16_777_216

# ---- the example, and tasks of many names

DOMAIN = b"(define (domain d) (:predicates (p) (q))", b"(:action a :precondition (p) :effect (and (q) (not (p)))))"
PROBLEM = b"(define (problem e) (:domain d) (:init (p))", b"(:goal (q)))"


# of three cells one is full, and nobody knows which; two steps to the left and a merge make the first one known
CELLS = {"d": b"(define (domain cells) (:predicates (x1) (x2) (x3)) (:action left :effect (and (when (x3) (and (x2) (not (x3)))) (when (x2) (and (x1) (not (x2)))))))",
         "p": b"(define (problem c) (:domain cells) (:init (oneof (x1) (x2) (x3))) (:goal (x1)))"}
# g comes true, with an effect for each way in which p and r may be
WAYS = {"d": b"(define (domain e) (:predicates (p) (r) (g)) (:action a :effect (and (when (and (p) (r)) (g)) (when (and (p) (not (r))) (g))"
             b" (when (and (not (p)) (r)) (g)) (when (and (not (p)) (not (r))) (g)))))",
        "p": b"(define (problem e) (:domain e) (:init (unknown (p)) (unknown (r))) (:goal (g)))"}


def padded(parts, size):
    """A file of that size with the parts at its ends, so that a front of it isn't the whole."""
    return parts[0] + b" " * (size - len(parts[0]) - len(parts[1])) + parts[1]


def text_of(*lines):
    return "".join(f"{line}\n" for line in lines).encode()


def written(atoms, actions, start, goal):
    """The two files of a translation: of each action its name, its precondition and its effects."""
    facts = [f"(k{sign}_-{atom}_-0)" for atom in atoms for sign in "pn"]
    domain = ["(define (domain kplan)", "(:requirements :strips :negative-preconditions :conditional-effects)", "(:predicates", *facts, ")"]
    for name, pre, effects in actions:
        domain += [f"(:action do_-{name}", ":parameters ()", f":precondition (and {pre})", ":effect (and", *effects, ")", ")"]
    problem = ["(define (problem kplan)", "(:domain kplan)", "(:init", *start, ")", "(:goal (and", *goal, "))", ")"]
    return text_of(*domain, ")"), text_of(*problem)


def report(atoms, actions):
    return text_of(f"atoms {atoms}", f"actions {actions}", "tags 1", "merges 0", f"facts {2 * atoms}", "complete")


EFFECTS = ["(kp_-q_-0)", "(not (kn_-q_-0))", "(kn_-p_-0)", "(not (kp_-p_-0))"]
WRITTEN = written(["p", "q"], [("a", "(kp_-p_-0)", EFFECTS)], ["(kp_-p_-0)", "(kn_-q_-0)"], ["(kp_-q_-0)"])
REPORT = report(2, 1)


def many_objects(count, length):
    """A task with that many objects, whose names have that length: its two files, and what is written for it."""
    names = ["o" + str(number).zfill(length - 1) for number in range(count)]
    domain = "(define (domain d) (:predicates (p ?x)) (:action a :parameters (?x) :precondition (not (p ?x)) :effect (p ?x)))"
    goal = " ".join(f"(p {name})" for name in names)
    problem = f"(define (problem e) (:objects {' '.join(names)}) (:init) (:goal (and {goal})))"
    known = [(f"(kp_-p_-{name}_-0)", f"(kn_-p_-{name}_-0)") for name in names]
    actions = [(f"a_-{name}", no, [yes, f"(not {no})"]) for name, (yes, no) in zip(names, known)]
    both = written([f"p_-{name}" for name in names], actions, [no for _, no in known], [yes for yes, _ in known])
    return domain.encode(), problem.encode(), both


# ---- one run

failures = []
# How often the program was run for what.
runs = {}
doing = ["files, pipes, limits, words, statuses"]


class Ran:
    """A run in a folder of its own: its status, what it printed, and what the output files hold."""

    def __init__(self, words, files=(), piped=None, out=None, env=None, memory=None):
        runs[doing[0]] = runs.get(doing[0], 0) + 1
        folder = tempfile.mkdtemp(dir=WORK)
        for name, content in {"d": b"".join(DOMAIN), "p": b"".join(PROBLEM), "od": OLD, "op": OLD, **dict(files)}.items():
            with open(os.path.join(folder, name), "wb") as file:
                file.write(content)
        limit = memory and (lambda: resource.setrlimit(resource.RLIMIT_AS, (memory, memory)))
        fed = {"stdin": subprocess.DEVNULL} if piped is None else {"input": piped}
        try:
            ended = subprocess.run([PROGRAM, *words], cwd=folder, env=env or {}, preexec_fn=limit, timeout=60,
                                   stdout=out or subprocess.PIPE, stderr=subprocess.PIPE, **fed)
            self.status, self.text, self.errors = ended.returncode, ended.stdout, ended.stderr
        except subprocess.TimeoutExpired:
            self.status, self.text, self.errors = "none within 60 seconds", b"", b""
        self.files = tuple(content_of(os.path.join(folder, name)) for name in ("od", "op"))
        self.others = sorted(set(os.listdir(folder)) - {"d", "p", "od", "op"} - set(dict(files)))
        shutil.rmtree(folder)


def content_of(path):
    if not os.path.isfile(path):
        return None
    with open(path, "rb") as file:
        return file.read()


def short(content):
    return content if content is None or len(content) <= 80 else content[:60] + b".. (%d bytes)" % len(content)


def wants(name, ran, status, text=b"", files=(OLD, OLD)):
    """The run ended so: its status, its text, its files, and nothing else anywhere."""
    for what, got, wanted in (("status", ran.status, status), ("text", ran.text, text), ("od", ran.files[0], files[0]), ("op", ran.files[1], files[1]),
                              ("standard error", ran.errors, b""), ("other files", ran.others, [])):
        if what == "text" and wanted is None:
            continue
        if got != wanted:
            show = short if isinstance(wanted, bytes) else (lambda value: value)
            failures.append(f"{name}: {what} is {show(got)!r}, not {show(wanted)!r}")


LIFT = ["lift", "d", "p", "t"]
CELLS_LIFTED = text_of("(do_-left)", "(do_-left)", "(merge_-0)")


def translate(domain="d", problem="p", od="od", op="op"):
    return ["translate", domain, problem, od, op, "--mode", "k0"]
