#!/usr/bin/env python3
"""Small random problems, on which the program and the judge must say the same, word by word.

    python3 examples/random_problems.py [PROGRAM] [--seed N] [--cases N]

Compared are: no initial state, the first clash, the counts and the uncovered targets, the merges, the widths
with their clauses and tags, the verdict on random plans with the first state and the first literal, that plans
are plans, and that `no plan` with `complete` is so. A difference is printed with its two files.
"""
import os
import random
import subprocess
import sys
import tempfile

HERE = os.path.dirname(os.path.abspath(__file__))
sys.path.insert(0, HERE)
sys.dont_write_bytecode = True
import judge  # noqa: E402

MODES = ["k0", "k1", "k1", "k2", "k3", "models", "auto"]


def random_texts(draw):
    """A domain and a problem over a few atoms without objects."""
    atoms = ["p%d" % i for i in range(draw.randint(2, 6))]

    def lit(atom, negative):
        return "(not (%s))" % atom if draw.random() < negative else "(%s)" % atom

    def some(count):
        return draw.sample(atoms, min(len(atoms), count))

    actions = []
    for i in range(draw.randint(1, 4)):
        effects = []
        for _ in range(draw.randint(1, 4)):
            conds = [lit(a, 0.5) for a in some(draw.choice([0, 1, 1, 1, 2, 2]))]
            effects.append("(when (and %s) %s)" % (" ".join(conds), lit(draw.choice(atoms), 0.4)))
        pre = [lit(a, 0.5) for a in some(draw.choice([0, 0, 0, 1, 1, 2]))]
        actions.append("(:action a%d :precondition (and %s) :effect (and %s))" % (i, " ".join(pre), " ".join(effects)))
    items = []
    for _ in range(draw.randint(1, 4)):
        kind, named = draw.choice(["oneof", "oneof", "or", "unknown", "unit"]), some(draw.randint(1, 4))
        if kind in ("oneof", "or"):
            items.append("(%s %s)" % (kind, " ".join(lit(a, 0.2) for a in named)))
        else:
            items.append("(unknown (%s))" % named[0] if kind == "unknown" else lit(named[0], 0.3))
    goal = [lit(a, 0.3) for a in some(draw.randint(1, 2))]
    domain = "(define (domain d) (:predicates %s)\n%s)\n" % (" ".join("(%s)" % a for a in atoms), "\n".join(actions))
    return domain, "(define (problem p) (:init %s)\n(:goal (and %s)))\n" % (" ".join(items), " ".join(goal))


def random_lifted_texts(draw):
    """A domain and a problem with types, objects, static atoms, equality and effects under forall."""
    kinds = {"t": ["t1", "t2", "t3"][:draw.randint(1, 3)], "u": ["u1", "u2"][:draw.randint(1, 2)]}
    predicates = {"r": [], "p": ["t"], "s": ["t"], "v": ["u"], "q": ["t", "u"], "e": ["t", "t"]}

    def atom(scope):
        """An atom over variables and objects that are in scope."""
        head = draw.choice(sorted(predicates))
        terms = [draw.choice([v for v, k in scope if k == kind] * 3 + kinds[kind]) for kind in predicates[head]]
        return "(%s)" % " ".join([head] + terms)

    def lit(scope, negative):
        return "(not %s)" % atom(scope) if draw.random() < negative else atom(scope)

    def effect(scope):
        conds = [lit(scope, 0.4) for _ in range(draw.choice([0, 1, 1, 2]))]
        return "(when (and %s) %s)" % (" ".join(conds), lit(scope, 0.4))

    actions = []
    for i in range(draw.randint(1, 3)):
        scope = [("?x", "t"), ("?y", draw.choice("tu"))][:draw.randint(0, 2)]
        pre = [lit(scope, 0.3) for _ in range(draw.choice([0, 0, 1]))]
        if len(scope) == 2 and scope[1][1] == "t":
            pre.append(draw.choice(["(not (= ?x ?y))", "(= ?x ?y)", ""]))
        effects = [effect(scope) for _ in range(draw.randint(1, 2))]
        if draw.random() < 0.5:
            kind = draw.choice("tu")
            effects.append("(forall (?z - %s) %s)" % (kind, effect(scope + [("?z", kind)])))
        actions.append("(:action a%d :parameters (%s) :precondition (and %s) :effect (and %s))" % (
            i, " ".join("%s - %s" % pair for pair in scope), " ".join(pre), " ".join(effects)))
    items = []
    for _ in range(draw.randint(1, 5)):
        kind = draw.choice(["oneof", "or", "unknown", "unit", "unit", "unit"])
        named = sorted({atom([]) for _ in range(draw.randint(1, 4))})
        if kind in ("oneof", "or"):
            items.append("(%s %s)" % (kind, " ".join(named)))
        else:
            items.append("(unknown %s)" % named[0] if kind == "unknown" else named[0])
    domain = "(define (domain d) (:types t u) (:predicates %s)\n%s)\n" % (
        " ".join("(%s)" % " ".join([h] + ["?%d - %s" % pair for pair in enumerate(k)]) for h, k in predicates.items()), "\n".join(actions))
    goal = [lit([], 0.3) for _ in range(draw.randint(1, 2))]
    objects = " ".join("%s - %s" % (" ".join(names), kind) for kind, names in kinds.items())
    return domain, "(define (problem p) (:objects %s) (:init %s)\n(:goal (and %s)))\n" % (objects, " ".join(items), " ".join(goal))


def lits(problem, literals):
    return "".join(" " + judge.text_of(l) for l in problem.ascending(literals))


def wanted_translate(problem, table):
    merges, tags, uncovered = table
    text = "atoms %d\nactions %d\ntags %d\nmerges %d\nfacts %d\n%s\n" % (
        len(problem.atoms), len(problem.actions), tags, len(merges), 2 * len(problem.atoms) * tags,
        "incomplete" if uncovered else "complete")
    return 0, text + "".join("uncovered %s\n" % judge.text_of(l) for l in uncovered)


def wanted_merges(problem, table):
    return 0, "".join("(merge %s%s)\n" % (judge.text_of(target), "".join(" (%s)" % lits(problem, tag)[1:] for tag in tags))
                      for target, tags in table[0])


def wanted_width(problem, bound):
    widths, text = problem.width(bound), ""
    for target, width in widths:
        if width is None:
            return 1, "over %d\ntarget %s\n" % (bound, judge.text_of(target))
        clauses, tags = problem.least_cover(target, range(bound + 1))
        text += "target %s width %d\n" % (judge.text_of(target), width)
        text += "".join("clause%s\n" % lits(problem, c) for c in clauses)
        text += "".join("tag%s\n" % lits(problem, t) for t in tags if width)
    return 0, "width %d\n%s" % (max([w for _, w in widths], default=0), text)


def wanted_check(problem, plan):
    """The first state from which the plan fails, of two states the one without the first atom in which they differ."""
    for start in sorted(problem.states(), key=lambda s: [a in s for a in problem.atoms]):
        state = start
        for number, asked in enumerate([problem.by_name[step][0] for step in plan] + [problem.goal], 1):
            false = [l for l in problem.ascending(asked) if (l[0] in state) != l[1]]
            if false:
                where = "step %d" % number if number <= len(plan) else "goal"
                return 1, "no\nstate%s\n%s %s\n" % (lits(problem, [(a, True) for a in start]), where, judge.text_of(false[0]))
            if number <= len(plan):
                state = problem.step(plan[number - 1], state)
    return 0, "yes\n"


def try_case(program, draw, folder, same):
    def run(*words):
        done = subprocess.run([program, *words], cwd=folder, stdout=subprocess.PIPE, stderr=subprocess.STDOUT)
        return done.returncode, done.stdout.decode()

    def put(name, text):
        with open(os.path.join(folder, name), "w") as out:
            out.write(text)

    texts = draw.choice([random_texts, random_lifted_texts])(draw)
    put("d", texts[0])
    put("p", texts[1])
    problem, mode = judge.Problem(*texts), draw.choice(MODES)
    if problem.count_states() == 0:
        return same("no state", run("solve", "d", "p"), (3, "refused 12 NoInitialState\n"))
    clash = problem.clash()
    if clash:
        action, atom, add, delete = clash
        return same("clash", run("solve", "d", "p"), (3, "refused 13 Clash\naction (%s)\natom (%s)\nadd%s\ndelete%s\n" % (
            " ".join(action), " ".join(atom), lits(problem, add), lits(problem, delete))))
    problem.prepare()
    table = problem.table(mode)
    same("translate " + mode, run("translate", "d", "p", "od", "op", "--mode", mode), wanted_translate(problem, table))
    same("merges " + mode, run("merges", "d", "p", "--mode", mode), wanted_merges(problem, table))
    bound = draw.randint(0, 4)
    same("width within %d" % bound, run("width", "d", "p", "--bound", str(bound)), wanted_width(problem, bound))
    status, out = run("solve", "d", "p", "--mode", mode)
    if status == 0:
        same("solve " + mode, problem.judge(judge.read_plan(out)), None)
    else:
        same("solve " + mode, (status, out), (1, "no plan\n%s\n" % ("incomplete" if table[2] else "complete")))
        if not table[2] and problem.count_states() <= 16:
            same("no plan", problem.least(), None)
    plan = judge.read_plan(out) if status == 0 and draw.random() < 0.3 else []
    if not plan and problem.actions:
        plan = [draw.choice(problem.actions)[0] for _ in range(draw.randint(0, 4))]
    put("plan", "".join("(%s)\n" % " ".join(step) for step in plan))
    verdict = wanted_check(problem, plan)
    same("check", run("check", "d", "p", "plan"), verdict)
    status, out = run("lift", "d", "p", "plan", "--mode", mode)
    if status == 0:
        same("lift", (judge.load(os.path.join(folder, "od"), os.path.join(folder, "op")).judge(judge.read_plan(out)), verdict[0]), (None, 0))
    elif not table[2]:
        same("no lift", verdict[0], 1)


def try_cases(program, seed, cases):
    """How many answers were compared, and how many differ."""
    counts = [0, 0]
    for case in range(cases):
        draw = random.Random("%d %d" % (seed, case))
        with tempfile.TemporaryDirectory() as folder:
            def same(what, got, wanted):
                counts[0] += 1
                if got != wanted:
                    counts[1] += 1
                    print("random problem %d %d, %s: %r, wanted %r" % (seed, case, what, got, wanted))
                    for name in ("d", "p"):
                        with open(os.path.join(folder, name)) as text:
                            print(text.read(), end="", flush=True)
            try_case(program, draw, folder, same)
    return counts


def main(words):
    program, options = os.path.join(HERE, "..", "crates", "kplan", "out", "kplan"), {"--seed": 1, "--cases": 200}
    while words:
        if words[0] in options:
            options[words[0]] = int(words[1])
            words = words[2:]
        else:
            program, words = words[0], words[1:]
    answers, failures = try_cases(os.path.abspath(program), options["--seed"], options["--cases"])
    print("random problems: %d cases, %d answers, %d failures" % (options["--cases"], answers, failures))
    return 1 if failures else 0


if __name__ == "__main__":
    sys.exit(main(sys.argv[1:]))
