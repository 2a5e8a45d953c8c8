"""An independent judge for the examples: Python alone, nothing taken from kplan.

It reads the part of the language that the examples use, makes the ground problem,
lists the initial states, runs plans from each of them, and works out what the definitions of
docs/MEANING.md and docs/TRANSLATION.md say of tags, merges, covers and widths, from the list of
initial states in place of resolution.

    python3 examples/judge.py DOMAIN PROBLEM          what the definitions say of two files
    python3 examples/judge.py DOMAIN PROBLEM PLAN     whether a plan works from each initial state
    python3 examples/judge.py --least DOMAIN PROBLEM  the length of a shortest plan, by search over sets of states
"""
import itertools
import re
import sys


# Files.

def read(text):
    """The list of nested lists of names of a text."""
    text = re.sub(r";[^\n]*", "", text).lower()
    stack = [[]]
    for token in re.findall(r"[()]|[^\s()]+", text):
        if token == "(":
            stack.append([])
        elif token == ")":
            part = stack.pop()
            stack[-1].append(part)
        else:
            stack[-1].append(token)
    assert len(stack) == 1
    return stack[0]


def typed(words):
    """Pairs of a word and its type."""
    out, waiting, at = [], [], 0
    while at < len(words):
        if words[at] == "-":
            out += [(word, words[at + 1]) for word in waiting]
            waiting, at = [], at + 2
        else:
            waiting.append(words[at])
            at += 1
    return out + [(word, "object") for word in waiting]


def read_plan(text):
    return [tuple(step) for step in read(text)]


class Problem:
    """The ground problem of two files."""

    def __init__(self, domain_text, problem_text):
        domain, problem = read(domain_text)[0], read(problem_text)[0]
        parents, objects, self.predicates, schemas = {}, [], [], []
        init, goal = [], []
        for section in domain[2:]:
            head, rest = section[0], section[1:]
            if head == ":types":
                for word, kind in typed(rest):
                    parents.setdefault(word, set()).add(kind)
            elif head == ":constants":
                objects += typed(rest)
            elif head == ":predicates":
                self.predicates += [(p[0], len(typed(p[1:]))) for p in rest]
            elif head == ":action":
                parts = dict(zip(rest[1::2], rest[2::2]))
                schemas.append((rest[0], typed(parts.get(":parameters", [])), parts.get(":precondition", []), parts.get(":effect", [])))
        for section in problem[2:]:
            head, rest = section[0], section[1:]
            if head == ":objects":
                objects += typed(rest)
            elif head == ":init":
                init = rest
            elif head == ":goal":
                goal = rest[0]
        self.rank = {}
        kinds = {}
        for word, kind in objects:
            self.rank.setdefault(word, len(self.rank))
            kinds.setdefault(word, set()).add(kind)
        self.order = {name: i for i, (name, _) in enumerate(self.predicates)}

        def below(kind, top, seen=()):
            return kind == top or top == "object" or any(below(p, top, seen + (kind,)) for p in parents.get(kind, ()) if p not in seen)

        def range_of(kind):
            return [w for w in self.rank if any(below(k, kind) for k in kinds[w])]

        # :init as a list of items, each with a kind and literals (an atom, and whether it holds).
        self.items = []

        def item(part):
            if part and part[0] == "and":
                for one in part[1:]:
                    item(one)
            elif part[0] in ("oneof", "or"):
                lits = []
                for one in part[1:]:
                    if literal(one) not in lits:
                        lits.append(literal(one))
                self.items.append((part[0], lits))
            elif part[0] == "unknown":
                self.items.append(("unknown", [literal(part[1])]))
            else:
                self.items.append(("unit", [literal(part)]))

        def literal(part):
            return (tuple(part[1]), False) if part[0] == "not" else (tuple(part), True)

        for part in init:
            item(part)

        # Static predicates: no effect names them, and :init only by positive literals.
        named = set()

        def heads(effect):
            if not effect:
                return
            if effect[0] == "and":
                for one in effect[1:]:
                    heads(one)
            elif effect[0] in ("when", "forall"):
                heads(effect[2])
            elif effect[0] == "not":
                named.add(effect[1][0])
            else:
                named.add(effect[0])

        for schema in schemas:
            heads(schema[3])
        for kind, lits in self.items:
            for atom, positive in lits:
                if kind != "unit" or not positive:
                    named.add(atom[0])
        static = {name for name, _ in self.predicates if name not in named}
        facts = {lits[0][0] for kind, lits in self.items if kind == "unit" and lits[0][0][0] in static}

        def conditions(part, binding):
            """The literals of a condition; None where a static literal or an equality in it is false."""
            if not part:
                return []
            if part[0] == "and":
                out = []
                for one in part[1:]:
                    more = conditions(one, binding)
                    if more is None:
                        return None
                    out += more
                return out
            positive = part[0] != "not"
            inner = part if positive else part[1]
            terms = tuple(binding.get(t, t) for t in inner[1:])
            if inner[0] == "=":
                return [] if (terms[0] == terms[1]) == positive else None
            atom = (inner[0],) + terms
            if inner[0] in static:
                return [] if (atom in facts) == positive else None
            return [(atom, positive)]

        def flat(part, binding, conds):
            if not part:
                return
            if part[0] == "and":
                for one in part[1:]:
                    yield from flat(one, binding, conds)
            elif part[0] == "when":
                more = conditions(part[1], binding)
                if more is not None:
                    yield from flat(part[2], binding, conds + more)
            elif part[0] == "forall":
                variables = typed(part[1])
                for choice in itertools.product(*[range_of(k) for _, k in variables]):
                    yield from flat(part[2], {**binding, **{v: o for (v, _), o in zip(variables, choice)}}, conds)
            else:
                positive = part[0] != "not"
                inner = part if positive else part[1]
                yield (frozenset(conds), ((inner[0],) + tuple(binding.get(t, t) for t in inner[1:]), positive))

        atoms = set()
        self.actions = []
        for name, params, pre, eff in schemas:
            for choice in itertools.product(*[range_of(k) for _, k in params]):
                binding = {v: o for (v, _), o in zip(params, choice)}
                asked = conditions(pre, binding)
                if asked is None:
                    continue
                effects = []
                for one in flat(eff, binding, []):
                    if one not in effects:
                        effects.append(one)
                atoms |= {a for a, _ in asked}
                for conds, (atom, _) in effects:
                    atoms |= {a for a, _ in conds} | {atom}
                asked = frozenset(asked)
                kept = [(c, l) for c, l in effects
                        if l[1] or not any(m == (l[0], True) and d <= c | asked for d, m in effects)]
                self.actions.append(((name,) + choice, asked, kept))
        self.goal = frozenset(conditions_of_goal(goal))
        atoms |= {a for a, _ in self.goal}
        for kind, lits in self.items:
            atoms |= {a for a, _ in lits if a[0] not in static}
        self.atoms = sorted(atoms, key=lambda a: (self.order[a[0]], [self.rank[o] for o in a[1:]]))
        self.number = {a: i for i, a in enumerate(self.atoms)}
        self.by_name = {name: (pre, eff) for name, pre, eff in self.actions}
        self.stated = [(k, lits) for k, lits in self.items if k != "unit" or lits[0][0] in self.number]
        self._split()

    # Initial states. The atoms fall apart into groups that no item joins; each group has its list of states.

    def _split(self):
        group = {a: a for a in self.atoms}

        def find(a):
            while group[a] != a:
                a = group[a]
            return a

        for _, lits in self.stated:
            for atom, _ in lits[1:]:
                group[find(atom)] = find(lits[0][0])
        members, items = {}, {}
        for a in self.atoms:
            members.setdefault(find(a), []).append(a)
        named = set()
        self.no_state = False
        for kind, lits in self.stated:
            if not lits:
                self.no_state = True
                continue
            items.setdefault(find(lits[0][0]), []).append((kind, lits))
            named |= {a for a, _ in lits}
        self.groups = []
        self.group_of = {}
        for root, atoms in members.items():
            constraints = items.get(root, [])
            models = []
            self._models(constraints, {} if root in named else {a: False for a in atoms}, models, atoms)
            for a in atoms:
                self.group_of[a] = len(self.groups)
            self.groups.append((atoms, models, constraints))

    def _models(self, constraints, chosen, out, atoms):
        if not constraints:
            free = [a for a in atoms if a not in chosen]
            for values in itertools.product((True, False), repeat=len(free)):
                out.append({**chosen, **dict(zip(free, values))})
            return
        (kind, lits), rest = constraints[0], constraints[1:]
        if kind == "unknown":
            return self._models(rest, chosen, out, atoms)
        for i in range(len(lits)):
            # the i-th literal is the one that holds, or the first that holds
            want = [(lits[i][0], lits[i][1])]
            want += [(a, not p) for a, p in (lits[:i] if kind == "or" else lits[:i] + lits[i + 1:])]
            next_, good = dict(chosen), True
            for a, value in want:
                if next_.setdefault(a, value) != value:
                    good = False
                    break
            if good:
                self._models(rest, next_, out, atoms)

    def count_states(self):
        count = 0 if self.no_state else 1
        for _, models, _ in self.groups:
            count *= len(models)
        return count

    def states(self):
        for parts in itertools.product(*[[frozenset(a for a, v in m.items() if v) for m in models] for _, models, _ in self.groups]):
            yield frozenset().union(*parts)

    # Runs.

    @staticmethod
    def holds(lits, state):
        return all((a in state) == p for a, p in lits)

    def step(self, action, state):
        _, effects = self.by_name[action]
        fired = [lit for conds, lit in effects if self.holds(conds, state)]
        return (state - {a for a, p in fired if not p}) | {a for a, p in fired if p}

    def judge(self, plan):
        """None where the plan works from each initial state; else where it fails first."""
        for number, step in enumerate(plan):
            if step not in self.by_name:
                return "no action %s" % (step,)
        now = set(self.states())
        for number, step in enumerate(plan):
            for state in now:
                if not self.holds(self.by_name[step][0], state):
                    return "step %d %s" % (number + 1, step)
            now = {self.step(step, state) for state in now}
        for state in now:
            if not self.holds(self.goal, state):
                return "goal"
        return None

    def shortest(self, most=2000000):
        """A shortest plan, or None where there is none, by search over sets of states."""
        start = frozenset(self.states())
        came, layer = {start: None}, [start]
        while layer:
            nexts = []
            for belief in layer:
                if all(self.holds(self.goal, s) for s in belief):
                    return self.way_to(belief, came)
                for name, pre, _ in self.actions:
                    if all(self.holds(pre, s) for s in belief):
                        after = frozenset(self.step(name, s) for s in belief)
                        if after not in came:
                            came[after] = belief, name
                            nexts.append(after)
            layer = nexts
            assert len(came) < most
        return None

    @staticmethod
    def way_to(belief, came):
        steps = []
        while came[belief]:
            belief, name = came[belief]
            steps.append(name)
        return steps[::-1]

    def least(self, most=2000000):
        """The length of a shortest plan, or None where there is none."""
        plan = self.shortest(most)
        return None if plan is None else len(plan)

    # Clashes, under the pairs of atoms that are never true together.

    def together(self, pairs, *parts):
        """No two of the literals exclude each other."""
        lits = frozenset().union(*parts)
        atoms = [a for a, p in lits if p]
        return not any((a, not p) in lits for a, p in lits) and not any(
            frozenset(two) in pairs for two in itertools.combinations(atoms, 2))

    def exclusive(self):
        """The greatest set of pairs that the start and each action keep apart."""
        started = set()
        for i, (atoms, models, _) in enumerate(self.groups):
            for j, (others, more, _) in enumerate(self.groups[i:], i):
                for m in models:
                    here = [a for a in atoms if m[a]]
                    for two in itertools.combinations(here, 2) if i == j else itertools.product(here, {b for n in more for b in others if n[b]}):
                        started.add(frozenset(two))
        pairs = {frozenset(two) for two in itertools.combinations(self.atoms, 2)} - started
        while True:
            lost = {pair for pair in pairs if not all(self.kept_apart(pairs, pair, *action[1:]) for action in self.actions)}
            if not lost:
                return pairs
            pairs -= lost

    def kept_apart(self, pairs, pair, pre, effects):
        for p, q in (tuple(pair), tuple(pair)[::-1]):
            for conds, lit in effects:
                if lit != (p, True):
                    continue
                if any(other == (q, True) and self.together(pairs, pre, conds, more) for more, other in effects):
                    return False
                if self.together(pairs, pre, conds, {(q, True)}) and not any(
                        other == (q, False) and more <= pre | conds | {(q, True)} for more, other in effects):
                    return False
        return True

    def clash(self):
        """The first clash: an action, an atom, and the conditions of an add and of a delete of it; or None."""
        pairs = self.exclusive()
        for name, pre, effects in self.actions:
            for atom in self.atoms:
                for add, lit in effects:
                    for delete, other in effects if lit == (atom, True) else ():
                        if other == (atom, False) and self.together(pairs, pre, add, delete):
                            return name, atom, add, delete
        return None

    # Covers, by the list of states.

    def code(self, lit):
        return 2 * self.number[lit[0]] + (0 if lit[1] else 1)

    def ascending(self, lits):
        return tuple(sorted(lits, key=self.code))

    def primes_of_group(self, atoms, models, constraints):
        """The least clauses that each state of a group satisfies: least sets that meet each state."""
        kinds = [k for k, _ in constraints]
        lits = [l for _, ls in constraints for l in ls]
        if kinds == ["oneof"] and len(lits) == len(atoms) > 2 and all(p for _, p in lits):
            return [frozenset(lits)] + [frozenset([(a, False), (b, False)]) for a, b in itertools.combinations(atoms, 2)]
        clauses = [frozenset()]
        for model in models:
            lits = [(a, v) for a, v in model.items()]
            holds = set(lits)
            hit = [c for c in clauses if c & holds]
            more = {c | {l} for c in clauses if not c & holds for l in lits if (l[0], not l[1]) not in c}
            more = sorted(more, key=len)
            for c in more:
                if not any(h <= c for h in hit):
                    hit.append(c)
            clauses = hit
        return clauses

    def candidate_clauses(self):
        """The prime implicates of more than one literal, and p or not p for each atom of open value; in order."""
        out = []
        for atoms, models, constraints in self.groups:
            if len(models) > 1 or len(atoms) > 1:
                out += [c for c in self.primes_of_group(atoms, models, constraints) if len(c) > 1]
            for a in atoms:
                if len({m[a] for m in models}) == 2:
                    out.append(frozenset([(a, True), (a, False)]))
        out = sorted(set(out), key=lambda c: [self.code(l) for l in self.ascending(c)])
        return out

    def closure(self, tag):
        """What holds in each state that satisfies the tag; None where no state does."""
        wanted = {}
        for lit in tag:
            wanted.setdefault(self.group_of[lit[0]], []).append(lit)
        out = set()
        for i, (atoms, models, _) in enumerate(self.groups):
            key = (i, frozenset(wanted.get(i, ())))
            if key not in self._known:
                left = [m for m in models if all(m[a] == p for a, p in key[1])]
                self._known[key] = None if not left else frozenset(set.intersection(*[set(m.items()) for m in left]))
            if self._known[key] is None:
                return None
            out |= self._known[key]
        return out

    def relevant_to(self, target):
        back = self._back
        seen, todo = {target}, [target]
        while todo:
            for lit in back.get(todo.pop(), ()):
                if lit not in seen:
                    seen.add(lit)
                    todo.append(lit)
        return seen

    def prepare(self):
        self._known = {}
        self._back = {}
        for _, _, effects in self.actions:
            for conds, (atom, positive) in effects:
                for a, p in conds:
                    self._back.setdefault((atom, positive), set()).add((a, p))
                    self._back.setdefault((atom, not positive), set()).add((a, not p))
        self.candidates = self.candidate_clauses()
        targets = set(self.goal)
        for _, pre, _ in self.actions:
            targets |= pre
        self.targets = sorted(targets, key=self.code)
        self._clauses = {}
        for target in self.targets:
            relevant = self.relevant_to(target)
            self._clauses[target] = [c for c in self.candidates if c <= relevant]

    def cov(self, clauses):
        out = []
        for choice in itertools.product(*[self.ascending(c) for c in clauses]):
            tag = self.ascending(set(choice))
            if tag not in out and self.closure(tag) is not None:
                out.append(tag)
        return out

    def covers(self, tags, target):
        clauses = self._clauses[target]
        return all(all(c & closed for c in clauses) for closed in map(self.closure, tags))

    def least_cover(self, target, sizes):
        for size in sizes:
            for clauses in itertools.combinations(self._clauses[target], size):
                tags = self.cov(clauses)
                if self.covers(tags, target):
                    return clauses, tags
        return None

    def width(self, bound):
        """For each target its width, or None where it is above the bound."""
        out = []
        for target in self.targets:
            found = self.least_cover(target, range(bound + 1))
            out.append((target, None if found is None else len(found[0])))
        return out

    def table(self, mode):
        """The merges of a mode, the number of tags, and the targets that aren't covered."""
        merges, uncovered = [], []
        for target in self.targets:
            if self.covers([()], target):
                continue
            own = []
            clauses = self._clauses[target]
            if mode in ("k1", "k2", "k3", "auto"):
                found = self.least_cover(target, range(1, 4 if mode == "auto" else int(mode[1]) + 1))
                if found:
                    own = [found[1]]
                elif mode != "auto":
                    own = [self.cov([c]) for c in clauses]
            if mode == "models" or mode == "auto" and not own:
                atoms = sorted({a for c in clauses for a, _ in c}, key=lambda a: self.number[a])
                own = [self.assignments(atoms)]
            merges += [(target, tags) for tags in own]
            if not any(self.covers(tags, target) for tags in own):
                uncovered.append(target)
        tags = {()} | {tag for _, own in merges for tag in own}
        return merges, len(tags), uncovered

    def assignments(self, atoms):
        by_group = {}
        for a in atoms:
            by_group.setdefault(self.group_of[a], []).append(a)
        parts = []
        for i, own in by_group.items():
            parts.append({tuple((a, m[a]) for a in own) for m in self.groups[i][1]})
        out = [self.ascending(sum(choice, ())) for choice in itertools.product(*parts)]
        return sorted(out, key=lambda tag: [self.code(l) for l in tag])


def conditions_of_goal(goal):
    if not goal:
        return []
    if goal[0] == "and":
        return [lit for part in goal[1:] for lit in conditions_of_goal(part)]
    if goal[0] == "not":
        return [(tuple(goal[1]), False)]
    return [(tuple(goal), True)]


def text_of(lit):
    atom = "(%s)" % " ".join(lit[0])
    return atom if lit[1] else "(not %s)" % atom


def load(domain, problem):
    with open(domain) as d, open(problem) as p:
        return Problem(d.read(), p.read())


def main(words):
    if words[0] == "--least":
        print("least", load(words[1], words[2]).least())
        return 0
    problem = load(words[0], words[1])
    if len(words) == 3:
        with open(words[2]) as plan:
            fault = problem.judge(read_plan(plan.read()))
        print("yes" if fault is None else "no: " + fault)
        return 0 if fault is None else 1
    print("states", problem.count_states())
    print("atoms", len(problem.atoms))
    print("actions", len(problem.actions))
    problem.prepare()
    widths = problem.width(3)
    over = [t for t, w in widths if w is None]
    print("width", "over 3 for " + text_of(over[0]) if over else max([w for _, w in widths], default=0))
    for mode in ("k0", "k1", "k2", "k3", "models", "auto"):
        merges, tags, uncovered = problem.table(mode)
        print(mode, "tags", tags, "merges", len(merges), "facts", 2 * len(problem.atoms) * tags,
              "complete" if not uncovered else "incomplete")
    return 0


if __name__ == "__main__":
    sys.exit(main(sys.argv[1:]))
