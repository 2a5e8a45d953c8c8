"""Writes the problems of the examples: python3 examples/make.py. What it writes stands in the repository."""
import itertools
import os

HERE = os.path.dirname(os.path.abspath(__file__))


def names(letter, n):
    return ["%s%d" % (letter, i) for i in range(1, n + 1)]


def atoms(head, rows):
    return ["(%s %s)" % (head, " ".join(row)) for row in rows]


def oneof(parts):
    return "(oneof %s)" % " ".join(parts)


def line(objects):
    return atoms("next", zip(objects, objects[1:]))


def write(folder, name, objects, init, goal):
    lines = ["(define (problem %s-%s)" % (folder, name), "  (:domain %s)" % folder]
    lines += ["  (:objects %s)" % " ".join("%s - %s" % (" ".join(words), kind) for words, kind in objects)]
    lines += ["  (:init"] + ["    " + item for item in init] + ["  )"]
    lines += ["  (:goal %s))" % (goal[0] if len(goal) == 1 else "(and %s)" % " ".join(goal))]
    with open(os.path.join(HERE, folder, name + ".pddl"), "w") as out:
        out.write("\n".join(lines) + "\n")


def safe(name, n):
    c = names("c", n)
    write("safe", name, [(c, "combination")], [oneof(atoms("right", [[x] for x in c]))], ["(open)"])


def bombs(name, n):
    p = names("p", n)
    write("bombs", name, [(p, "package")], [oneof(atoms("armed", [[x] for x in p]))], ["(safe)"])


def toilets(folder, name, n, m):
    p, t = names("p", n), names("t", m)
    write(folder, name, [(p, "package"), (t, "toilet")], [oneof(atoms("armed", [[x] for x in p]))], ["(safe)"])


def square(name, n):
    i = names("i", n)
    middle = i[n // 2]
    write("square", name, [(i, "line")],
          [oneof(atoms("column", [[x] for x in i])), oneof(atoms("row", [[x] for x in i]))] + line(i),
          ["(column %s)" % middle, "(row %s)" % middle])


def corners(name, n):
    i = names("i", n)
    middle = i[n // 2]
    write("corners", name, [(i, "line")],
          [oneof(atoms("column", [[i[0]], [i[-1]]])), oneof(atoms("row", [[i[0]], [i[-1]]]))] + line(i),
          ["(column %s)" % middle, "(row %s)" % middle])


def cube(name, n):
    i = names("i", n)
    middle = i[n // 2]
    write("cube", name, [(["x", "y", "z"], "axis"), (i, "line")],
          [oneof(atoms("at", [[a, x] for x in i])) for a in "xyz"] + line(i),
          ["(at %s %s)" % (a, middle) for a in "xyz"])


def ring(name, n):
    r = names("r", n)
    write("ring", name, [(r, "room")],
          [oneof(atoms("in", [[x] for x in r]))]
          + atoms("unknown", [[x] for x in atoms("closed", [[x] for x in r]) + atoms("locked", [[x] for x in r])])
          + atoms("next", zip(r, r[1:] + r[:1])),
          atoms("locked", [[x] for x in r]))


def coins(name, floors, spots, coins_):
    f, s, c = names("f", floors), names("s", spots), names("c", coins_)
    write("coins", name, [(f, "floor"), (s, "spot"), (c, "coin")],
          ["(at f1 s1)", "(shaft s1)"] + atoms("beside", [p for q in zip(s, s[1:]) for p in (q, q[::-1])])
          + atoms("above", zip(f[1:], f))
          + [oneof(atoms("lies", [[x, a, b] for a in f for b in s])) for x in c],
          atoms("have", [[x] for x in c]))


def grid(columns, rows):
    """Cells, and the pairs of cells side by side."""
    cells = [(x, y) for y in range(1, rows + 1) for x in range(1, columns + 1)]
    name = {c: "c%d-%d" % c for c in cells}
    beside = [(name[a], name[b]) for a in cells for b in cells if abs(a[0] - b[0]) + abs(a[1] - b[1]) == 1]
    return [name[c] for c in cells], beside


def things(folder, name, columns, rows, n, extra, goal):
    cells, beside = grid(columns, rows)
    t = names("t", n)
    write(folder, name, [(cells, "cell"), (t, "thing")],
          ["(robot %s)" % cells[0], "(%s %s)" % (extra, cells[0])]
          + (["(empty)"] + atoms("near", [(c, c) for c in cells] + beside) if folder == "look-and-grab" else [])
          + atoms("beside", beside)
          + [oneof(atoms("lies", [[x, c] for c in cells])) for x in t],
          atoms(goal, [[x] for x in t]))


def sortnet(name, n):
    w = names("w", n)
    write("sortnet", name, [(w, "wire")],
          atoms("unknown", [[x] for x in atoms("high", [[x] for x in w])])
          + atoms("before", itertools.combinations(w, 2)) + atoms("neighbours", zip(w, w[1:])),
          atoms("ordered", zip(w, w[1:])))


def logistics(name, cities, places, packages):
    """Each city has an airport and further places; a package starts somewhere in its city and goes to the next city."""
    all_places, init, goal = [], [], []
    trucks = names("truck", cities)
    city = []
    for i in range(1, cities + 1):
        here = ["a%d" % i] + ["p%d-%d" % (i, j) for j in range(1, places + 1)]
        city.append(here)
        all_places += here
        init += ["(airport a%d)" % i, "(stands truck%d a%d)" % (i, i)]
        init += atoms("street", itertools.permutations(here, 2))
    init.append("(stands plane1 a1)")
    k = names("k", packages)
    for number, package in enumerate(k):
        home = city[number % cities]
        init.append(oneof(atoms("lies", [[package, p] for p in home[1:]])))
        goal.append("(lies %s %s)" % (package, city[(number + 1) % cities][1]))
    write("logistics", name, [(all_places, "place"), (trucks, "truck"), (["plane1"], "plane"), (k, "package")], init, goal)


def blocks(name, n):
    """Blocks that came one after the other: each was put on the table, or on a clear block that came before it."""
    b = names("b", n)
    init = [oneof(["(table %s)" % x] + atoms("on", [[x, y] for y in b[:i]])) for i, x in enumerate(b[1:], 1)]
    init += [oneof(["(clear %s)" % y] + atoms("on", [[x, y] for x in b[i + 1:]])) for i, y in enumerate(b[:-1])]
    write("blocks", name, [(b, "block")], ["(table %s)" % b[0], "(clear %s)" % b[-1]] + init, atoms("on", zip(b, b[1:])))


def main():
    for i, n in enumerate((3, 10, 30)):
        safe("p%d" % (i + 1), n)
    for i, n in enumerate((3, 10, 30)):
        bombs("p%d" % (i + 1), n)
    for i, (n, m) in enumerate(((3, 2), (8, 3), (12, 4))):
        toilets("bombs-toilets", "p%d" % (i + 1), n, m)
    for i, (n, m) in enumerate(((3, 1), (6, 1), (6, 2))):
        toilets("bombs-clogging", "p%d" % (i + 1), n, m)
    for i, n in enumerate((3, 5, 9)):
        square("p%d" % (i + 1), n)
        corners("p%d" % (i + 1), n)
    for i, n in enumerate((3, 5)):
        cube("p%d" % (i + 1), n)
    for i, n in enumerate((2, 3, 4)):
        ring("p%d" % (i + 1), n)
    for i, (f, s, c) in enumerate(((1, 3, 1), (2, 2, 2), (2, 3, 3))):
        coins("p%d" % (i + 1), f, s, c)
    for i, (x, y, n) in enumerate(((2, 1, 1), (2, 2, 2), (3, 3, 2))):
        things("dispose", "p%d" % (i + 1), x, y, n, "bin", "gone")
    for i, (x, y, n) in enumerate(((3, 1, 1), (3, 1, 2), (3, 2, 1))):
        things("look-and-grab", "p%d" % (i + 1), x, y, n, "bin", "gone")
    for i, (x, y, n) in enumerate(((2, 1, 1), (2, 2, 1), (3, 2, 2))):
        things("push-to", "p%d" % (i + 1), x, y, n, "counter", "taken")
    for i, n in enumerate((2, 3, 4)):
        sortnet("p%d" % (i + 1), n)
    for i, (c, p, k) in enumerate(((2, 2, 1), (2, 2, 2), (3, 2, 3))):
        logistics("p%d" % (i + 1), c, p, k)
    for i, n in enumerate((2, 3, 4)):
        blocks("p%d" % (i + 1), n)


if __name__ == "__main__":
    main()
