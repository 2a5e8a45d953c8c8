"""Each call of the program on the outside failing, in its turn and with all behind it; by `faults.c`."""
import os
import subprocess

from running import CELLS, CELLS_LIFTED, DOMAIN, LIFT, NONE, OLD, REPORT, TOP, WORK, WRITTEN, Ran, doing, failures, text_of, translate, wants

EINTR, EIO, ENOMEM, ENOSPC, EPIPE = 4, 5, 12, 28, 32
KINDS = "alloc", "open", "read", "write"
LIBRARY = os.path.join(WORK, "faults.so")


def build():
    subprocess.run(["cc", "-O1", "-Wall", "-shared", "-fPIC", "-o", LIBRARY, os.path.join(TOP, ".ci/faults.c")], check=True)


class Faults:
    """A command with its files, run over and over with one call failing, or with one and all behind it.

    It reads so many inputs, puts these contents (of the first under od, then under op) and prints this text. So many of
    its first allocations are needed.
    """

    def __init__(self, name, words, files, status, text, outputs=(), inputs=2, needed=16):
        self.name, self.words, self.files, self.text, self.outputs, self.inputs, self.needed = name, words, files, text, outputs, inputs, needed
        self.whole = status, text, self.put(len(outputs))
        counts = os.path.join(WORK, "counts")
        wants(f"{name}, counted", self.ran(EDGE_COUNTS=counts), *self.whole)
        with open(counts) as file:
            self.counts = dict(zip(KINDS, map(int, file.read().split())))

    def put(self, first, at=None):
        """What od and op hold where the first outputs are whole, and the one at this place has these bytes."""
        held = list(self.outputs[:first]) + ([] if at is None else [at])
        return tuple((held + [OLD, OLD])[:2])

    def ran(self, **env):
        return Ran(self.words, self.files, env={"LD_PRELOAD": LIBRARY, **env})

    def wants(self, how, env, *ends):
        wants(f"{self.name}, {how}", self.ran(**env), *ends)

    def fails(self, kind, number, errno, *ends):
        self.wants(f"{kind} {number} failing by {errno}", {"EDGE_FAIL": f"{kind}:{number}:{errno}"}, *ends)

    def all(self):
        doing[0] = "an allocation refused"
        self.allocations()
        doing[0] = "an allocation and all behind it refused"
        self.allocations(EDGE_ALL="1")
        doing[0] = "an open, read or write that fails or is interrupted"
        self.opens()
        self.reads()
        self.writes()
        doing[0] = "short reads and writes"
        self.pieces()
        doing[0] = "outputs that take ten bytes"
        self.full()
        doing[0] = "files, pipes, limits, words, statuses"

    def allocations(self, **env):
        """Each ends it with 7 and changes nothing, or isn't needed. Of the first ones each is needed."""
        for number in range(1, self.counts["alloc"] + 1):
            name = f"{self.name}, allocation {number} refused" + (" and all behind it" if env else "")
            ran = self.ran(EDGE_FAIL=f"alloc:{number}:{ENOMEM}", **env)
            if ran.status == 7 or number <= self.needed:
                wants(name, ran, 7)
            else:
                wants(name, ran, *self.whole)

    def calls(self, kind, errnos, ends):
        """Of each call of that kind the status where it fails, which is 7 for want of memory, and what the files hold then.
        An interrupted call is tried again."""
        if self.counts[kind] != len(ends):
            failures.append(f"{self.name}: {self.counts[kind]} calls of {kind}, not {len(ends)}")
        for number, (fault, puts) in enumerate(ends, 1):
            for errno in errnos:
                self.fails(kind, number, errno, fault, b"", puts)
            self.fails(kind, number, ENOMEM, 7, b"", puts)
            self.fails(kind, number, EINTR, *self.whole)

    def opens(self):
        self.calls("open", (EIO,), [(5, NONE)] * self.inputs + [(6, self.put(place)) for place in range(len(self.outputs))])

    def reads(self):
        self.calls("read", (EIO,), [(5, NONE)] * (2 * self.inputs))

    def writes(self):
        printed = [(6, self.put(len(self.outputs)))] if self.text else []
        self.calls("write", (EIO, ENOSPC, EPIPE), [(6, self.put(place, b"")) for place in range(len(self.outputs))] + printed)

    def pieces(self):
        for size in ("1", "7"):
            self.wants(f"{size} bytes at a time", {"EDGE_SHORT": size}, *self.whole)
        if len(self.text) < 64:  # std's write to standard output gives up once it was interrupted some 64 times
            self.wants("a byte at a time, each call interrupted", {"EDGE_SHORT": "1", "EDGE_AGAIN": "1"}, *self.whole)

    def full(self):
        """An output that takes ten bytes holds these, and is a write that fails where there is more to write."""
        status, text, puts = self.whole
        self.wants("ten bytes printed", {"EDGE_ROOM": "10"}, *((6, text[:10], puts) if len(text) > 10 else self.whole))
        if self.outputs and len(self.outputs[0]) > 10:
            self.wants("ten bytes put", {"EDGE_ROOM_FILES": "10"}, 6, b"", self.put(0, self.outputs[0][:10]))


MERGES = {"m": b"(merge (x1) ((x1)) ((x2)) ((x3)))\n"}


def faults():
    """All commands."""
    undisturbed = Ran(["translate", "d", "p", "od", "op"], CELLS).files
    cells = text_of("atoms 3", "actions 1", "tags 4", "merges 1", "facts 24", "complete")
    width = text_of("width 1", "target (x1) width 1", "clause (x1) (x2) (x3)", "tag (x1)", "tag (x2)", "tag (x3)")
    bench = text_of("family line", "n 2", "atoms 2", "actions 1", "tags 3", "merges 1", "facts 12", "complete", "steps 1", "expanded 2", "check yes")
    left = {**CELLS, "t": b"(left)(left)\n"}
    commands = [
        Faults("the example", translate(), {}, 0, REPORT, WRITTEN),
        Faults("a refusal", translate(), {"p": b"(define (problem e) (:domain d) (:init (p)) (:goal (y)))"}, 3, text_of("refused 5 UnknownName", "at problem line 1 byte 52")),
        Faults("the cells", ["translate", "d", "p", "od", "op"], CELLS, 0, cells, undisturbed),
        Faults("a refusal of merges", ["translate", "d", "p", "od", "op", "--merges", "m"], {"m": b"(merge (q))\n"}, 3, text_of("refused 16 MergeInvalid", "merge 0", "state (p)"), inputs=3),
        Faults("merges", ["merges", "d", "p"], CELLS, 0, MERGES["m"]),
        Faults("a plan", ["strip", "t"], {"t": CELLS_LIFTED}, 0, text_of("(left)", "(left)"), inputs=1, needed=4),
        Faults("a plan that fails", ["check", "d", "p", "t"], {**CELLS, "t": b"(left)"}, 1, text_of("no", "state (x3)", "goal (x1)"), inputs=3),
        Faults("a plan that lifts", LIFT, left, 0, CELLS_LIFTED, inputs=3),
        Faults("a plan that lifts with merges of a file", [*LIFT, "--merges", "m"], {**left, **MERGES}, 0, CELLS_LIFTED, inputs=4),
        Faults("a plan that doesn't lift", LIFT, {"t": b"(a)(a)\n"}, 1, text_of("unlifted", "step 2 (p)"), inputs=3),
        Faults("a lift that is refused", LIFT, {"t": b"(a)(b)\n"}, 3, text_of("refused 20 StepUnknown", "step 2 (b)"), inputs=3),
        # A search makes room for as many states as its budget says, by one allocation each.
        Faults("a search with its plan put", ["solve", "d", "p", "--budget", "20", "--classical", "od"], CELLS, 0, text_of("(left)", "(left)"), (CELLS_LIFTED,)),
        Faults("a search of classical files", ["classical", "d", "p", "--budget", "20"], {}, 0, text_of("(a)"), needed=12),
        Faults("a width", ["width", "d", "p"], CELLS, 0, width),
        Faults("a generated problem", ["bench", "line", "2", "--budget", "20"], {}, 0, bench, inputs=0, needed=12),
    ]
    for command in commands:
        command.all()
    turned(commands[0])


def turned(example):
    """A domain that grows or shrinks once its first byte was read: what is read counts."""
    doing[0] = "a file that grows or shrinks"
    size = len(b"".join(DOMAIN))
    shorter = text_of("refused 3 Syntax", "at domain line 1 byte 31")
    example.wants("a domain that shrinks", {"EDGE_SHORT": "1", "EDGE_TURN": "2:31:d"}, 3, shorter)
    longer = text_of("refused 2 BadToken", f"at domain line 1 byte {size}")
    example.wants("a domain that grows", {"EDGE_SHORT": "1", "EDGE_TURN": f"2:{size + 1}:d"}, 3, longer)
    doing[0] = "files, pipes, limits, words, statuses"
