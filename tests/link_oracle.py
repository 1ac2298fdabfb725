#!/usr/bin/env python3
"""A second reading, sharing no code with the program, of docs/RULES.md on links: what `tilemerge link` must answer.

  link_oracle.py answer      answers each line of standard input, as `tilemerge link` does
  link_oracle.py table       prints the table of calls that the program is run on (crates/link_cases/stdin)
  link_oracle.py compare N   makes N calls at random and compares the built program with this reading
"""
import random
import subprocess
import sys

SENTENCES = {
    8: "rank or pixel number outside",
    9: "memory too short",
    11: "no words or too many",
    12: "box not empty",
    13: "box empty",
    14: "message spoilt",
}
SPOILT = "spoilt"


class Refused(Exception):
    pass


def refuse(number, to):
    raise Refused(f"refused {number}: {SENTENCES[number]} (part 4, rank {to}, place 0)")


class Base:
    """A cell or a line link: boxes by sender and receiver."""

    def __init__(self, ranks, longest):
        sound = 1 <= ranks <= 32 and 1 <= longest <= 5200
        self.ranks, self.longest, self.boxes = (ranks, longest, {}) if sound else (0, 0, {})

    def box(self, f, t):
        return self.boxes.get((f, t))

    def put(self, f, t, words):
        self.boxes[f, t] = words

    def empty(self, f, t):
        self.boxes.pop((f, t), None)


class Trim:
    def __init__(self, below):
        self.below, self.ranks, self.longest = below, below.ranks, max(below.longest - 2, 0)

    def box(self, f, t):
        got = self.below.box(f, t)
        if got is None or got is SPOILT:
            return got
        if len(got) < 2:
            return SPOILT
        count, zeros, middle = got[0], got[1], got[2:]
        if not 1 <= count <= self.longest or zeros + len(middle) > count:
            return SPOILT
        if middle and (middle[0] == 0 or middle[-1] == 0) or not middle and zeros != count:
            return SPOILT
        return [0] * zeros + middle + [0] * (count - zeros - len(middle))

    def put(self, f, t, words):
        used = [i for i, w in enumerate(words) if w]
        zeros = used[0] if used else len(words)
        self.below.put(f, t, [len(words), zeros] + (words[used[0] : used[-1] + 1] if used else []))

    def empty(self, f, t):
        self.below.empty(f, t)


class Replay:
    def __init__(self):
        self.link, self.layers, self.room = Base(0, 0), 0, 5200

    def pair(self, f, t):
        if f >= self.link.ranks or t >= self.link.ranks or f == t:
            refuse(8, t)

    def send(self, f, t, words):
        self.pair(f, t)
        if not 1 <= len(words) <= self.link.longest:
            refuse(11, t)
        if self.link.box(f, t) is not None:
            refuse(12, t)
        self.link.put(f, t, words)
        return "ok"

    def read(self, f, t):
        self.pair(f, t)
        if self.room < self.link.longest:
            refuse(9, t)
        got = self.link.box(f, t)
        if got is None:
            refuse(13, t)
        if got is SPOILT:
            refuse(14, t)
        return "ok: " + " ".join(map(str, got))

    def clear(self, f, t):
        self.pair(f, t)
        if self.link.box(f, t) is None:
            refuse(13, t)
        self.link.empty(f, t)
        return "ok"

    def waiting(self, f, t):
        self.pair(f, t)
        return "no" if self.link.box(f, t) is None else "yes"

    def answer(self, line):
        words = line.split()
        unknown = "no link request: see 'tilemerge help'"
        names = 2 if words[:1] in (["link"], ["layer"]) else 1
        name, numbers = words[:names], words[names:]
        if not all(w.isascii() and w.isdigit() and int(w) < 2**32 for w in numbers):
            return unknown
        n = list(map(int, numbers))
        if name in (["link", "cell"], ["link", "line"]) and len(n) == 2:
            self.link, self.layers = Base(*n), 0
            return "ok"
        if name == ["layer", "trim"] and not n:
            if self.layers == 4:
                return "no more than four layers"
            self.link, self.layers = Trim(self.link), self.layers + 1
            return "ok"
        if name == ["area"] and len(n) == 1:
            self.room = n[0]
            return "ok"
        try:
            if name == ["send"] and len(n) >= 2:
                return self.send(n[0], n[1], n[2:])
            if name in (["read"], ["clear"], ["waiting"]) and len(n) == 2:
                return getattr(self, name[0])(*n)
        except Refused as fault:
            return str(fault)
        return unknown


EACH = """send 0 1 5 6 7
waiting 0 1
waiting 1 0
send 0 1 9
read 0 1
read 0 1
send 2 1 0 0 7 0
send 1 2 0 0
read 2 1
read 1 2
clear 0 1
clear 0 1
read 0 1
waiting 0 1
send 0 3 1
send 3 0 1
send 1 1 1
send 4294967295 0 1
read 0 3
clear 2 2
waiting 3 3
send 0 1
send 0 1 1 2 3 4 5 6 7 8 9 10 11 12 13 14 15 16 17
send 0 1 1 2 3 4 5 6 7 8 9 10 11 12 13 14 15 16
send 0 1 1 2 3 4 5 6 7 8 9 10 11 12
read 0 1
area 11
read 0 1
area 12
read 0 1
area 16
read 0 1
area 5200
clear 0 1
clear 1 2
read 2 1
clear 2 1"""

SPOIL = """send 0 1 1
send 0 2 4 2 7
send 1 0 4 2 0 7
send 1 2 4 2 7 0
send 2 0 3 3
send 2 1 3 2
layer trim
read 0 1
waiting 0 1
send 0 1 1
read 0 2
read 1 0
read 1 2
read 2 0
read 2 1
clear 0 1
waiting 0 1
clear 2 1
send 2 1 0 1
read 2 1"""

TABLE = ["waiting 0 1", "send 0 1 5"]
for KIND in ("cell", "line"):
    TABLE += [f"link {KIND} 3 16"] + EACH.split("\n")
    TABLE += [f"link {KIND} 3 16", "layer trim", "layer trim"] + EACH.split("\n")
    TABLE += [f"link {KIND} 3 16"] + SPOIL.split("\n")
    TABLE += [f"link {KIND} 3 16"] + SPOIL.replace("layer trim", "layer trim\nlayer trim").split("\n")
    TABLE += [f"link {KIND} 3 2", "layer trim", "send 0 1 1", "waiting 0 1", "layer trim", "send 0 1 1", "clear 0 1"]
    TABLE += [f"link {KIND} 0 5", "send 0 1 1", f"link {KIND} 33 5", "send 0 1 1", f"link {KIND} 2 0", "send 0 1 1", f"link {KIND} 2 5201", "send 0 1 1"]
    TABLE += [f"link {KIND} 32 5200", "send 31 30 1 2", "read 31 30", "waiting 30 31"]
    TABLE += [f"link {KIND} 1 5", "send 0 0 1", "waiting 0 1"]
TABLE += ["link cell 2 20"] + ["layer trim"] * 5 + ["send 0 1 0 3 0", "read 0 1"]
TABLE += ["link ring 2 5", "layer", "sent 0 1", "read 0", "send 0", "waiting 0 1 2", "area", "link cell 2", "send 0 1 x", ""]


def compare(count):
    rng = random.Random(7)
    lines = []
    for _ in range(count):
        act = rng.choice(("send",) * 6 + ("read",) * 5 + ("clear",) * 4 + ("waiting",) * 2 + ("area", "layer", "link"))
        f, t = rng.randint(0, 4), rng.randint(0, 4)
        if act == "send":
            words = " ".join(str(rng.choice((0, 0, 1, 2, 3, 7))) for _ in range(rng.randint(0, 9)))
            lines.append(f"send {f} {t} {words}".rstrip())
        elif act == "area":
            lines.append(f"area {rng.randint(2, 12)}")
        elif act == "layer":
            lines.append("layer trim")
        elif act == "link":
            lines.append(f"link {rng.choice(('cell', 'line'))} {rng.randint(0, 5)} {rng.randint(0, 12)}")
        else:
            lines.append(f"{act} {f} {t}")
    replay = Replay()
    want = [replay.answer(line) for line in lines]
    run = subprocess.run(["crates/tilemerge/out/tilemerge", "link"], input="\n".join(lines) + "\n", capture_output=True, text=True)
    got = run.stdout.split("\n")[:-1]
    tally = {}
    for row in want:
        key = row.split(":")[0]
        tally[key] = tally.get(key, 0) + 1
    print("same" if got == want else "DIFFERENT", tally)
    sys.exit(got != want)


if __name__ == "__main__":
    if sys.argv[1:2] == ["answer"]:
        REPLAY = Replay()
        for row in sys.stdin.read().split("\n")[:-1]:
            print(REPLAY.answer(row))
    elif sys.argv[1:2] == ["table"]:
        print("\n".join(TABLE))
    elif sys.argv[1:2] == ["compare"]:
        compare(int(sys.argv[2]))
    else:
        print(__doc__)
