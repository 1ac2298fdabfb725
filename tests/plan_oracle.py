#!/usr/bin/env python3
"""A second reading, sharing no code with the program, of docs/RULES.md on plans: what `tilemerge plan` must answer.

  plan_oracle.py answer    answers each line of standard input, as `tilemerge plan` does (transfers sorted by round, sender, receiver)
  plan_oracle.py table     prints the table of requests that the program is run on (crates/plan_cases/stdin)
  plan_oracle.py compare   compares the built program with this reading on every R from 1 to 32 and many factors
"""
import itertools
import subprocess
import sys


def swap(ranks, pixels):
    top = ranks.bit_length() - 1

    def group(t, r):
        width = 2**t
        count = ranks // width
        i = min(r // width, count - 1)
        return (i * width, ranks - i * width if i == count - 1 else width)

    def span(t, r):
        start, size = group(t, r)
        j = r - start
        return (j * pixels // size, (j + 1) * pixels // size - j * pixels // size)

    return top, group, span


def radix(ranks, pixels, factors):
    def width(t):
        w = 1
        for k in factors[:t]:
            w *= k
        return w

    def group(t, r):
        return (r // width(t) * width(t), width(t))

    def span(t, r):
        start, length = 0, pixels
        for i, k in enumerate(factors[:t]):
            d = r // width(i) % k
            start, length = start + d * length // k, (d + 1) * length // k - d * length // k
        return (start, length)

    return len(factors), group, span


def lines(ranks, pixels, made):
    rounds, group, span = made
    out = [f"plan: ranks {ranks}, pixels {pixels}, rounds {rounds}"]
    for t in range(rounds + 1):
        for r in range(ranks):
            g, s = group(t, r), span(t, r)
            out.append(f"round {t} rank {r}: group {g[0]}+{g[1]} span {s[0]}+{s[1]}")
    sent = [0] * ranks
    for t in range(rounds):
        for f in range(ranks):
            old = span(t, f)
            start, size = group(t + 1, f)
            for r in range(start, start + size):
                new = span(t + 1, r)
                low, high = max(old[0], new[0]), min(sum(old), sum(new))
                if r != f and low < high:
                    out.append(f"transfer round {t + 1}: {f} -> {r} {low}+{high - low}")
                    sent[f] += high - low
    return out + [f"rank {r} sends {n}" for r, n in enumerate(sent)]


def answer(line):
    words = line.split()
    numbers = words[1:]
    asks = words and words[0] in ("swap", "radix") and all(w.isascii() and w.isdigit() and int(w) < 2**32 for w in numbers)
    if not asks or len(numbers) < 2 or (words[0] == "swap" and len(numbers) != 2):
        return ["no plan request: write 'swap R P' or 'radix R P K..'"]
    ranks, pixels, *factors = map(int, numbers)
    if not (1 <= ranks <= 32 and 1 <= pixels <= 1024):
        return ["refused 5: ranks or pixels outside their limits (part 3, rank none, place 0)"]
    if words[0] == "swap":
        return lines(ranks, pixels, swap(ranks, pixels))
    product = 1
    for k in factors:
        product *= k
    if len(factors) > 5 or any(not 2 <= k <= 32 for k in factors) or product != ranks:
        return ["refused 10: does not suit (part 3, rank none, place 0)"]
    return lines(ranks, pixels, radix(ranks, pixels, factors))


TABLE = """swap 5 10
radix 4 10 2 2
swap 1 1
radix 1 7
radix 6 10 2 3
radix 6 10 3 2
swap 3 2
  swap   2	5
swap 0 10
swap 33 10
swap 4 0
swap 4 1025
radix 33 10 33
radix 4 10 4 1
radix 4 10 2
radix 4 10 2 2 2
radix 32 9 2 2 2 2 2 2
radix 2 10 4294967295
swap 4294967296 1
swap 4
swap 4 10 2
radix 4
merge 4 10
swap four 10

""".split("\n")[:-1]


def compare():
    tried = [f"swap {r} {p}" for r in range(1, 33) for p in (1, 2, 7, 33, 1024)]
    for n in range(1, 6):
        for factors in itertools.product((2, 3, 4, 5, 8, 16), repeat=n):
            product = 1
            for k in factors:
                product *= k
            if product <= 32:
                tried.append(f"radix {product} 41 " + " ".join(map(str, factors)))
    tried += TABLE
    want = [row for line in tried for row in answer(line)]
    run = subprocess.run(["crates/tilemerge/out/tilemerge", "plan"], input="\n".join(tried) + "\n", capture_output=True, text=True)
    got = run.stdout.split("\n")[:-1]
    print("same" if got == want else "DIFFERENT", len(tried), "requests,", len(want), "lines")
    sys.exit(got != want)


if __name__ == "__main__":
    if sys.argv[1:2] == ["answer"]:
        for row in sys.stdin.read().split("\n")[:-1]:
            print("\n".join(answer(row)))
    elif sys.argv[1:2] == ["table"]:
        print("\n".join(TABLE))
    elif sys.argv[1:2] == ["compare"]:
        compare()
    else:
        print(__doc__)
