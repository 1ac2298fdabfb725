#!/usr/bin/env python3
"""A second reading, sharing no code with the program, of docs/FORMATS.md and docs/REFUSALS.md: what `tilemerge inspect` must answer.

  oracle.py answer         answers each line of standard input, as `tilemerge inspect` does
  oracle.py table          prints the table of cases that the program is run on (crates/tilemerge/stdin)
  oracle.py compare N      makes N dumps, sound and damaged, and compares the built program with this reading
"""
import random
import subprocess
import sys

NONE = "none"
SENTENCES = {
    1: "unknown record kind",
    2: "dump cut short",
    3: "record out of place",
    4: "not the rank due",
    5: "ranks or pixels outside their limits",
    6: "wrong pixel kind",
    7: "unlawful pixel",
    8: "rank or pixel number outside",
}
SIZES = {1: 4, 2: 1, 3: 2, 4: 8, 5: 20, 6: 0}
KINDS = {4: 1, 5: 2}


class Refused(Exception):
    pass


def words_of(body):
    return [int.from_bytes(body[i : i + 4], "big") for i in range(0, len(body), 4)]


def lawful(kind, words):
    if kind == 1:
        return words[0] != 0 or words[1] == 0
    return all(plane & words[0] == plane for plane in words[1:])


def read(dump):
    """The lines that are told of a dump."""
    at, head, sections, due, ended, lines = 0, None, 0, 0, False, []

    def refuse(number):
        if number == 4:
            rank = sections
        else:
            rank = sections - 1 if sections else NONE
        raise Refused(f"refused {number}: {SENTENCES[number]} (part 1, rank {rank}, place {at})")

    while not (ended and at == len(dump)):
        rest = dump[at:]
        if rest and rest[0] not in SIZES:
            refuse(1)
        if not rest or len(rest) < 1 + SIZES[rest[0]]:
            refuse(2)
        kind, body = rest[0], rest[1 : 1 + SIZES[rest[0]]]
        if ended or (head is None) != (kind == 1) or (sections == 0 and kind in (3, 4, 5)):
            refuse(3)
        if kind == 1:
            ranks, pixels, pixel_kind = body[0], int.from_bytes(body[1:3], "big"), body[3]
            if not (1 <= ranks <= 32 and 1 <= pixels <= 1024):
                refuse(5)
            if pixel_kind not in (1, 2):
                refuse(6)
            head = (ranks, pixels, pixel_kind)
            lines.append(f"dump: ranks {ranks}, pixels {pixels}, kind {pixel_kind}")
        elif kind == 2:
            if body[0] != sections:
                refuse(4)
            if body[0] >= head[0]:
                refuse(8)
            sections, due = sections + 1, 0
        elif kind == 3:
            number = int.from_bytes(body, "big")
            if number <= due:
                refuse(3)
            if number >= head[1]:
                refuse(8)
            due = number
        elif kind == 6:
            if sections < head[0]:
                refuse(4)
            ended = True
        else:
            words = words_of(body)
            if KINDS[kind] != head[2]:
                refuse(6)
            if not lawful(KINDS[kind], words):
                refuse(7)
            if due >= head[1]:
                refuse(8)
            if any(words):
                lines.append(f"  {sections - 1}.{due}: " + " ".join(map(str, words)))
            due += 1
        at += 1 + SIZES[kind]
    return lines


def answer(line):
    """The lines that answer a line in hexadecimal."""
    digits = ""
    for i, c in enumerate(line):
        if c in " \t\r\n":
            continue
        if c not in "0123456789abcdefABCDEF":
            return [f"bad hex: no digit at index {i}"]
        digits += c
    if len(digits) % 2:
        return ["bad hex: odd number of digits"]
    try:
        return read(bytes.fromhex(digits))
    except Refused as fault:
        return [str(fault)]


def near(nearness, colour):
    return f"04{nearness:08x}{colour:08x}"


def cover(mask, *planes):
    return f"05{mask:08x}" + "".join(f"{p:08x}" for p in planes)


def head(ranks, pixels, kind):
    return f"01{ranks:02x}{pixels:04x}{kind:02x}"


ONE = head(1, 3, 1) + "0200"
TABLE = [
    # a dump of two ranks, three pixels each
    "0102000301 0200 04000000050000000A 0201 040000000500000014 030002 04000000090000001E 06",
    # a coverage dump; a plane may use any bit of the mask
    head(1, 2, 2) + "0200" + cover(0xFF, 0xF5, 0, 0x80, 1) + cover(0xFFFFFFFF, 0, 0, 0, 0xFFFFFFFF) + "06",
    # the limits: 1,024 and 1 pixels, 32 and 1 ranks
    head(1, 1024, 1) + "0200 06",
    head(1, 1024, 1) + "0200 0303ff" + near(1, 2) + "06",
    head(32, 1, 2) + "".join(f"02{r:02x}" for r in range(32)) + "06",
    head(1, 1025, 1) + "0200 06",
    head(1, 0, 1) + "0200 06",
    head(0, 3, 1) + "06",
    head(33, 3, 1) + "06",
    # the empty dump, and blanks alone
    "",
    "   ",
    # 1: unknown kind, at the start, in a section, behind END
    "00",
    "07 00 00",
    ONE + "07",
    ONE + "06 ff",
    # 2: cut in HEAD, in RANK, in a pixel, behind END, and no END
    "01 01 00",
    head(2, 3, 1) + "02",
    ONE + "04 00 00 00 05 00 00 00",
    ONE + "06 04 00",
    ONE + near(1, 2),
    ONE,
    # 3: not HEAD first, HEAD again, a pixel or PLACE before RANK, PLACE not above the number due, a record behind END
    "06",
    "0200",
    ONE + head(1, 3, 1),
    head(1, 3, 1) + near(1, 2),
    head(1, 3, 1) + "030001",
    ONE + "030000",
    ONE + near(1, 2) + "030001",
    ONE + "030002 030001",
    ONE + near(1, 2) + near(3, 4) + near(5, 6) + "030003",
    ONE + "06 06",
    ONE + "06 0200",
    # 4: not the rank due, the same rank again, END before all ranks
    head(2, 3, 1) + "0201",
    head(2, 3, 1) + "0200 0200",
    head(2, 3, 1) + "0200 06",
    head(2, 3, 1) + "06",
    ONE + "0202",
    # 5 comes before 6
    head(0, 3, 9) + "06",
    # 6: a kind without a name, a pixel that is not of HEAD's kind
    head(1, 3, 0) + "06",
    head(1, 3, 3) + "06",
    ONE + cover(0, 0, 0, 0, 0) + "06",
    head(1, 3, 2) + "0200" + near(1, 1) + "06",
    # 6 comes before 7, 7 before 8
    ONE + cover(0, 1, 0, 0, 0) + "06",
    head(1, 1, 1) + "0200" + near(1, 1) + near(0, 1) + "06",
    # 7: colour without nearness, a plane outside its mask, each of the four
    ONE + near(0, 7) + "06",
    head(1, 1, 2) + "0200" + cover(0x0F, 0x10, 0, 0, 0) + "06",
    head(1, 1, 2) + "0200" + cover(0x0F, 0, 0x10, 0, 0) + "06",
    head(1, 1, 2) + "0200" + cover(0x0F, 0, 0, 0x10, 0) + "06",
    head(1, 1, 2) + "0200" + cover(0x0F, 0, 0, 0, 0x80000000) + "06",
    # 8: RANK behind all sections, PLACE at P, a pixel past P
    ONE + "0201",
    ONE + "030003",
    ONE + "030002" + near(1, 2) + near(3, 4),
    # PLACE may follow PLACE, and may be the last of its section; the last pixel may stand behind PLACE
    head(2, 9, 1) + "0200 030002 030005" + near(7, 8) + "030008 0201 030008" + near(1, 0) + "06",
    # a blank pixel may be written out
    ONE + near(0, 0) + near(2, 0) + near(0, 0) + "06",
    # digits of either case, and what is no hexadecimal
    "0101000301 0200 04FFFFFFFFffffffff 06",
    "01 0",
    "01 0g",
    "dump",
]


def damaged(rng):
    """A dump, sound or with a few bytes changed, cut or added."""
    kind, ranks, pixels = rng.choice((1, 2)), rng.randint(1, 3), rng.randint(1, 6)
    out = bytearray(bytes.fromhex(head(ranks, pixels, kind)))
    for r in range(ranks):
        out += bytes((2, r))
        due = 0
        while due < pixels and rng.random() < 0.7:
            if rng.random() < 0.3 and due + 1 < pixels:
                due = rng.randint(due + 1, pixels - 1)
                out += b"\x03" + due.to_bytes(2, "big")
            if kind == 1:
                out += bytes.fromhex(near(rng.randint(1, 9), rng.randint(0, 9)))
            else:
                mask = rng.randint(0, 255)
                out += bytes.fromhex(cover(mask, *(mask & rng.randint(0, 255) for _ in range(4))))
            due += 1
    out += b"\x06"
    for _ in range(rng.choice((0, 0, 1, 1, 2))):
        act, at = rng.randint(0, 3), rng.randrange(len(out))
        if act == 0:
            out[at] = rng.choice((0, 1, 2, 3, 4, 5, 6, 7, rng.randint(0, 255)))
        elif act == 1:
            del out[at:]
        elif act == 2:
            out[at:at] = bytes((rng.randint(0, 7),))
        else:
            del out[at]
        if not out:
            break
    return out.hex()


def compare(count):
    rng = random.Random(20)
    lines = [damaged(rng) for _ in range(count)]
    want = [row for line in lines for row in answer(line)]
    run = subprocess.run(["crates/tilemerge/out/tilemerge", "inspect"], input="\n".join(lines) + "\n", capture_output=True, text=True)
    got = run.stdout.split("\n")[:-1]
    tally = {}
    for row in want:
        key = row.split(":")[0] if row.startswith("refused") else "rows of sound dumps"
        tally[key] = tally.get(key, 0) + 1
    print("same" if got == want else "DIFFERENT", tally)
    sys.exit(got != want)


if __name__ == "__main__":
    if sys.argv[1:2] == ["answer"]:
        for line in sys.stdin.read().split("\n")[:-1]:
            print("\n".join(answer(line)))
    elif sys.argv[1:2] == ["table"]:
        print("\n".join(TABLE))
    elif sys.argv[1:2] == ["compare"]:
        compare(int(sys.argv[2]))
    else:
        print(__doc__)
