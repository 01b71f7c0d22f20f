#!/usr/bin/env python3
"""Compares our gate with tools/second_gate.py over random images, rows and marks buffers: the verdict, its address and
every byte of both buffers afterwards.

    (cd crates/gate_runs && rt run </dev/null) && tools/compare_gates.py [--seed S] [--count N]
    tools/compare_gates.py --self-test [--seed S] [--count N]

The images are laid out of pairs, straight forms and direct forms, whole, astray or damaged; some are plain random bytes.
The self-test needs no program. It checks the second gate on the examples of docs/gate.md and on images that pass by the
way they are made, and that every verdict comes often enough."""
import argparse
import random
import re
import subprocess
import sys
from collections import Counter
from pathlib import Path

from second_gate import judge

PROGRAM = "crates/gate_runs/out/gate_runs"
PAGE = Path(__file__).resolve().parent.parent / "docs" / "gate.md"
BATCH = 4000
OFTEN = 200
SHOWN = 5
NOP = b"\x90"
TOP = 2**32

# Straight forms: opcodes; no ModRM byte (""), any ("E"), mod not 3 ("M") or reg 0 ("0"); bytes of the immediate.
ROWS = [
    ([op for op in range(0x40) if op & 7 < 4], "E", 0),
    (range(0x04, 0x40, 8), "", 1),
    (range(0x05, 0x40, 8), "", 4),
    (range(0x40, 0x60), "", 0),
    ([0x80, 0x83], "E", 1),
    ([0x81], "E", 4),
    ([0x84, 0x85, 0x88, 0x89, 0x8A, 0x8B], "E", 0),
    ([0x8D], "M", 0),
    ([0x90, 0xF4], "", 0),
    (range(0xB0, 0xB8), "", 1),
    (range(0xB8, 0xC0), "", 4),
    ([0xC6], "0", 1),
    ([0xC7], "0", 4),
]
# Direct forms: opcodes and the bytes of the displacement.
DIRECT = [
    ([b"\xeb"], 1),
    ([b"\xe8", b"\xe9"], 4),
    ([bytes([op]) for op in range(0x70, 0x80)], 1),
    ([bytes([0x0F, op]) for op in range(0x80, 0x90)], 4),
]


# Pieces: each is its bytes and how many of them, at its end, are the displacement of a direct form.


def noise(rng, size):
    """Random bytes, some of them such that look like a piece."""
    if size == 0 or rng.random() < 0.8:
        return rng.randbytes(size)
    likeness = b"\x83\xe1\xe0\xff\xe1\x83\xe4\xe0\xff\xd4\x90\xeb\xfe\xe9\x00\x00\x00\x00\xff\xff\xff\xff\x80\xc3"
    at = rng.randrange(len(likeness) - size)
    return likeness[at : at + size]


def operand(rng, kind):
    mod = rng.randrange(3 if kind == "M" else 4)
    reg = 0 if kind == "0" else rng.randrange(8)
    rm = rng.choice([0, 1, 2, 3, 4, 4, 4, 5, 5, 6, 7])
    sib = b""
    size = (0, 1, 4, 0)[mod]
    if mod != 3 and rm == 4:
        sib = bytes([rng.randrange(32) << 3 | rng.choice([0, 1, 2, 3, 4, 5, 5, 5, 6, 7])])
    if mod == 0 and (rm == 5 or (sib and sib[0] & 7 == 5)):
        size = 4
    return bytes([mod << 6 | reg << 3 | rm]) + sib + noise(rng, size)


def straight(rng):
    opcodes, kind, size = rng.choice(ROWS)
    return bytes([rng.choice(opcodes)]) + (operand(rng, kind) if kind else b"") + noise(rng, size), 0


def pair(rng):
    r = rng.choice([0, 1, 2, 3, 5, 6, 7])
    return bytes([0x83, 0xE0 + r, 0xE0, 0xFF, rng.choice([0xD0, 0xE0]) + r]), 0


def direct(rng):
    opcodes, size = rng.choice(DIRECT)
    return rng.choice(opcodes) + bytes(size), size


def piece(rng):
    return rng.choices([straight, pair, direct], [6, 2, 2])[0](rng)


def single(rng):
    """A straight form of one byte."""
    return NOP if rng.random() < 0.7 else bytes([rng.choice([0xF4, *range(0x40, 0x60)])])


def bad(rng):
    """Bytes that look like a piece; most are none."""
    r, s = rng.randrange(8), rng.randrange(8)
    jump = rng.choice([0xD0, 0xE0])
    any_byte = rng.randrange(256)
    return rng.choice([
        bytes([0x83, 0xE4, 0xE0, 0xFF, jump + 4]),
        bytes([0x83, 0xE0 + r, 0xE0, 0xFF, jump + s]),
        bytes([0x83, 0xE0 + r, any_byte, 0xFF, jump + r]),
        bytes([0x83, any_byte, 0xE0, 0xFF, jump + r]),
        bytes([0x83, any_byte, 0xE0, 0xFF, any_byte ^ rng.choice([0, 0x30])]),
        bytes([0x83, 0xE8 + r, 0xE0, 0xFF, jump + 8 + r]),
        bytes([0x83, 0xE0 + r, 0xE0, 0xFF, jump + 8 + r]),
        bytes([0x83, 0xE0 + r, 0xE0, 0xFF, any_byte]),
        bytes([0x83, 0xE0 + r, 0xE0, 0x90, 0xFF, jump + r]),
        bytes([0x81, 0xE0 + r, 0xE0, 0xFF, 0xFF, 0xFF, 0xFF, jump + r]),
        bytes([0x81, 0xE0 + r, 0xE0, 0xFF, jump + r]),
        bytes([0xFF, jump + r]),
        b"\xff" + operand(rng, "E"),
        b"\xc3",
        bytes([0xCD, any_byte]),
        bytes([0x8E, 0xC0 + any_byte % 64]),
        bytes([0x8D, 0xC0 + any_byte % 64]),
        bytes([rng.choice([0x82, 0x86, 0x87, 0x8C, 0x8F, 0xC0, 0xC1, 0xD0, 0xF6, 0xF7, 0xFE])]) + operand(rng, "E"),
        bytes([rng.choice([0xC6, 0xC7])]) + operand(rng, "E") + noise(rng, 4),
        bytes([0x0F, rng.choice([any_byte, 0x7F, 0x90])]) + noise(rng, 4),
        bytes([rng.choice([0x26, 0x2E, 0x36, 0x3E, 0x64, 0x65, 0x66, 0x67, 0xF0, 0xF2, 0xF3])]) + straight(rng)[0],
        bytes([any_byte]) + operand(rng, "E") + noise(rng, rng.choice([0, 1, 4])),
    ])


# Images.


def layout(rng, n, aligned):
    """Pieces of n bytes in all; if aligned, none goes over a multiple of 32. The direct ones go to the next piece."""
    pieces, at = [], 0
    while at < n:
        code, size = piece(rng)
        room = min(32 - at % 32, n - at) if aligned else n - at
        if len(code) > room or rng.random() < 0.1:
            code, size = single(rng), 0
        pieces.append((code, size))
        at += len(code)
    return pieces


def begins(pieces):
    at, found = 0, []
    for code, _ in pieces:
        found.append(at)
        at += len(code)
    return found


def reaches(displacement, size):
    return size == 4 or -128 <= displacement <= 127


def goal(rng, found, i, n, base, count, stray):
    """An address for the direct form that is piece i to go to: a start or an entry, or if stray anything."""
    near = found[max(0, min(len(found) - 1, i + rng.randint(-12, 12)))]
    if stray:
        return rng.choice([
            near + rng.randrange(1, 6),
            near + rng.randrange(1, 6),
            near + 3,
            near // 32 * 32 + rng.choice([-32, 0, 32]),
            rng.randrange(n),
            n,
            n + rng.randrange(-40, 40),
            base + rng.choice([-32, -1, 0, 1, 31, 32 * count, 32 * count - 1]),
            base + 32 * rng.randrange(count + 1) + rng.randrange(32),
            base + 32 * rng.choice([64, count + 1, 2**27 - 1]),
            TOP - rng.randrange(1, 130),
            rng.randrange(TOP),
        ]) % TOP
    pick = rng.random()
    if pick < 0.45:
        return max(0, near // 32 * 32 + rng.choice([-32, 0, 32]))
    if count and pick < 0.7:
        return base + 32 * rng.randrange(count)
    return near if pick < 0.95 else rng.choice([found[0], found[-1], rng.choice(found)])


def aim(rng, pieces, base, count, stray):
    """Sets the displacements of the direct forms, the share stray of them astray; answers the targets of the others. One
    that does not reach the goal goes to itself."""
    found = begins(pieces)
    allowed = set(found) | {base + 32 * j for j in range(min(count, 64))}
    n = sum(len(code) for code, _ in pieces)
    targets = set()
    for i, (code, size) in enumerate(pieces):
        if size == 0:
            continue
        astray = rng.random() < stray
        after = found[i] + len(code)
        displacement = -len(code)
        for _ in range(4):
            target = goal(rng, found, i, n, base, min(count, 64), astray)
            tried = (target - after + TOP // 2) % TOP - TOP // 2
            if reaches(tried, size) and (astray or target in allowed):
                displacement = tried
                break
        targets.add((after + displacement) % TOP)
        pieces[i] = code[:-size] + displacement.to_bytes(size, "little", signed=True), size
    return targets


def put(pieces, i, code):
    """Puts the bytes in the place of piece i and as many after it as they need, and NOPs up to the next piece."""
    end, room = i, 0
    while end < len(pieces) and room < len(code):
        room += len(pieces[end][0])
        end += 1
    pieces[i:end] = [(code, 0)] + [(NOP, 0)] * (room - len(code))


def cut_off(rng, pieces):
    """Puts the beginning of a form at the very end."""
    code = piece(rng)[0]
    code = code[: rng.randrange(1, max(2, len(code)))]
    room = 0
    while pieces and room < len(code):
        room += len(pieces.pop()[0])
    pieces += [(NOP, 0)] * (room - len(code)) + [(code, 0)]


def damage(rng, pieces):
    """One change of the pieces."""
    i = rng.randrange(len(pieces))
    code, size = pieces[i]
    j = rng.randrange(len(code))
    change = rng.choice(["byte", "insert", "drop", "jump", "jump", "swap", "bad", "bad", "bad", "cut off"])
    jumps = [at for at, (_, size) in enumerate(pieces) if size]
    if change == "byte":
        byte = rng.choice([rng.randrange(256), code[j] ^ 1 << rng.randrange(8)])
        pieces[i] = code[:j] + bytes([byte]) + code[j + 1 :], size
    elif change == "insert":
        pieces[i] = code[:j] + noise(rng, 1) + code[j:], 0
    elif change == "drop" and len(code) > 1:
        pieces[i] = code[:j] + code[j + 1 :], 0
    elif change == "jump" and jumps:
        i = rng.choice(jumps)
        code, size = pieces[i]
        old = int.from_bytes(code[-size:], "little")
        new = (old + rng.choice([-32, -3, -1, 1, 3, 32, 128, 2**31, rng.randrange(TOP)])) % 256**size
        pieces[i] = code[:-size] + new.to_bytes(size, "little"), size
    elif change == "swap":
        k = rng.randrange(len(pieces))
        pieces[i], pieces[k] = pieces[k], pieces[i]
    elif change == "bad":
        put(pieces, i, bad(rng))
    elif change == "cut off":
        cut_off(rng, pieces)


def image(rng, n, base, count):
    """An image, of n bytes but for a few damaged ones."""
    kind = rng.choices(["whole", "astray", "over", "damaged", "probe", "random"], [22, 20, 15, 28, 10, 5])[0]
    if n == 0 or kind == "random":
        return rng.randbytes(n)
    if kind == "probe":
        # a few random bytes amid NOPs, for the edges of the opcode map
        at = rng.randrange(n)
        code = rng.choice([rng.randbytes(1), rng.randbytes(2), rng.randbytes(3), bad(rng)])
        return (NOP * at + code + NOP * n)[:n]
    pieces = layout(rng, n, aligned=kind != "over")
    stray = {"astray": rng.choice([0.1, 0.3, 1]), "over": rng.choice([0, 0, 0.2])}.get(kind, 0)
    aim(rng, pieces, base, count, stray)
    if kind == "damaged":
        for _ in range(rng.choice([1, 1, 2, 3])):
            damage(rng, pieces)
    whole = b"".join(code for code, _ in pieces)
    return whole if rng.random() < 0.05 else whole[:n].ljust(n, NOP)


# Cases: an image, a base, a count and the contents of the two marks buffers.


def length(rng):
    pick = rng.random()
    if pick < 0.7:
        return rng.choice([32, 64, 64, 96])
    if pick < 0.83:
        return rng.randrange(97)
    if pick < 0.98:
        return 32 * rng.randrange(4, 33)
    if pick < 0.999:
        return rng.randrange(128, 2049)
    return rng.choice([65504, 65535, 65536, 65536, 65537, 65568, 32 * rng.randrange(64, 2050), rng.randrange(2048, 65569)])


def fit_row(rng, n):
    """A base and a count that check 3 allows."""
    count = rng.choice([0, 1, 1, 2, 3, 64, rng.randrange(65)])
    least = (n + 31) // 32
    most = 2**27 - max(count, 1)
    low = [least, least, max(2, least), least + rng.randrange(8)]
    return 32 * rng.choice(low + [most, most, most - 1, rng.randint(least, most)]), count


def unfit_row(rng, n):
    """A base and a count that check 3 mostly refuses."""
    base, count = fit_row(rng, n)
    many = [65, 66, 128, 255, 256, 257, 65536, 2**27 - 1, 2**27, 2**27 + 1, TOP - 1, rng.randrange(65, TOP)]
    return rng.choice([
        (base, 65),
        (n // 32 * 32 + 32, rng.choice(many)),
        (base + rng.choice([1, 16, 31]), count),
        (64, count),
        (max(0, n // 32 * 32 - 32), count),
        (rng.randrange(n + 1), count),
        (0, count),
        (TOP - 32 * max(count, 2) + 32, max(count, 2)),
        (TOP - rng.randrange(1, 4096), rng.randrange(65)),
        (rng.randrange(TOP), rng.randrange(TOP)),
    ])


def buffer(rng, n):
    size = rng.choices([0, max(0, n // 8 - 1), n // 8, n // 8 + 5, 8192], [1, 1, 40, 30, 2])[0]
    return rng.choice([bytes(size), b"\xff" * size, rng.randbytes(size)])


def case(rng):
    n = length(rng)
    base, count = fit_row(rng, n) if rng.random() < 0.92 else unfit_row(rng, n)
    return image(rng, n, base, count), base, count, buffer(rng, n), buffer(rng, n)


# The comparison.


def group(data):
    return data.hex() or "-"


def line(case):
    """A case as the program reads it: bytes in hexadecimal, numbers in decimal."""
    code, base, count, starts, targets = case
    return f"{group(code)} {base} {count} {group(starts)} {group(targets)}"


def second(case):
    """The second gate's verdict on a case: number, address and the two buffers afterwards."""
    code, base, count, starts, targets = case
    starts, targets = bytearray(starts), bytearray(targets)
    number, address = judge(code, base, count, starts, targets)
    return number, address, bytes(starts), bytes(targets)


def answer(number, address, starts, targets):
    """What the program is to print for it."""
    verdict = "passed" if number == 0 else f"refused {number}" if address is None else f"refused {number} {address}"
    return f"{verdict} {group(starts)} {group(targets)}"


def ours(cases):
    text = "".join(line(case) + "\n" for case in cases)
    run = subprocess.run([PROGRAM], input=text, capture_output=True, text=True, check=True)
    answers = run.stdout.splitlines()
    assert len(answers) == len(cases), (len(answers), len(cases))
    return answers


def summary(verdicts):
    return f"{sum(verdicts.values())} cases: {verdicts[0]} passed, refused " + ", ".join(
        f"{verdicts[number]} by {number}" for number in range(1, 8)
    )


def compare(rng, count):
    verdicts, differences = Counter(), 0
    cases = [case for case, _ in examples()]
    while count > 0 or cases:
        more = min(count, BATCH)
        cases += [case(rng) for _ in range(more)]
        count -= more
        for one, got in zip(cases, ours(cases)):
            found = second(one)
            verdicts[found[0]] += 1
            if got != answer(*found):
                differences += 1
                if differences <= SHOWN:
                    print(f"case    {line(one)}\nours    {got}\nsecond  {answer(*found)}")
        cases = []
    print(summary(verdicts))
    print(f"{differences} differences")
    return differences != 0


# The self-test.


def examples():
    """The cases of the examples table of docs/gate.md, each with its verdict as the page words it."""
    found = []
    section = PAGE.read_text().split("## Examples\n")[1].split("\n## ")[0]
    for text, verdict in re.findall(r"^\| (.*) \| (.*) \|$", section, re.M)[1:]:
        base, count, small = 64, 0, None
        if row := re.search(r", row (\d+), (\d+)$", text):
            base, count = map(int, row.groups())
        if size := re.search(r", one buffer of (\d+) bytes$", text):
            small = int(size.group(1))
        code = b""
        for part in re.sub(r", (row|one buffer) .*", "", text).split(", "):
            nops = re.fullmatch(r"(\d+) NOPs", part)
            code += NOP * int(nops.group(1)) if nops else bytes.fromhex(part)
        enough = b"\xa5" * (len(code) // 8)
        found.append(((code, base, count, enough if small is None else enough[:small], enough), verdict))
        if small is not None:
            found.append(((code, base, count, enough, enough[:small]), verdict))
    assert len(found) >= 15, len(found)
    return found


def check_examples():
    for one, verdict in examples():
        number, address, starts, targets = second(one)
        got = "passes" if number == 0 else str(number) if address is None else f"{number} at {address}"
        if " starts " in verdict:
            got += f"; starts {starts.hex(' ').upper()}"
        if " targets " in verdict:
            got += f", targets {targets.hex(' ').upper()}"
        assert got == verdict, (line(one), got, verdict)


def bits(addresses, n):
    return sum(1 << at for at in addresses if at < n).to_bytes(n // 8, "little")


def check_whole(rng):
    """Images that have to pass, with the marks that their making says."""
    for _ in range(5000):
        n = 32 * rng.randrange(1, 9)
        base, count = fit_row(rng, n)
        pieces = layout(rng, n, aligned=True)
        targets = aim(rng, pieces, base, count, 0)
        one = b"".join(code for code, _ in pieces), base, count, rng.randbytes(n // 8), rng.randbytes(n // 8)
        assert second(one) == (0, None, bits(begins(pieces), n), bits(targets, n)), line(one)


def check_buffers(one, found):
    """What docs/gate.md says of the marks after a refusal, and of the bytes after them."""
    size = len(one[0]) // 8 if found[0] in (0, 4, 5, 6, 7) else 0
    for before, after in zip(one[3:], found[2:]):
        assert len(after) == len(before) and after[size:] == before[size:], line(one)
        assert found[0] == 0 or after[:size] == bytes(size), line(one)


def self_test(rng, count):
    check_examples()
    check_whole(rng)
    verdicts, lengths = Counter(), set()
    for _ in range(count):
        one = case(rng)
        found = second(one)
        check_buffers(one, found)
        verdicts[found[0]] += 1
        lengths.add(len(one[0]))
    print(summary(verdicts))
    rare = [number for number in range(8) if verdicts[number] < OFTEN]
    missing = [n for n in range(97) if n not in lengths]
    if rare or missing:
        print(f"too few of the verdicts {rare}, none of the lengths {missing}")
    return bool(rare or missing)


def main():
    parser = argparse.ArgumentParser(description="compares our gate with the second one")
    parser.add_argument("--seed", type=int, default=1)
    parser.add_argument("--count", type=int, default=120000)
    parser.add_argument("--self-test", action="store_true")
    options = parser.parse_args()
    rng = random.Random(options.seed)
    return (self_test if options.self_test else compare)(rng, options.count)


sys.exit(main())
