#!/usr/bin/env python3
"""Compares our decoder and Intel syntax with GNU objdump's, over every first byte, every second byte, and behind each
form that has a ModRM byte every SIB byte, with displacements and immediates of both signs.

    (cd crates/x86_vectors && rt run </dev/null) && tools/compare_objdump.py

Ours has to answer class, length and text where docs/grammar.md has a form, and nothing where it has none; length and
text have to be objdump's. A form's class and length are also compared with tools/grammar.py."""
import subprocess
import sys

from grammar import form, has_modrm
from objdump import disassemble

PROGRAM = "crates/x86_vectors/out/x86_vectors"
TAILS = [
    bytes.fromhex("0000000000000000"),
    bytes.fromhex("0403020107060508"),
    bytes.fromhex("fcfffffff9ffffff"),
    bytes.fromhex("8000000080000000"),
    bytes.fromhex("0000008000000080"),
    bytes.fromhex("7fffff7f7fffff7f"),
]
BATCH = 60000


def strings():
    for op in range(256):
        for second in range(256):
            for tail in TAILS:
                yield bytes([op, second]) + tail
    for op in filter(has_modrm, range(256)):
        for modrm in range(0xC0):
            if modrm & 7 == 4:
                for sib in range(256):
                    # one tail a SIB byte, in turn: every tail meets every base, index and scale
                    yield bytes([op, modrm, sib]) + TAILS[(modrm + sib + sib // 8) % len(TAILS)]
    # every form cut off at each length
    for op in range(256):
        for modrm in (0x00, 0x04, 0x05, 0x40, 0x44, 0x80, 0x84, 0xC0):
            whole = bytes([op, modrm, 0x25]) + TAILS[1]
            for length in range(1, len(whole)):
                yield whole[:length]


def ours(codes):
    text = "".join(code.hex() + "\n" for code in codes)
    run = subprocess.run([PROGRAM], input=text, capture_output=True, text=True, check=True)
    answers = run.stdout.splitlines()
    assert len(answers) == len(codes), (len(answers), len(codes))
    return answers


def expected(code, length, text, at):
    found = form(code)
    if found is None:
        return "none"
    kind, ends = found
    if ends != length:
        return f"objdump has {length} bytes, the grammar {ends}"
    if kind == "direct":
        # objdump saw the bytes at another address than 0
        mnemonic, target = text.rsplit(" ", 1)
        text = f"{mnemonic} {(int(target, 16) - at) % 2**32:#x}"
    return f"{length} {kind} {text}"


def main():
    codes = list(dict.fromkeys(strings()))
    forms = differences = 0
    for start in range(0, len(codes), BATCH):
        batch = codes[start : start + BATCH]
        for code, answer, (length, text, at) in zip(batch, ours(batch), disassemble(batch)):
            want = f"{code.hex()}: {expected(code, length, text, at)}"
            forms += not want.endswith("none")
            if answer != want:
                differences += 1
                if differences <= 20:
                    print(f"ours    {answer}\nwanted  {want}")
    print(f"{len(codes)} byte strings, {forms} forms, {len(codes) - forms} refused, {differences} differences")
    return differences != 0


sys.exit(main())
