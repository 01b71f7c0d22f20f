#!/usr/bin/env python3
"""Writes the vectors of crates/x86_vectors: `stdin` from the table below, and `stdout` with what GNU objdump makes of
each encoding (length and text), its class by tools/grammar.py, and `none` where the grammar has no form.

    tools/vectors.py

Run it after a change of the table and commit both files; `rt ci` compares our answers with them."""
import pathlib

from grammar import form
from objdump import disassemble

CASES = [
    ("each operation, E by G and G by E, byte wide and 32-bit, and the accumulator by an immediate", [
        f"{8 * operation + t:02x}{tail}" for operation in range(8) for t, tail in enumerate(["d8", "d8", "d8", "d8", "7f", "78563412"])]),
    ("INC, DEC, PUSH and POP of each register", [f"{op:02x}" for op in range(0x40, 0x60)]),
    ("80, 81 and 83 with each reg: the operation, and the sign of a byte on 32 bits", [
        f"{op}{0xC1 + 8 * reg:02x}{tail}" for op, tail in (("80", "80"), ("81", "80000000"), ("83", "80")) for reg in range(8)]),
    ("TEST, MOV both ways, LEA, NOP, HLT", ["84f7", "85f7", "88f7", "89f7", "8af7", "8bf7", "8d5e04", "90", "f4"]),
    ("MOV of an immediate into each register and into E", [
        *[f"{op:02x}fe" for op in range(0xB0, 0xB8)], *[f"{op:02x}fdffffff" for op in range(0xB8, 0xC0)],
        "c600fe", "c6c4fe", "c700fdffffff", "c7c4fdffffff", "c64508fe", "c74508fdffffff"]),
    ("direct forms, forward and back, and each condition", [
        "eb00", "eb7f", "eb80", "ebfe", "e900000000", "e9fbffffff", "e9ffffff7f", "e800000000", "e8fbffffff", "e800000080",
        *[f"{op:02x}f0" for op in range(0x70, 0x80)], *[f"0f{op:02x}f0ffffff" for op in range(0x80, 0x90)]]),
    ("loose forms: through each register, RET, an interrupt, the five segment registers", [
        *[f"ff{modrm:02x}" for modrm in (*range(0xE0, 0xE8), *range(0xD0, 0xD8))], "c3", "cd80", "cd00",
        "8ec0", "8ed1", "8eda", "8ee3", "8eec"]),
    ("every mod with every rm", [
        f"8b{64 * mod + rm:02x}{sib}{tail}" for mod, tails in ((0, ""), (1, "fc"), (2, "04030201"), (3, "")) for rm in range(8)
        for sib in (["88"] if rm == 4 and mod < 3 else [""]) for tail in ["fcffffff" if mod == 0 and rm == 5 else tails]]),
    ("SIB: each scale, no index, no base, neither, ESP as base", [
        "8b0448", "8b0488", "8b04c8", "8b0408", "8b0420", "8b0424", "8b0464", "8b042578563412", "8b048d78563412", "8b0485fcffffff",
        "8b04e5fcffffff", "8b442400", "8b44a4fc", "8b4425fc", "8b448d80", "8b84247fffffff", "8b848d00000080"]),
    ("displacements of both signs, zero, the largest and the smallest", [
        "8b4000", "8b407f", "8b4080", "8b40ff", "8b8000000000", "8b80ffffff7f", "8b8000000080", "8b80ffffffff", "8b0500000000", "8b05ffffffff"]),
    ("the longest forms: eleven bytes", ["81840801020304aabbccdd", "c7840801020304aabbccdd", "81bc8d80ffffff80ffffff"]),
    ("cut off at each length", [
        whole[: 2 * length] for whole in ("81840801020304aabbccdd", "c7042501020304aabbccdd"[:22], "0f8501020304", "e801020304", "b801020304", "0501020304", "80c17f", "8d4501", "8b0501020304", "8b042501020304", "cd80", "eb00", "7500", "ffe0", "8ed8")
        for length in range(1, len(whole) // 2)]),
    ("no forms: prefixes, the other low bits, undefined and left out opcodes", [
        "6690", "f390", "f290", "f0830001", "06", "07", "0e", "16", "1e", "26", "27", "2f", "37", "3f", "60", "61", "6800000000", "82c001", "8600", "8c00", "8f00",
        "9a000000000000", "a100000000", "a800", "c0e001", "c20000", "c9", "cb", "cc", "d1e0", "e400", "e2fe", "ea000000000000", "f6c001", "f7e0", "fec0", "fb"]),
    ("no forms: 0F with another byte, an excluded mod or reg", [
        "0f0b", "0f05", "0f7f00", "0f9000", "0fa2", "0faf00", "8ec8", "8ef0", "8ef8", "8e00", "8e18", "ff00", "ffc0", "ff10", "ff18", "ff20", "fff0", "ff30", "c60801", "c6c801", "c7480102030405",
        "c7f801020304", "8dc0", "8dff"]),
]
PAIRS = [
    ("pairs: jump and call through each register but ESP", [f"83{0xE0 + r:02x}e0ff{base + r:02x}" for base in (0xE0, 0xD0) for r in range(8) if r != 4]),
    ("no pairs: ESP, two registers, another mask, the mask in four bytes, a form between, cut off", [
        "83e4e0ffe4", "83e4e0ffd4", "83e0e0ffe1", "83e1e0ffe0", "83e0f0ffe0", "81e0e0ffffffffe0", "83e0e090ffe0", "83e0e0ff", "83e0e0", "83e0", "83", "83e0e0ff20", "83c8e0ffe0", "25e0ffffffffe0"]),
]


def pair(code):
    first, second = disassemble([code[:3], code[3:]])
    return f"{first[1]}; {second[1]}"


def is_pair(code):
    r = code[1] - 0xE0 if len(code) == 5 else 4
    return r in (0, 1, 2, 3, 5, 6, 7) and code in (bytes([0x83, 0xE0 + r, 0xE0, 0xFF, base + r]) for base in (0xE0, 0xD0))


def main():
    asked, answered = [], []
    for reason, texts in CASES:
        asked.append(f"# {reason}")
        for text in texts:
            code = bytes.fromhex(text)
            (length, words, _), found = disassemble([code])[0], form(code)
            assert not found or found[1] == length, text
            asked.append(text)
            answered.append(f"{text}: {length} {found[0]} {words}" if found else f"{text}: none")
    for reason, texts in PAIRS:
        asked.append(f"# {reason}")
        for text in texts:
            code = bytes.fromhex(text)
            asked.append(f"pair {text}")
            answered.append(f"pair {text}: {pair(code) if is_pair(code) else 'none'}")
    crate = pathlib.Path(__file__).resolve().parent.parent / "crates" / "x86_vectors"
    (crate / "stdin").write_text("\n".join(asked) + "\n")
    (crate / "stdout").write_text("\n".join(answered) + "\n")
    print(f"{len(answered)} vectors")


main()
