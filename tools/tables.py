#!/usr/bin/env python3
"""Writes crates/automata/src/tables.rt, the three transition tables, from the description of the forms below.

    tools/tables.py && (cd crates/automata && rt fmt)

A state is what is still to come; reading a byte leads to another. That each entry is right is proved: the rule in
crates/automata/specs is computed over each whole table."""
import pathlib

REJECT, ACCEPT, START = range(3)

# what stands behind each opcode of a straight form: nothing, an immediate of so many bytes, an operand with an immediate,
# an address (an operand that is no register), or an operand with reg 0 and an immediate
STRAIGHT = {
    **{8 * operation + t: ("operand", 0) for operation in range(8) for t in range(4)},
    **{8 * operation + 4: ("bytes", 1) for operation in range(8)},
    **{8 * operation + 5: ("bytes", 4) for operation in range(8)},
    **{op: ("bytes", 0) for op in (*range(0x40, 0x60), 0x90, 0xF4)},
    0x80: ("operand", 1), 0x81: ("operand", 4), 0x83: ("operand", 1),
    **{op: ("operand", 0) for op in (0x84, 0x85, 0x88, 0x89, 0x8A, 0x8B)},
    0x8D: ("address", 0),
    **{op: ("bytes", 1) for op in range(0xB0, 0xB8)}, **{op: ("bytes", 4) for op in range(0xB8, 0xC0)},
    0xC6: ("zeroth", 1), 0xC7: ("zeroth", 4),
}
DIRECT = {**{op: 1 for op in (0xEB, *range(0x70, 0x80))}, 0xE8: 4, 0xE9: 4}
DIRECT_BEHIND_0F = {op: 4 for op in range(0x80, 0x90)}


class Table:
    """States with names, in the order of their numbers, and for each a row: a function from a byte to a state."""

    def __init__(self, name, states):
        self.name, self.states = name, ["REJECTED", "ACCEPTED", "STARTING", *states]

    def number(self, state):
        return self.states.index(state)

    def after(self, count):
        """The state in which so many bytes of any value are still to come."""
        return ACCEPT if count == 0 else self.number(f"LEFT_{count}")

    def write(self, row):
        prefix = self.name
        for state in self.states:
            entries = [row(state, byte) for byte in range(256)]
            yield f"const {prefix}_{state}: [u8; 256] = "
            if len(set(entries)) == 1:
                yield f"[{entries[0]}; 256];\n\n"
            else:
                lines = ("".join(f"\\x{entry:02x}" for entry in entries[at : at + 16]) for at in range(0, 256, 16))
                yield '*b"\\\n' + "".join(f"    {line}\\\n" for line in lines) + '";\n\n'
        rows = "".join(f"    {prefix}_{state},\n" for state in self.states)
        yield f"pub(crate) const {prefix}: [[u8; 256]; {len(self.states)}] = [\n{rows}];\n\n"


def straight():
    table = Table("STRAIGHT", [*(f"LEFT_{n}" for n in range(1, 10)), "OPERAND_0", "OPERAND_1", "OPERAND_4", "ADDRESS_0", "ZEROTH_1", "ZEROTH_4", "SIB_0", "SIB_1", "SIB_4"])

    def operand(immediate, byte):
        mod, rm = byte >> 6, byte & 7
        if mod == 3:
            return table.after(immediate)
        if rm == 4:
            return table.number(f"SIB_{immediate}") if mod == 0 else table.after(1 + (1 if mod == 1 else 4) + immediate)
        return table.after((1 if mod == 1 else 4 if mod == 2 or rm == 5 else 0) + immediate)

    def row(state, byte):
        kind, _, rest = state.partition("_")
        if state == "STARTING":
            kind, count = STRAIGHT.get(byte, ("reject", 0))
            return REJECT if kind == "reject" else table.after(count) if kind == "bytes" else table.number(f"{kind.upper()}_{count}")
        if kind == "LEFT":
            return table.after(int(rest) - 1)
        if kind == "OPERAND":
            return operand(int(rest), byte)
        if kind == "ADDRESS":
            return REJECT if byte >= 0xC0 else operand(0, byte)
        if kind == "ZEROTH":
            return operand(int(rest), byte) if byte >> 3 & 7 == 0 else REJECT
        if kind == "SIB":
            return table.after((4 if byte & 7 == 5 else 0) + int(rest))
        return REJECT

    return table.write(row)


def direct():
    table = Table("DIRECT", [*(f"LEFT_{n}" for n in range(1, 5)), "BEHIND_0F"])

    def row(state, byte):
        kind, _, rest = state.partition("_")
        if state == "STARTING":
            return table.number("BEHIND_0F") if byte == 0x0F else table.after(DIRECT[byte]) if byte in DIRECT else REJECT
        if state == "BEHIND_0F":
            return table.after(DIRECT_BEHIND_0F[byte]) if byte in DIRECT_BEHIND_0F else REJECT
        return table.after(int(rest) - 1) if kind == "LEFT" else REJECT

    return table.write(row)


def pair():
    """83, E0 + r, E0, FF, and E0 + r or D0 + r; the register 4 is never reached."""
    table = Table("PAIR", ["NAMING", *(f"{kind}_{r}" for kind in ("MASKING", "LEAVING", "THROUGH") for r in range(8))])

    def row(state, byte):
        kind, _, rest = state.partition("_")
        if state == "STARTING":
            return table.number("NAMING") if byte == 0x83 else REJECT
        if state == "NAMING":
            return table.number(f"MASKING_{byte - 0xE0}") if 0xE0 <= byte <= 0xE7 and byte != 0xE4 else REJECT
        if kind == "MASKING":
            return table.number(f"LEAVING_{rest}") if byte == 0xE0 else REJECT
        if kind == "LEAVING":
            return table.number(f"THROUGH_{rest}") if byte == 0xFF else REJECT
        if kind == "THROUGH":
            return ACCEPT if byte in (0xE0 + int(rest), 0xD0 + int(rest)) else REJECT
        return REJECT

    return table.write(row)


HEAD = """//! The transition tables of the three patterns: a row for each state, a column for each byte. Written by tools/tables.py.

"""


def main():
    path = pathlib.Path(__file__).resolve().parent.parent / "crates" / "automata" / "src" / "tables.rt"
    path.write_text(HEAD + "".join((*pair(), *straight(), *direct())).rstrip() + "\n")


main()
