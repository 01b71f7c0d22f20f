"""Which byte strings are forms of the grammar, written from docs/grammar.md: the second opinion of the scripts beside
this one. It says the class and the length of the form at the head of some bytes, and nothing of what it means."""


def operand_length(code, at):
    """The ModRM byte at `at`, its SIB byte and its displacement: how many bytes, or None where they are cut off."""
    if at >= len(code):
        return None
    mod, rm = code[at] >> 6, code[at] & 7
    if mod == 3:
        return 1
    length = 1
    base = rm
    if rm == 4:
        if at + 1 >= len(code):
            return None
        length += 1
        base = code[at + 1] & 7
    if mod == 1:
        length += 1
    elif mod == 2 or base == 5:
        length += 4
    return length


def form(code):
    """(class, length) of the form at the head of `code`, or None."""
    found = uncut(code)
    return found if found and found[1] <= len(code) else None


def uncut(code):
    if not code:
        return None
    op = code[0]
    if op < 0x40 and op & 7 == 4:
        return "straight", 2
    if op < 0x40 and op & 7 == 5:
        return "straight", 5
    if 0x40 <= op <= 0x5F or op in (0x90, 0xF4):
        return "straight", 1
    if 0x70 <= op <= 0x7F or op == 0xEB:
        return "direct", 2
    if 0xB0 <= op <= 0xB7:
        return "straight", 2
    if 0xB8 <= op <= 0xBF:
        return "straight", 5
    if op in (0xE8, 0xE9):
        return "direct", 5
    if op == 0xC3:
        return "loose", 1
    if op == 0xCD:
        return "loose", 2
    if op == 0x0F:
        return ("direct", 6) if len(code) > 1 and 0x80 <= code[1] <= 0x8F else None
    operand = operand_length(code, 1)
    if operand is None:
        return None
    mod, reg = code[1] >> 6, code[1] >> 3 & 7
    if op < 0x40 and op & 7 < 4 or op in (0x84, 0x85, 0x88, 0x89, 0x8A, 0x8B):
        return "straight", 1 + operand
    if op in (0x80, 0x83) or op == 0xC6 and reg == 0:
        return "straight", 2 + operand
    if op == 0x81 or op == 0xC7 and reg == 0:
        return "straight", 5 + operand
    if op == 0x8D and mod != 3:
        return "straight", 1 + operand
    if op == 0x8E and mod == 3 and reg in (0, 2, 3, 4, 5):
        return "loose", 2
    if op == 0xFF and mod == 3 and reg in (2, 4):
        return "loose", 2
    return None


def has_modrm(op):
    return op < 0x40 and op & 7 < 4 or op in (0x80, 0x81, 0x83, 0x84, 0x85, 0x88, 0x89, 0x8A, 0x8B, 0x8D, 0x8E, 0xC6, 0xC7, 0xFF)
