"""A second gate, to compare ours with: it is written from docs/gate.md and docs/grammar.md alone and shares nothing with
ours or with tools/grammar.py. It is plain and slow. tools/compare_gates.py runs both over random images."""

LONGEST = 11


def operand(code):
    """The bytes that the ModRM byte at code[1], its SIB byte and its displacement take."""
    mod, rm = code[1] >> 6, code[1] & 7
    if mod == 3:
        return 1
    sib = rm == 4
    if mod == 1:
        displacement = 1
    elif mod == 2:
        displacement = 4
    else:
        displacement = 4 if rm == 5 or (sib and code[2] & 7 == 5) else 0
    return 1 + sib + displacement


def pair(code):
    """5 if a pair stands at the beginning, else 0."""
    mask, jump = code[1], code[4]
    masks = code[0] == 0x83 and 0xE0 <= mask <= 0xE7 and mask != 0xE4 and code[2] == 0xE0
    jumps = code[3] == 0xFF and jump in (mask, mask - 0x10)
    return 5 if masks and jumps else 0


def straight(code):
    """The length of the straight form that stands at the beginning, else 0."""
    op = code[0]
    mod, reg = code[1] >> 6, code[1] >> 3 & 7
    if op <= 0x3F:
        if op & 7 <= 3:
            return 1 + operand(code)
        if op & 7 == 4:
            return 2
        if op & 7 == 5:
            return 5
        return 0
    if op <= 0x5F or op == 0x90 or op == 0xF4:
        return 1
    if op == 0x80 or op == 0x83:
        return 1 + operand(code) + 1
    if op == 0x81:
        return 1 + operand(code) + 4
    if op in (0x84, 0x85, 0x88, 0x89, 0x8A, 0x8B):
        return 1 + operand(code)
    if op == 0x8D and mod != 3:
        return 1 + operand(code)
    if 0xB0 <= op <= 0xB7:
        return 2
    if 0xB8 <= op <= 0xBF:
        return 5
    if op == 0xC6 and reg == 0:
        return 1 + operand(code) + 1
    if op == 0xC7 and reg == 0:
        return 1 + operand(code) + 4
    return 0


def direct(code):
    """The length and the displacement of the direct form that stands at the beginning, else 0 and 0."""
    op = code[0]
    if op == 0xEB or 0x70 <= op <= 0x7F:
        return 2, int.from_bytes(code[1:2], "little", signed=True)
    if op == 0xE8 or op == 0xE9:
        return 5, int.from_bytes(code[1:5], "little", signed=True)
    if op == 0x0F and 0x80 <= code[1] <= 0x8F:
        return 6, int.from_bytes(code[2:6], "little", signed=True)
    return 0, 0


def walk(image, entries, begun, aimed):
    """Adds the starts to begun and the direct targets below n to aimed, up to the end or the first refusal."""
    n = len(image)
    at = 0
    while at < n:
        # The zeros stand for what is cut off: a length counts every byte it was found by, so such a form ends above n.
        code = image[at : at + LONGEST].ljust(LONGEST, b"\0")
        displacement = None
        length = pair(code) or straight(code)
        if length == 0:
            length, displacement = direct(code)
        if length == 0 or at + length > n:
            return 4, at
        if displacement is not None:
            target = (at + length + displacement) % 2**32
            if target < n:
                aimed.add(target)
            elif target not in entries:
                return 5, at
        begun.add(at)
        at += length
    return 0, None


def agree(n, begun, aimed):
    """The checks 6 and 7, for a walk that came to n."""
    for at in range(n):
        if at % 32 == 0 and at not in begun:
            return 6, at
        if at in aimed and at not in begun:
            return 7, at
    return 0, None


def mark(buffer, n, addresses):
    buffer[: n // 8] = bytes(n // 8)
    for at in addresses:
        buffer[at // 8] |= 1 << at % 8


def judge(image, base, count, starts, targets):
    """The number of the verdict (0 for a pass) and its address or None; leaves the marks in the two bytearrays."""
    n = len(image)
    if n == 0 or n > 65536 or n % 32 != 0:
        return 1, None
    if len(starts) < n // 8 or len(targets) < n // 8:
        return 2, None
    if count > 64 or base < n or base % 32 != 0 or base + 32 * count > 2**32:
        return 3, None
    begun, aimed = set(), set()
    number, address = walk(image, {base + 32 * j for j in range(count)}, begun, aimed)
    if number == 0:
        number, address = agree(n, begun, aimed)
    mark(starts, n, begun if number == 0 else [])
    mark(targets, n, aimed if number == 0 else [])
    return number, address
