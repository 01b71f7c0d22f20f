"""What GNU objdump makes of byte strings, for the scripts beside this one."""
import re
import subprocess
import tempfile

# A slot ends in so many NOPs that any instruction begun in it ends there: the next slot begins with an instruction.
SLOT = 32
MOST = 15
LINE = re.compile(r"^\s*([0-9a-f]+):\t((?:[0-9a-f]{2} )+) *(?:\t(.*))?$")


def disassemble(codes):
    """For each byte string the length and text of the first instruction, and the address that objdump saw it at, from one
    run of objdump."""
    blob = b"".join(code + b"\x90" * (SLOT - len(code)) for code in codes)
    assert all(len(code) <= MOST for code in codes)
    with tempfile.NamedTemporaryFile() as file:
        file.write(blob)
        file.flush()
        run = subprocess.run(
            ["objdump", "-D", "-z", "-b", "binary", "-m", "i386", "-M", "intel", "--insn-width=16", file.name],
            capture_output=True,
            text=True,
            check=True,
        )
    answers = [None] * len(codes)
    for line in run.stdout.splitlines():
        match = LINE.match(line)
        if not match:
            continue
        at = int(match.group(1), 16)
        if at % SLOT == 0:
            answers[at // SLOT] = (len(match.group(2).split()), (match.group(3) or "").rstrip(), at)
    assert all(answer is not None for answer in answers)
    return answers
