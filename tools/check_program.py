#!/usr/bin/env python3
"""Runs crates/volga/out/volga on lines that cannot be carried out, which `rt ci` cannot do since the status is then 1: each
answers `error line L: WHY`, the rest of the script is carried out, and the status is 1. Also: a script from standard
input, a file of bytes, and the time that a listing of 65,536 bytes takes.

    (cd crates/volga && rt run </dev/null) && tools/check_program.py"""
import os
import subprocess
import sys
import tempfile
import time

PROGRAM = "crates/volga/out/volga"
SIZES = "a size is a multiple of 256 from 256 to 1048576"
FRAMES = "a paged memory has 1 to 4096 frames"
# each line of a script, and what is wrong with it (or the answer)
LINES = [
    (b"list", "error: no module was taken yet"),
    (b"gate", "error: no module was taken yet"),
    (b"gate 4 4", "error: no module was taken yet"),
    (b"marks", "error: no module was judged yet"),
    (b"row", "error: not a number"),
    (b"row 64", "error: not a number"),
    (b"row 64 x", "error: not a number"),
    (b"row 64 1 1", "error: too many words"),
    (b"row 4294967296 0", "error: a number above 4294967295"),
    (b"gate 4", "error: not a number"),
    (b"gate 1048577 4", "error: a marks buffer has at most 1048576 bytes"),
    (b"marks all", "error: too many words"),
    (b"bytes 0 4", "error: no memory was made yet"),
    (b"memory", "error: a memory is flat or paged"),
    (b"memory round 256", "error: a memory is flat or paged"),
    (b"memory flat", "error: not a number"),
    (b"memory flat 256 1", "error: too many words"),
    (b"memory paged 256", "error: not a number"),
    (b"memory paged 256 1 1", "error: too many words"),
    (b"bytes 0 0", "error: no memory was made yet"),
    (b"frobnicate 1 2", "error: unknown command"),
    (b"modules 90", "error: unknown command"),
    (b"module 9", "error: an odd number of hexadecimal digits"),
    (b"module 90 9", "error: an odd number of hexadecimal digits"),
    (b"module 9g", "error: a character that is no hexadecimal digit"),
    (b"module 0x90", "error: a character that is no hexadecimal digit"),
    (b"module *3", "error: a character that is no hexadecimal digit"),
    (b"module 90*", "error: not a number"),
    (b"module 90*0x", "error: not a number"),
    (b"module 90*3*3", "error: not a number"),
    (b"module 90*4294967296", "error: a number above 4294967295"),
    (b"module 90*99999999999999999999999999", "error: a number above 4294967295"),
    (b"module 90*4294967295", "error: too long, a module has at most 1048576 bytes"),
    (b"module 90*1048577", "error: too long, a module has at most 1048576 bytes"),
    (b"module @", "error: no path after @"),
    (b"module @/no/such/file", "error: the file cannot be read"),
    (b"module @\xff\xfe", "error: the file cannot be read"),
    (b"module @/dev/zero", "error: too long, a module has at most 1048576 bytes"),
    (b"list all", "error: too many words"),
    (b"\xff\xfe\x00\x80", "error: unknown command"),
    (b"module \xc3\x28", "error: a character that is no hexadecimal digit"),
    (b"x" * 100000, "error: unknown command"),
    (b"module " + b"9" * 99993, "error: an odd number of hexadecimal digits"),
    (b"module " + b"90" * 49997, "module 49997 bytes"),
    (b"module", "module 0 bytes"),
    (b"list", "refused 1"),
    (b"gate", "refused 1"),
    (b"marks", "starts \ntargets "),
    (b"module 81C401020304*5 90*0 F4*0x2 # a comment", "module 32 bytes"),
    (b"list\r", "".join(f"{6 * i} straight 81c401020304: add    esp,0x4030201\n" for i in range(5)) + "30 straight f4: hlt\n31 straight f4: hlt\nend 32"),
    (b"gate 0x3 4", "refused 2"),
    (b"marks", "starts ffffff\ntargets ffffffff"),
    (b"gate", "passed"),
    (b"marks", "starts 411004c1\ntargets 00000000"),
    (b"row 0x40 1", "row 64 1"),
    (b"\t module\tEbFe 0F84fBfFffff*0x5 \t", "module 32 bytes"),
    (b"list", "0 direct ebfe: jmp    0x0\n" + "".join(f"{2 + 6 * i} direct 0f84fbffffff: je     {3 + 6 * i:#x}\n" for i in range(5)) + "end 32"),
    (b"gate", "refused 7 at 3"),
    (b"memory flat 512", "memory flat 512"),
    (b"bytes 0 0x10", "bytes " + "00" * 16),
    (b"bytes 510 2", "bytes 0000"),
    (b"bytes 510 4", "refused 11 at 512"),
    (b"bytes 4294967295 1", "refused 11 at 4294967295"),
    (b"bytes 4294967295 0", "bytes "),
    (b"bytes 0 65537", "error: at most 65536 bytes are shown"),
    (b"bytes 0 65536", "refused 11 at 512"),
    (b"memory paged 1048576 4096", "memory paged 1048576 4096"),
    (b"bytes 983040 65536", "bytes " + "00" * 65536),
    (b"memory paged 256 5", "memory paged 256 5"),
    (b"bytes 255 2", "refused 11 at 256"),
    (b"memory flat x", "error: not a number"),
    (b"bytes 255 1", "bytes 00"),
    (b"memory flat 0x200", "memory flat 512"),
    (b"bytes 511 1", "bytes 00"),
    (b"memory paged 0 0", f"refused 10: {SIZES}\nmemory 256"),
]
for unfit in (0, 100, 255, 257, 1048832, 4294967295):
    LINES.append((b"memory flat %d" % unfit, f"refused 10: {SIZES}\nmemory 256"))
    LINES.append((b"memory paged %d 1" % unfit, f"refused 10: {SIZES}\nmemory 256"))
for unfit in (0, 4097, 4294967295):
    LINES.append((b"memory paged 512 %d" % unfit, f"refused 10: {FRAMES}\nmemory 256"))
    LINES.append((b"bytes 255 1", "bytes 00"))
    LINES.append((b"bytes 256 1", "refused 11 at 256"))


# what crates/volga/data/memory.volga answers, by docs/memory.md
SHOWN = f"refused 10: {SIZES}\nmemory 256\nbytes 00000000\nmemory flat 512\nbytes 0000\nrefused 11 at 512\nmemory paged 512 1\nbytes 00000000\n"


def run(argument, script):
    done = subprocess.run([PROGRAM, *argument], input=script, capture_output=True)
    return done.returncode, done.stdout.decode()


def check(what, found, wanted):
    if found != wanted:
        print(f"{what}\nfound  {found!r}\nwanted {wanted!r}")
        sys.exit(1)


def main():
    script = b"\n".join(line for line, _ in LINES)
    wanted = ""
    for number, (_, answer) in enumerate(LINES, 1):
        wanted += answer.replace("error:", f"error line {number}:") + "\n"
    check("standard input", run([], script), (1, wanted))
    with tempfile.TemporaryDirectory() as folder:
        path = os.path.join(folder, "script")
        with open(path, "wb") as file:
            file.write(script)
        check("a script in a file", run([path], b""), (1, wanted))
        image = os.path.join(folder, "image")
        with open(image, "wb") as file:
            file.write(bytes(range(0x40, 0x60)))
        status, answer = run([], f"module @{image}\nlist\n".encode())
        check("a module in a file", (status, answer.splitlines()[0], answer.splitlines()[-1]), (0, "module 32 bytes", "end 32"))
    check("the script about a memory", run(["crates/volga/data/memory.volga"], b""), (0, SHOWN))
    check("a script that is not there", run(["/no/such/script"], b""), (1, ""))
    long = (b"90*65536", b"83e0e0ffe0*13107 90", b"81840801020304aabbccdd*5957 90*9")
    for module in long:
        start = time.time()
        status, answer = run([], b"module " + module + b"\nlist\ngate\n")
        check("a long module", (status, answer.splitlines()[-2][:4], time.time() - start < 1), (0, "end ", True))
    print(f"volga: {len(LINES)} lines and {len(long)} long modules answered as they should")


main()
