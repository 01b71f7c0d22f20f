#!/usr/bin/env python3
"""Gives this repository's definitions and lemmas the library's spelling: words joined by underscores.

usage: tools/snake_names.py [ROOT]

Run once, right after the toolchain's own script for a newer Rattle, which respells only the names that the library had
too. tools/snake_names.tsv has a line for each name: old, new. Names that would fall together with another's got a word
more: a lemma `_lem`, a definition `_of`. Strings, the names of functions and what the check itself names stay.
"""
import pathlib
import re
import sys

HERE = pathlib.Path(__file__).resolve().parent
ROOT = pathlib.Path(sys.argv[1] if len(sys.argv) > 1 else HERE.parent)
NAMES = dict(line.split("\t") for line in (HERE / "snake_names.tsv").read_text().splitlines())
# a string, a comment, or a name with what stands right before it
PIECE = re.compile(r'"(?:[^"\\\n]|\\.)*"|--[^\n]*|(?:(?<=\.)|(?<![^\s(){}\[\].;,@|`«»]))[^\s(){}\[\].;,@"|`«»]+')
# lemmas that are cited as a field or by their module; other names with a dash behind a dot are the check's own
CITED = {"all-bytes", "all-pages", "classes-apart", "refused-same"}
WORD = re.compile(r'"(?:[^"\\\n]|\\.)*"|\b[a-z]\w*\b')


def antt(text):
    def one(m):
        piece = m.group(0)
        if piece.startswith('"'):
            return piece
        if piece.startswith("--"):
            return re.sub(r"\b[a-z]+[A-Z]\w*", lambda w: NAMES.get(w.group(0), w.group(0)), piece)
        field = m.start() > 0 and text[m.start() - 1] == "."
        if field and "-" in piece and piece not in CITED:
            return piece
        return NAMES.get(piece, piece)

    text = PIECE.sub(one, text)
    # the one lemma that an earlier script respelled into a definition's name
    return re.sub(r"(?<![\w.-])of_pair(?= : \(a b c| a b c n e| \(pair_length_of)", "of_pair_lem", text)


def source(text):
    return WORD.sub(lambda m: NAMES.get(m.group(0), m.group(0)) if not m.group(0).startswith('"') else m.group(0), text)


for path in sorted(ROOT.glob("crates/*/**/*")):
    if path.suffix not in (".rt", ".antt") or "out" in path.relative_to(ROOT).parts[2:3]:
        continue
    before = path.read_text()
    after = antt(before) if path.suffix == ".antt" else source(before)
    if after != before:
        path.write_text(after)
