#!/usr/bin/env python3
"""snake: brings this repository's own definitions to snake case, in the sources, definitions, proofs and must-fail edits of crates/.

usage: python3 tools/snake.py [TOP]     once, after the kit's port.py

A definition, a field, a case or a variable that was written like dataSize becomes data_size; types and modules keep their capitals. A lemma that a definition's
new name falls together with, in one file, takes _lem. Nothing is imported: words in camel case that begin small are this repository's alone.
"""
import pathlib
import re
import sys

LEMMAS = {  # file below crates/, the lemma's name there
    "history/proofs/AddEntry.antt": "no_value",
    "finding/proofs/Passing.antt": "walked_from",
    "names/proofs/OrderLaws.antt": "same_bytes",
}
CAMEL = re.compile(r"(?<![\w'-])[a-z][a-z0-9]*(?:[A-Z][a-z0-9]*)+(?![a-zA-Z])")
HUMP = re.compile(r"(?<=[a-z0-9])[A-Z]")


def snake(word):
    return HUMP.sub(lambda hump: "_" + hump[0].lower(), word[0])


def main():
    top = pathlib.Path(sys.argv[1] if len(sys.argv) > 1 else ".") / "crates"
    for path in sorted(top.rglob("*")):
        if path.suffix not in (".rt", ".antt", ".edit") or "out" in path.parts:
            continue
        old = path.read_text()
        lemma = LEMMAS.get(str(path.relative_to(top)))
        text = re.sub(rf"(?<![\w'-]){lemma}(?![\w'-])", lemma + "_lem", old) if lemma else old
        text = CAMEL.sub(snake, text)
        if text != old:
            path.write_text(text)


main()
