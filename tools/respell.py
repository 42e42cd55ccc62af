#!/usr/bin/env python3
"""Brings the repository's own definitions and lemmas to the spelling of Rattle's library: words in snake case.

    tools/respell.py

Run once at the top of the repository, after the kit's port.py. It replaces each name of tools/respelled.txt, where it stands as a whole
word, in crates/ and, between backticks, in README.md and docs/. A file that imports a name of the list from the library keeps it.
"""
import glob
import pathlib
import re

here = pathlib.Path(__file__).resolve().parent
names = dict(line.split() for line in (here / "respelled.txt").read_text().splitlines())
# what an antt name is made of
word = re.compile(r"[^\s(){}\[\],.;:λ→×⊎≡≢≤<∷←↦|⌜⌝`\"+*/%^&=~!?]+")
library = re.compile(r"^\s*(?:ghost )?use (?:Rattle\.std|native|mathlib|borrow|lib|Prim|logic)\b[^{]*\{([^}]*)\}", re.M)


def respelled(text, kept=()):
    return word.sub(lambda m: m.group(0) if m.group(0) in kept else names.get(m.group(0), m.group(0)), text)


root = here.parent
for pattern in ("specs/**/*.antt", "proofs/**/*.antt", "src/*.rt", "must-fail/*.edit"):
    for path in sorted(glob.glob(str(root / "crates/*" / pattern), recursive=True)):
        text = open(path, encoding="utf-8").read()
        kept = {w for m in library.finditer(text) for w in word.findall(m.group(1))} & set(names)
        for w in sorted(kept):
            print(f"kept: {path}: {w}")
        turned = respelled(text, kept)
        if turned != text:
            open(path, "w", encoding="utf-8").write(turned)
for path in [root / "README.md", *sorted((root / "docs").glob("*.md"))]:
    if path.name.startswith("PORT"):
        continue
    text = path.read_text(encoding="utf-8")
    turned = re.sub(r"`[^`\n]*`", lambda m: respelled(m.group(0)), text)
    if turned != text:
        path.write_text(turned, encoding="utf-8")
