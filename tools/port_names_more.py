#!/usr/bin/env python3
"""The names that tools/port_names.py did not see, since their type stands on the line below or they are parts of a `where`: every word in lower
camel case that is left in specs/, proofs/, the clauses and the edits becomes snake case.

usage: python3 tools/port_names_more.py ROOT   (once, after tools/port_names.py)"""
import glob, re, sys

root = sys.argv[1] if len(sys.argv) > 1 else "."
CAMEL = re.compile(r"(?<![A-Za-z0-9_'-])[a-z][a-z0-9]+[A-Z][A-Za-z0-9]*(?![A-Za-z0-9_])")
snake = lambda m: re.sub(r"([A-Z])", lambda c: "_" + c.group(1).lower(), m.group(0))
paths = [p for end in ("specs/**/*.antt", "proofs/**/*.antt", "src/**/*.rt", "must-fail/*.edit")
         for p in sorted(glob.glob(f"{root}/crates/*/{end}", recursive=True))]
texts = {p: open(p, encoding="utf-8").read() for p in paths}
words = {w for t in texts.values() for w in re.findall(r"[^\s(){}.;,@\"«»\[\]\\]+", t)}
for old in sorted({m.group(0) for t in texts.values() for m in CAMEL.finditer(t)}):
    new = re.sub(r"([A-Z])", lambda c: "_" + c.group(1).lower(), old)
    print(f"{old} -> {new}" + (" (a word already)" if new in words else ""))
for path, text in texts.items():
    new = CAMEL.sub(snake, text)
    if new != text:
        with open(path, "w", encoding="utf-8") as f:
            f.write(new)
