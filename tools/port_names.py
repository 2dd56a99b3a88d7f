#!/usr/bin/env python3
"""Brings the repository's own definitions and lemmas to today's spelling, once, right after the toolchain's port.py.

usage: python3 tools/port_names.py ROOT

Words are in snake case: `firstByte` becomes `first_byte`. A dash joins two names, so it stays where both neighbours name a definition, as in
`segments-append`; a plain word is joined by an underscore, so `begins-short` becomes `begins_short`. Types, modules, facts and the names of
src/ keep their spelling. Names that would fall together with another keep their dash, and are printed. Files are rewritten in place, must-fail
edits too: run it once."""
import collections, glob, os, re, sys

root = sys.argv[1] if len(sys.argv) > 1 else "."
WORD = r"[^\s(){}.;,@\"«»\[\]\\]+"
MARKS = r"(?:abbrev +|unfoldable +|pub +)*"
HEAD = re.compile(r"^ *" + MARKS + r"(record +|data +)?(" + WORD + r")( :( |$)|$| where)")
KIND = re.compile(r"^ *" + MARKS + r"(record +|data +)(" + WORD + r")( |$)")
WORDS_OF_STD = set(
    "append cons nil zero suc pred add sub mul div mod le lt eq eqb leb ltb true false and or not cond length take drop get_or set replicate map "
    "reverse absurd refl sym ap subst head tail min max pow".split())
OWN_WORDS = ("overflow", "nonzero", "bounds", "returns", "loop", "invariant", "decreases")


def files(*ends):
    for end in ends:
        yield from sorted(glob.glob(f"{root}/crates/*/{end}", recursive=True))


def read(path):
    with open(path, encoding="utf-8") as f:
        return f.read()


def is_proof(path):
    return os.path.basename(path) in ("Proof.antt", "Answers.antt", "Invariants.antt")


def declared():
    """Each declared name with whether it is a definition (of specs/, a type, a constructor) and not a lemma."""
    found, definitions = set(), set()
    for path in files("specs/**/*.antt", "proofs/**/*.antt"):
        if is_proof(path):
            continue
        lines = read(path).split("\n")
        for i, line in enumerate(lines):
            m = HEAD.match(line) or KIND.match(line)
            if not m or m.group(2) in ("where", "module", "use", "unfolding") or m.group(2).startswith("--"):
                continue
            if m.group(3) == "" and not (i + 1 < len(lines) and re.match(r"^ *: ", lines[i + 1])):
                continue
            found.add(m.group(2))
            if "/specs/" in path or m.group(1):
                definitions.add(m.group(2))
    return found, definitions


def of_others():
    """Names that the files import from libraries other than this repository's."""
    names = set()
    own = {os.path.basename(c) for c in glob.glob(f"{root}/crates/*")}
    for path in files("specs/**/*.antt", "proofs/**/*.antt", "src/**/*.rt"):
        for m in re.finditer(r"(?m)^(?:ghost )?use ([^\s{;]+)\.\{([^}]*)\}", read(path)):
            parts = m.group(1).split(".")
            if parts[0] == "Rattle" and len(parts) > 1 and parts[1] in own:
                continue
            names |= {it.split(" as ")[0].strip() for it in m.group(2).split(",")}
    return names


def snake(word):
    if not word[:1].islower():
        return word
    word = re.sub(r"(?<=[a-z0-9])([A-Z])(?=[a-z0-9_]|$)", lambda m: "_" + m.group(1).lower(), word)
    return re.sub(r"(?<=[a-z0-9])([A-Z])", lambda m: "_" + m.group(1), word)


def new_name(old, known, is_definition):
    parts = [snake(it) for it in old.split("-")]
    out = parts[0]
    for before, part in zip(parts, parts[1:]):
        stays = not is_definition and before in known and part in known or not before or not part or before[-1:] in "<≤≢≡+*/"
        out += ("-" if stays else "_") + part
    return out


def keep_apart(found, others, tokens, renamed):
    """Where two names would be one, the lemma keeps its dash (or gets it back) and the definition gets the plain word."""
    taken = collections.defaultdict(list)
    for old in found | others:
        taken[renamed.get(old, old)].append(old)
    for new, olds in sorted(taken.items()):
        if len(olds) > 1:
            definition = [it for it in olds if re.search(r"[a-z0-9][A-Z]", it)]
            for old in olds:
                if old in definition[:1] or old in others:
                    continue
                if not definition:
                    renamed.pop(old, None)
                    continue
                apart = old if "-" in old else "-".join(old.split("_"))
                renamed.pop(old, None)
                if apart != old:
                    renamed[old] = apart
            print(f"apart: {', '.join(f'{it} -> {renamed.get(it, it)}' for it in sorted(olds))}")
        elif "-" in olds[0] and olds[0] in renamed and new in tokens:
            del renamed[olds[0]]
            print(f"apart: {olds[0]} keeps its dash, {new} is a name already")
    both = collections.Counter(renamed.get(it, it) for it in found | others)
    for name, n in both.items():
        if n > 1:
            sys.exit(f"{name} would be {n} names")


def main():
    found, definitions = declared()
    others = of_others()
    known = {snake(it) for it in definitions} | WORDS_OF_STD | {it for it in others if "-" not in it}
    renamed = {}
    for old in sorted(found):
        if "◌" in old or old in others or old.split("-")[0] in OWN_WORDS:
            continue
        new = new_name(old, known, old in definitions)
        if new != old:
            renamed[old] = new
    tokens = set()
    for path in files("specs/**/*.antt", "proofs/**/*.antt"):
        tokens |= set(re.findall(WORD, read(path)))
    keep_apart(found, others, tokens, renamed)
    pattern = re.compile(WORD)
    changed = 0
    for path in files("specs/**/*.antt", "proofs/**/*.antt", "src/**/*.rt", "must-fail/*.edit"):
        text = read(path)
        if path.endswith(".rt"):
            new = clauses(text, pattern, renamed)
        else:
            new = pattern.sub(lambda m: renamed.get(m.group(0), m.group(0)), text)
        if new != text:
            changed += 1
            with open(path, "w", encoding="utf-8") as f:
                f.write(new)
    print(f"{len(renamed)} names, {changed} files")


def clauses(text, pattern, renamed):
    """Only the `ghost use` items and the clauses of a source file speak of these names."""
    def turned(m):
        return pattern.sub(lambda w: renamed.get(w.group(0), w.group(0)), m.group(0))
    text = re.sub(r"(?m)^ *ghost use [^;]*;", turned, text)
    return re.sub(r"(?ms)^ +(?:requires|ensures|ghost)\b[^\n]*?\{.*?\}(?=\n)", turned, text)


main()
