"""Counts in crates/*/src the places that docs/DESIGN-PASS.md speaks of, by rules over the text.

    python3 tools/design_counts.py        the counts
    python3 tools/design_counts.py -v     each place too
"""
import collections
import pathlib
import re
import sys

ROOT = pathlib.Path(__file__).resolve().parent.parent
FUNCTION = re.compile(
    r"(?P<said>(?:^ *//[^\n]*\n)*)^(?P<in> *)(?:#\[[^\n]*\]\n *)?(?:pub(?:\(crate\))? )?(?:extern \"C\" )?fn (?P<name>\w+)[^({]*"
    r"\((?P<takes>[^)]*)\)(?P<rest>.*?)^(?P=in)\{?(?P<body>.*?)^(?P=in)\}", re.S | re.M)
NOTHING = re.compile(r"\b0[,;:]? (?:if|where|for|when)\b|\bor 0\b|else 0\b|, 0 if|the end 0|: 0 idle")
REFUSAL = re.compile(r"\b(?:return )?(?:1[0-9]|2[0-6]|3[0-2]|5[0-5])[;,\n]")


def files():
    for path in sorted((ROOT / "crates").glob("*/src/**/*.rt")):
        text = "\n".join(l for l in path.read_text().split("\n") if "ghost use" not in l)
        yield str(path.relative_to(ROOT / "crates")), text


def functions(text):
    for m in FUNCTION.finditer(text):
        gives = re.search(r"->\s*([^\s{][^\n{]*)", m["rest"].split("ensures")[0].split("requires")[0])
        yield m["name"], " ".join(m["takes"].split()), gives[1].strip() if gives else "", " ".join(m["said"].split()), m["body"]


def places():
    found = collections.defaultdict(list)
    names = collections.defaultdict(set)
    asked = collections.defaultdict(list)
    for path, text in files():
        crate = path.split("/")[0]
        for m in re.finditer(r"enum (\w+)[^{]*\{\n(.*?)\n\}", text, re.S):
            variants = re.findall(r"^    (\w+)", m[2], re.M)
            if "Nothing" in variants or (len(variants) == 2 and re.search(r"[({]", m[2])):
                found["1a own enums of the shape of Option or Result"].append((path, m[1]))
        for m in re.finditer(r"(derive\([^)]*\)\]\n)?(?:pub(?:\(crate\))? )?(struct|enum) (\w+)", text):
            names["type " + m[3]].add(crate)
            if "PartialEq" not in (m[1] or ""):
                found["4a types whose equality is not derived"].append((path, m[3]))
        for m in re.finditer(r"struct (\w+)[^{;]*\{\n(.*?)\n\}", text, re.S):
            for field in re.findall(r"(\w+): bool", m[2]):
                found["1b flags in structs"].append((path, m[1] + "." + field))
            for field in re.findall(r"\b(number|fault): u32", m[2]):
                found["1c numbers for refusals in structs"].append((path, m[1] + "." + field))
        for m in re.finditer(r"^ *(while|loop)\b([^\n]*)\{$", text, re.M):
            found["3 " + m[1] + " loops"].append((path, m[2].strip()))
        for clause in re.findall(r"requires (?:\w+ )?\{ (.*?) \}\n", text):
            asked[clause].append(path)
        for name, takes, gives, said, body in functions(text):
            names["fn " + name].add(crate)
            if gives in ("u32", "u64", "usize") and (NOTHING.search(said) or REFUSAL.search(body)):
                found["1d functions that answer by a number for a refusal, a kind or nothing"].append((path, name))
            if re.search(r"_20[dc]$", name):
                found["2a functions of one edition"].append((path, name))
            if "The same" in said:
                found["2b functions that say 'the same' of another"].append((path, name))
            arms = re.fullmatch(r"\s*match \w+ \{((?:\s*[\w:| ]+(?:\{ \.\. \})? => \w+,)+)\s*\}\s*", body)
            if gives == "bool" and arms:
                found["4b matches written for an equality"].append((path, name))
            if "y: Syntax" in takes and "d: &" in takes:
                found["5a functions that take service characters and bytes"].append((path, name))
            if re.search(r"\b(start|a|from|place): usize, (end|e|b|to|limit): usize", takes):
                found["5b functions that take the two places of a part"].append((path, name))
    for name, crates in names.items():
        if len(crates) > 1 and name not in ("fn main", "fn new"):
            found["2c names that stand in more than one crate"].append((", ".join(sorted(crates)), name))
    for clause, where in asked.items():
        if len(where) > 2:
            found["5c clauses that three functions or more ask for"].append((f"{len(where)} times", clause))
    return found


def main():
    found = places()
    for point in sorted(found):
        print(f"{point}: {len(found[point])}")
        if "-v" in sys.argv:
            for where, what in found[point]:
                print(f"    {where}  {what}")


main()
