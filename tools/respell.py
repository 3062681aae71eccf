#!/usr/bin/env python3
"""Brings the repository's own names in specs/ and proofs/ to today's spelling: types in upper camel case, all else in
snake case, with a dash left only between two words of std in a lemma's name. Run once, at the top, after port.py.
Functions of src/, the goals that the check names, and strings keep their names. It says which names fall together."""
import glob
import os
import re
import sys

DEFINED = re.compile(r"^(\s*)((?:pub |abbrev |unfoldable |record |data )*)([^\s(){}:=,;.→λ?]+)(?: \([^)]*\))* :(?=\s|$)")
STD = {"length", "append", "drop", "take", "get_or", "map", "set", "remove", "range_with_len", "reverse"}
# these would be named as a case of an enum or a module of src/
OTHERWISE = {
    "Number-bounds": "InNumberBounds",
    "Ring-bounds": "InRingBounds",
    "Pace-bounds": "InPaceBounds",
    "No-room": "HasNoRoom",
    "list-order": "order_of_list",
}


def texts(*ends):
    for end in ends:
        yield from sorted(glob.glob(f"crates/*/**/{end}", recursive=True))


def own(path):
    return "/out/" not in path


def spelled(name):
    if name in OTHERWISE:
        return OTHERWISE[name]
    if name[0].isupper():
        return "".join(p[:1].upper() + p[1:] for p in name.split("-"))
    parts = name.split("-")
    out = parts[0]
    for before, after in zip(parts, parts[1:]):
        out += ("-" if before in STD and after in STD else "_") + after
    return out


def main():
    names = {}
    for path in texts("specs/**/*.antt", "proofs/**/*.antt"):
        if not own(path) or path.endswith("Invariants.antt"):
            continue
        for line in open(path, encoding="utf-8"):
            line = re.sub(r"--.*", "", line)
            m = DEFINED.match(line)
            if m and "-" in m[3] and re.search(r"\w", m[3]) and ": goal." not in line:
                names[m[3]] = spelled(m[3])
    names = {a: b for a, b in names.items() if a != b}
    files = [p for p in texts("*.antt", "*.rt", "*.edit") if own(p)]
    before = {p: open(p, encoding="utf-8").read() for p in files}
    word = re.compile(r"(?<![\w'◌-])(" + "|".join(sorted(map(re.escape, names), key=len, reverse=True)) + r")(?![\w'◌-])")
    taken = set()
    for t in before.values():
        taken |= set(re.findall(r"[\w'◌-]+", t))
    back = {}
    for a, b in names.items():
        if b in taken:
            print(f"falls together with a name that stands: {a} -> {b}")
        if b in back:
            print(f"fall together: {a} and {back[b]} -> {b}")
        back[b] = a
    if "--dry" in sys.argv:
        return
    for p, t in before.items():
        new = word.sub(lambda m: names[m[1]], t)
        if new != t:
            open(p, "w", encoding="utf-8").write(new)
    for p in glob.glob("docs/*.md") + ["README.md"]:
        t = open(p, encoding="utf-8").read()
        new = re.sub(r"`[^`\n]*`", lambda m: word.sub(lambda w: names[w[1]], m[0]), t)
        if new != t:
            open(p, "w", encoding="utf-8").write(new)
    print(f"{len(names)} names respelled")


if __name__ == "__main__":
    os.chdir(os.path.join(os.path.dirname(os.path.abspath(__file__)), ".."))
    main()
