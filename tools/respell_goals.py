#!/usr/bin/env python3
"""Brings the goals' and steps' names in the answers of proofs/ to today's spelling: a name from src/ keeps its
underscores, and a word of the check's own is in snake case. Run at the top, for the crates named."""
import glob
import os
import re
import sys

WORDS = [
    "overflow-add", "overflow-sub", "overflow-mul", "overflow-cast", "overflow-step", "nonzero-div", "nonzero-rem", "slice-bounds",
    "offset-bounds", "type-inv", "invariant-of", "in-ok", "in-err", "in-default", "deref-mut", "as-slice", "saturating-add",
    "saturating-sub", "rotate-left", "is-empty", "from-slice", "to-vec", "is-some", "is-none", "checked-add", "as-mut-slice",
    "saturating-mul", "row-known", "slice-known", "well-formed",
]


def main():
    for crate in sys.argv[1:]:
        words = {w.replace("-", "_") for w in WORDS}
        for p in glob.glob(f"crates/{crate}/src/**/*.rt", recursive=True):
            words |= set(re.findall(r"\b[A-Za-z][A-Za-z0-9]*(?:_[A-Za-z0-9]+)+\b", open(p, encoding="utf-8").read()))
        dashed = {w.replace("_", "-"): w for w in words}
        part = re.compile(r"(?<![A-Za-z0-9_'])(" + "|".join(sorted(map(re.escape, dashed), key=len, reverse=True)) + r")(?![A-Za-z0-9_'])")
        for p in glob.glob(f"crates/{crate}/proofs/**/*.antt", recursive=True):
            if os.path.basename(p) not in ("Answers.antt", "Invariants.antt"):
                continue
            t = open(p, encoding="utf-8").read()
            new = re.sub(r"[A-Za-z][\w'-]*-[\w'-]+", lambda m: part.sub(lambda w: dashed[w[1]], m[0]), t)
            if new != t:
                open(p, "w", encoding="utf-8").write(new)
                print(p)


if __name__ == "__main__":
    os.chdir(os.path.join(os.path.dirname(os.path.abspath(__file__)), ".."))
    main()
