#!/usr/bin/env python3
"""Brings the imports of lemmas and answers to the modules that today's library has for them: what Rattle.std.proofs.Common passes on comes from there, in one line.

usage: python3 tools/imports.py [FOLDER [LIBRARY]]     over FOLDER/crates (default: here); LIBRARY is the kit's folder std/proofs

Words of the logic's own modules that Common does not pass on come from Rattle.std.proofs.Math and Rattle.std.proofs.lemmas.Bool where these have them.
"""
import os
import re
import sys

USE = re.compile(r"^use (\S+?)\.\{([^}]*)\}$")
LOGIC = ("Prim.", "mathlib.", "native.", "lib.", "borrow.", "mir.", "Rattle.std.proofs.Common", "Rattle.std.specs.Prelude")
COMMON = "Rattle.std.proofs.Common"


def words(line):
    return [w.strip() for w in re.search(r"\{([^}]*)\}", line)[1].split(",")]


def passed_on(path):
    with open(path, encoding="utf-8") as f:
        return {w for line in f if line.startswith("pub use") and "{" in line for w in words(line)}


def home(module, word, tests, math):
    if module == "borrow.Author.Tests" and word in tests:
        return "Rattle.std.proofs.lemmas.Bool"
    return "Rattle.std.proofs.Math." + module.split(".")[-1] if module in math else module


def brought(lines, common, tests, math):
    taken, rest, out, at = [], {}, [], None
    for line in lines:
        m = USE.match(line)
        if not (m and m[1].startswith(LOGIC)):
            out.append(line)
            continue
        at = len(out) if at is None else at
        for word in words(line):
            where = COMMON if word in common else home(m[1], word, tests, math)
            if word not in rest.setdefault(where, []):
                rest[where].append(word)
    if at is not None:
        out[at:at] = [f"use {it}.{{{', '.join(rest[it])}}}" for it in sorted(rest, key=lambda it: it != COMMON)]
    return out


def main():
    top = sys.argv[1] if len(sys.argv) > 1 else "."
    library = sys.argv[2] if len(sys.argv) > 2 else "/opt/rattle/rattle/std/proofs"
    common, tests = passed_on(f"{library}/Common.antt"), passed_on(f"{library}/lemmas/Bool.antt")
    with open(f"{library}/Math.antt", encoding="utf-8") as f:
        math = {line.split()[2] for line in f if line.startswith("pub use") and "{" not in line}
    for folder, folders, names in os.walk(os.path.join(top, "crates")):
        folders[:] = sorted(d for d in folders if d not in ("out", "target"))
        for name in sorted(n for n in names if n.endswith(".antt") and "/proofs" in folder):
            path = os.path.join(folder, name)
            with open(path, encoding="utf-8") as f:
                old = f.read()
            new = "\n".join(brought(old.split("\n"), common, tests, math))
            if new != old:
                with open(path, "w", encoding="utf-8") as f:
                    f.write(new)


if __name__ == "__main__":
    main()
