#!/usr/bin/env python3
"""Names, in each must-fail edit, the file where each of its pairs now stands: a theorem's text may have moved from specs/ to proofs/.

usage: python3 tools/port/refile_edits.py      at the top of the repository. Prints what stands nowhere, or more than once.
"""
import glob, os

for path in sorted(glob.glob("crates/*/must-fail/*.edit")):
    crate = os.path.dirname(os.path.dirname(path))
    lines = open(path, encoding="utf-8").read().rstrip("\n").split("\n")
    out, file, said, now = [], None, None, {}
    read = lambda f: now.get(f) if f in now else (open(os.path.join(crate, f), encoding="utf-8").read() if os.path.exists(os.path.join(crate, f)) else "")
    moved = {}
    for i, l in enumerate(lines):
        if l.startswith("file: "):
            file = l[6:].strip()
        elif l.startswith("old: "):
            old, new = l[5:], lines[i + 1][5:]
            place = [f for f in (file, file.replace("specs/", "proofs/", 1), file.replace("specs/", "proofs/", 1)[:-5] + "Laws.antt", file[:-3] + ".rt") if read(f).count(old) == 1]
            at = place[0] if place else file
            if not place: print(path, file, "stands", [read(f).count(old) for f in (file, file.replace("specs/", "proofs/", 1))], old[:90])
            else: now[at] = read(at).replace(old, new)
            if at != said: out.append("file: " + at); said = at
            out.append(l)
        else:
            out.append(l)
    open(path, "w", encoding="utf-8").write("\n".join(out) + "\n")
