#!/usr/bin/env python3
"""Lays each theorem and lemma of another checkout's specs/ and proofs/ beside the one of its name here.

    python3 tools/design/theorems.py OLD [NAMES]      at the top of the repository; OLD is a checkout of the other commit

Prints those marked `pub` whose statement differs and those that are gone; with a file NAMES only those whose name stands in
that file.
Definitions are laid side by side by `python3 /opt/rattle/port/port.py contracts COMMIT`.
"""
import os
import re
import sys

sys.path.insert(0, os.path.join(os.path.dirname(os.path.abspath(__file__)), "..", "port"))
from compare import read  # noqa: E402

def statements(root, crate):
    out = {}
    for folder in ("specs", "proofs"):
        for name, xs in read(root, crate, folder).items():
            for kind, sig, _, path in xs:
                text = open(f"{root}/crates/{path}", encoding="utf-8").read()
                if kind == "thm" and re.search(r"^pub " + re.escape(name) + r"\s", text, re.M):
                    out.setdefault(name, []).append((sig, path))
    return out

def main():
    old = sys.argv[1]
    named = open(sys.argv[2], encoding="utf-8").read() if len(sys.argv) > 2 else None
    wanted = set(re.findall(r"[^\s(){}\[\];,.:\"`|]+", named)) if named else None
    same = 0
    changed, gone = [], []
    for crate in sorted(os.listdir(old + "/crates")):
        then, now = statements(old, crate), statements(".", crate) if os.path.isdir("crates/" + crate) else {}
        for name, xs in sorted(then.items()):
            for sig, path in xs:
                here = now.get(name, [])
                if any(sig == s for s, _ in here):
                    same += 1
                elif wanted is not None and name not in wanted:
                    continue
                elif here:
                    changed.append((path, name, sig, here[0][0]))
                else:
                    gone.append((path, name, sig))
    print(f"{same} the same, {len(changed)} changed, {len(gone)} gone")
    for path, name, before, after in changed:
        print(f"changed: {path} {name}\n    - {before}\n    + {after}")
    for path, name, sig in gone:
        print(f"gone: {path} {name}\n    - {sig}")

main()
