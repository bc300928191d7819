#!/usr/bin/env python3
"""Lays each declaration of an older checkout's specs/ beside the one of its name in this checkout's specs/ and proofs/.

usage: python3 tools/port/compare.py OLD [--moved]     at the top of the repository; OLD has today's spelling (port.py and respell.py)

Without --moved: prints definitions whose text differs, theorems whose statement differs, and names that are nowhere.
With --moved: prints the statement of each theorem that stands in proofs/ now, file by file.
"""
import glob, os, re, sys

WORD = r"[^\s(){}\[\];,.:\"`⌜⌝@⟨⟩]+"

def squeeze(t):
    t = re.sub(r"--.*", "", t)
    t = re.sub(r"\bpub\b|\babbrev\b|\bunfoldable\b", " ", t)
    return re.sub(r"\s+", " ", t).strip()

def declared(text):
    """name -> (kind, statement, whole); names below a module block are found too"""
    out = {}
    lines = text.split("\n")
    i = 0
    while i < len(lines):
        l = lines[i]
        m = re.match(r"(\s*)((?:(?:pub|abbrev|unfoldable)\s+)*)(record|data)?\s*(?:pub\s+)?(" + WORD + r")\s*((?:[({][^:]*:.*[)}]\s*)*):\s", l)
        m2 = re.match(r"(\s*)(?:pub\s+)?(record|data)\s+(?:pub\s+)?(" + WORD + ")", l)
        if l.lstrip().startswith("--") or not (m or m2):
            i += 1; continue
        indent = len((m2 or m)[1])
        kind = m2[2] if m2 else ("def" if re.search(r"abbrev|unfoldable", m[2]) else "thm")
        name = m2[3] if m2 else m[4]
        j = i + 1
        body = [l]
        sig = [l]
        insig = True
        while j < len(lines):
            x = lines[j]
            if x.strip() == "" or x.lstrip().startswith("--"): 
                j += 1; continue
            ind = len(x) - len(x.lstrip())
            if ind < indent: break
            if ind == indent:
                if kind in ("record", "data"): break
                w = re.match(r"\s*(" + WORD + r")", x)
                if x.lstrip().startswith("unfolding"): insig = False; body.append(x); j += 1; continue
                if re.match(r"\s*(?:(?:pub|abbrev|unfoldable)\s+)*" + WORD + r"\s*:\s", x) or re.match(r"\s*(pub|abbrev|unfoldable|record|data|module|use|infix\w*)\b", x): break
                if not w: insig = False; body.append(x); j += 1; continue
                insig = False
            if insig: sig.append(x)
            body.append(x); j += 1
        out.setdefault(name, []).append((kind, squeeze("\n".join(sig)), squeeze("\n".join(body))))
        i = i + 1 if kind == "thm" or indent else j
        if kind in ("record", "data", "def"): i = max(i, j)
    return out

def read(root, crate, folder):
    got = {}
    pats = [f"{root}/crates/{crate}/{folder}/*.antt"] + [f"{root}/crates/{crate}/{folder}/Sentence/*.antt"]
    for pat in pats:
        for p in sorted(glob.glob(pat)):
            for n, xs in declared(open(p, encoding="utf-8").read()).items():
                for x in xs: got.setdefault(n, []).append(x + (os.path.relpath(p, f"{root}/crates"),))
    return got

def main():
    old = sys.argv[1]
    moved = "--moved" in sys.argv
    same = diff = gone = 0
    for crate in sorted(os.listdir(old + "/crates")):
        then = read(old, crate, "specs")
        specs, proofs = read(".", crate, "specs"), read(".", crate, "proofs")
        lists = {}
        for n, xs in then.items():
            for kind, sig, whole, p in xs:
                here = specs.get(n, []) + proofs.get(n, [])
                fits = [h for h in here if (h[1] == sig if kind == "thm" else h[2] == whole)]
                if fits:
                    same += 1
                    if not any("/specs/" in h[3] for h in fits) and kind == "thm": lists.setdefault((p, fits[0][3]), []).append((n, sig))
                    continue
                if moved: continue
                if here:
                    diff += 1
                    h = here[0]
                    print(f"DIFFERS {crate} {n} ({kind}, {p} -> {h[3]})\n  old: {sig if kind == 'thm' else whole}\n  new: {h[1] if kind == 'thm' else h[2]}")
                else:
                    gone += 1
                    print(f"NOWHERE {crate} {n} ({kind}, {p}): {sig}")
        if moved:
            for (a, b), ns in lists.items():
                print(f"\n`{a}` to `{b}`:\n")
                for n, s in ns: print("    " + s)
    if not moved: print(same, "the same,", diff, "differ,", gone, "nowhere")

if __name__ == "__main__":
    main()
