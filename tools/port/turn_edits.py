#!/usr/bin/env python3
"""Brings the must-fail edits of an older checkout to this Rattle's spelling.

usage: turn_edits.py prepare OLD        in a scratch clone OLD of the older checkout: lays, below each line that an edit changes, the
                                        changed line, between marks, so that port.py respells both; then commit and run port.py there
       turn_edits.py write OLD NEW      writes each edit of NEW (a checkout that port.py has turned) from the lines between the marks

An edit whose lines are not found is named and left as it was.
"""
import glob, os, re, sys

def edits(root):
    for path in sorted(glob.glob(os.path.join(root, "crates/*/must-fail/*.edit"))):
        file, pairs, old = None, [], None
        for line in open(path, encoding="utf-8").read().split("\n"):
            if line.startswith("file: "):
                file = line[6:].strip()
            elif line.startswith("old: "):
                old = line[5:]
            elif line.startswith("new:"):
                new = line[5:]
                pairs.append((file, old, new))
        yield path, pairs

def mark(path, n, what):
    name = os.path.basename(path)[:-5]
    crate = path.split("/crates/")[1].split("/")[0]
    return f"EDITMARK {crate} {name} {n} {what}"

def prepare(root):
    laid = {}
    for path, pairs in edits(root):
        crate = os.path.dirname(os.path.dirname(path))
        now = {}
        for n, (file, old, new) in enumerate(pairs):
            p = os.path.join(crate, file)
            text = now.get(p) or open(p, encoding="utf-8").read()
            if text.count(old) != 1:
                print("not once:", path, n, text.count(old), old)
                continue
            at = text.index(old)
            start = text.rfind("\n", 0, at) + 1
            end = text.find("\n", at)
            line = text[start:end]
            changed = line.replace(old, new)
            now[p] = text[:start] + changed + text[end:]
            laid.setdefault(p, []).append((line, changed, mark(path, n, "")))
    for p, items in laid.items():
        text = open(p, encoding="utf-8").read()
        sign = "//" if p.endswith(".rt") else "--"
        lines = text.split("\n")
        out = []
        used = set()
        for l in lines:
            out.append(l)
            for k, (line, changed, m) in enumerate(items):
                if k not in used and line == l:
                    used.add(k)
                    out += [f"{sign} {m}O", line, f"{sign} {m}N", changed, f"{sign} {m}E"]
        for k, (line, changed, m) in enumerate(items):
            if k not in used:
                out += [f"{sign} {m}O", line, f"{sign} {m}N", changed, f"{sign} {m}E"]
        open(p, "w", encoding="utf-8").write("\n".join(out))

def write(old_root, root):
    found = {}
    for f in glob.glob(os.path.join(old_root, "crates/**/*"), recursive=True):
        if not f.endswith((".rt", ".antt")):
            continue
        text = open(f, encoding="utf-8").read()
        for m in re.finditer(r"(?:--|//) EDITMARK (\S+) (\S+) (\d+) O\n(.*?)\n\s*(?:--|//) EDITMARK \1 \2 \3 N\n(.*?)\n\s*(?:--|//) EDITMARK \1 \2 \3 E", text, re.S):
            found[(m[1], m[2], int(m[3]))] = (m[4], m[5], os.path.relpath(f, os.path.join(old_root, "crates", m[1])))
    left = 0
    for path, pairs in edits(root):
        crate = path.split("/crates/")[1].split("/")[0]
        name = os.path.basename(path)[:-5]
        lines = open(path, encoding="utf-8").read().split("\n")
        n = -1
        out, good = [], True
        now = {}
        for line in lines:
            if line.startswith("file: "):
                file = line[6:].strip()
                out.append(line)
            elif line.startswith("old: "):
                n += 1
                key = (crate, name, n)
                p = os.path.join(os.path.dirname(os.path.dirname(path)), file)
                if key not in found or not os.path.exists(p):
                    print("left:", path, n, "no marks" if key not in found else "no file " + file)
                    out.append(line); good = False; pair = None
                    continue
                o, w, _ = found[key]
                text = now.get(p) or open(p, encoding="utf-8").read()
                a, b = kept(o, w, line[5:], pairs[n][2], text) or span(o, w, line[5:], text)
                if "\n" in a or "\n" in b or text.count(a) != 1:
                    print("left:", path, n, "stands", text.count(a), repr(a[:100]))
                    out.append(line); pair = None; good = False
                    continue
                now[p] = text.replace(a, b)
                out.append("old: " + a); pair = b
            elif line.startswith("new:") and n >= 0:
                out.append("new: " + pair if pair is not None else line)
            else:
                out.append(line)
        open(path, "w", encoding="utf-8").write("\n".join(out))
        left += not good
    print("left:", left)

def kept(o, w, was, new, text):
    """The edit's own words, where they still stand once and still make the changed line."""
    for turn in (lambda t: t, lambda t: re.sub(r"(?<=[\w)]) \.(?=[a-z0-9])", ".", t)):
        a, b = turn(was), turn(new)
        if text.count(a) == 1 and a in o and o.replace(a, b).strip() == w.strip():
            return a, b
    return None

def span(o, w, was, text):
    """The part of the old line, and what stands for it, that is as it was where it still fits, else cut at equal ends."""
    o, w = o.strip(), w.strip()
    i = 0
    while i < min(len(o), len(w)) and o[i] == w[i]:
        i += 1
    j = 0
    while j < min(len(o), len(w)) - i and o[-1 - j] == w[-1 - j]:
        j += 1
    # the old part, widened to words
    def wide(i, j):
        while i > 0 and not o[i - 1].isspace():
            i -= 1
        while j > 0 and not o[len(o) - j].isspace():
            j -= 1
        return i, j
    i, j = wide(i, j)
    want = len(was)
    while (text.count(o[i:len(o) - j].strip()) != 1 or len(o) - i - j < want) and (i > 0 or j > 0):
        if i > 0:
            i -= 1
            while i > 0 and not o[i - 1].isspace():
                i -= 1
        if j > 0 and (text.count(o[i:len(o) - j].strip()) != 1 or len(o) - i - j < want):
            j -= 1
            while j > 0 and not o[len(o) - j].isspace():
                j -= 1
    a = o[i:len(o) - j]
    b = w[i:len(w) - j] if j else w[i:]
    lead = len(a) - len(a.lstrip())
    a2, b2 = a.strip(), b.strip()
    return a2, b2

if sys.argv[1] == "prepare":
    prepare(sys.argv[2])
else:
    write(sys.argv[2], sys.argv[3])
