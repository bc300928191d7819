#!/usr/bin/env python3
"""Moves the theorems of crates' specs/ to proofs/, statements and proofs unchanged.

usage: python3 tools/port/move_theorems.py CRATE ..       at the top of the repository

A theorem is a declaration with neither `abbrev` nor `unfoldable`, and no record or data. What a definition cites stays. A file with nothing
but theorems moves whole; else its theorems go to proofs/NAME.antt, which imports the definitions from specs/NAME.antt. The imports of every
crate follow. Prints the names of what moved, file by file.
"""
import glob, os, re, sys

# the proof of the sentence about points: what its files define serves their theorems
WHOLE = {f"rules/specs/Sentence/{x}.antt" for x in ("Senses", "Scale", "Lines", "Denominators", "Sound", "Derive", "Meaning", "Spelled", "Worked", "Verified")}

WORD = r"[^\s(){}\[\];,.:\"`⌜⌝@⟨⟩]+"

def blocks(text):
    """[(kind, names, lines)]; kind: head, use, def, thm, module, other"""
    lines = text.split("\n")
    out, pend, i = [], [], 0
    while i < len(lines):
        l = lines[i]
        if l.startswith("use ") or l.startswith("pub use "):
            if pend: out.append(("comment", [], pend)); pend = []
            out.append(("use", [], [l])); i += 1; continue
        if l.strip() == "" or l.startswith("--"):
            pend.append(l); i += 1; continue
        if l[0].isspace():
            out[-1][2].append(l); i += 1; continue
        body = [l]; j = i + 1
        while j < len(lines) and (lines[j].strip() == "" or lines[j][0].isspace()):
            body.append(lines[j]); j += 1
        tail = []
        while body and body[-1].strip() == "": tail.insert(0, body.pop())
        m = re.match(r"(?:(?:pub|private)\s+)*(?:(abbrev|unfoldable|record|data|module|infix\w*|syntax|open|ruleset|mutual|axiom)\s+)?(?:pub\s+)?(" + WORD + ")", l)
        if not m:
            out[-1][2].extend(pend + body); pend = tail; i = j
            continue
        k, name = m[1], m[2]
        sig = re.match(r"(?:pub\s+)?(" + WORD + r")\s*:\s", l)
        if k in ("abbrev", "unfoldable", "record", "data", "infix", "infixl", "infixr", "syntax", "open", "ruleset", "axiom"):
            kind = "def"
            if re.match(r"(?:pub )?(abbrev|unfoldable)\b", l):
                name = re.match(r"(?:(?:abbrev|unfoldable|pub)\s+)*(" + WORD + ")", l)[1]
        elif k == "module":
            kind = "module"; name = "_"
        elif k == "mutual":
            kind = "def"
        elif sig:
            kind = "thm"; name = sig[1]
        elif l.startswith("unfolding"):
            out[-1][2].extend(body); pend = tail; i = j
            continue
        else:
            # a clause of the declaration before
            if out and out[-1][0] in ("def", "thm", "module"):
                out[-1][2].extend(pend + body); pend = tail; i = j
                continue
            kind = "other"
        out.append((kind, [name], pend + body)); pend = tail; i = j
    if any(x.strip() for x in pend): out.append(("comment", [], pend))
    return out

def inner(b):
    """names declared in a module block: (definitions, theorems)"""
    d, t = [], []
    for l in b:
        m = re.match(r"\s+(?:pub )?(abbrev|unfoldable|record|data)\s+(?:pub )?(" + WORD + ")", l)
        if m: d.append(m[2]); continue
        m = re.match(r"\s+(?:pub )?(" + WORD + r") : ", l)
        if m: t.append(m[1])
    return d, t

def fields(b):
    """constructors and fields of a record or data"""
    return [m[1] for l in b for m in [re.match(r"\s+(?:pub )?(" + WORD + r") : ", l)] if m]

def tokens(b):
    return set(re.findall(WORD, "\n".join(l for l in b if not l.lstrip().startswith("--"))))

def main(crates):
    moved = {}        # (crate, file) -> names moved
    for crate in crates:
        files = sorted(p for p in glob.glob(f"crates/{crate}/specs/**/*.antt", recursive=True) if not p.endswith("/Lib.antt"))
        parsed = {p: blocks(open(p, encoding="utf-8").read()) for p in files}
        # what definitions cite stays, in each file of the crate
        names_of = {p: {n[0] for k, n, b in bs if k == "thm"} for p, bs in parsed.items()}
        brought = {}
        for p, bs in parsed.items():
            for k, n, b in bs:
                if k != "use": continue
                m = re.match(r"use Rattle\." + crate + r"\.specs\.([\w.]+)\.\{(.*)\}$", b[0])
                q = m and f"crates/{crate}/specs/{m[1].replace('.', '/')}.antt"
                if m and q in names_of:
                    for x in m[2].split(","):
                        x = x.strip().split(" as ")
                        if x[0] in names_of[q]: brought[(p, x[-1])] = (q, x[0])
        stays, todo = set(), []
        def cite(p, b):
            for x in tokens(b):
                if x in names_of[p]: todo.append((p, x))
                elif (p, x) in brought: todo.append(brought[(p, x)])
        for p, bs in parsed.items():
            for k, n, b in bs:
                if k != "def": continue
                first = next(l for l in b if l.strip() and not l.startswith("--"))
                cite(p, [re.sub(r"^\s+(?:pub )?" + WORD + r" : ", "", l) for l in b] if re.match(r"(?:pub )?(record|data)\b", first) else b)
        while todo:
            x = todo.pop()
            if x in stays: continue
            stays.add(x)
            for k, n, b in parsed[x[0]]:
                if k == "thm" and n[0] == x[1]: cite(x[0], b)
        for p, x in sorted(stays): print("stays:", p, x)
        # a file whose definitions serve its own theorems alone goes whole
        contracts = set()
        for q in glob.glob("crates/**/*.rt", recursive=True): contracts |= tokens(open(q, encoding="utf-8").read().split("\n"))
        others = set()
        for q in glob.glob("crates/*/specs/**/*.antt", recursive=True):
            if not q.startswith(f"crates/{crate}/specs/") and "/out/" not in q:
                for k, n, b in blocks(open(q, encoding="utf-8").read()):
                    if k == "def": others |= tokens(b)
        whole = {p for p in parsed if os.path.relpath(p, "crates") in WHOLE}
        change = True
        while change:
            change = False
            for p, bs in parsed.items():
                if p in whole or not any(k in ("thm", "module") for k, n, b in bs): continue
                names = set()
                for k, n, b in bs:
                    if k == "def":
                        names.add(n[0])
                        first = next(l for l in b if l.strip() and not l.startswith("--"))
                        if re.match(r"(?:pub )?data\b", first): names |= set(fields(b))
                    if k == "module": names |= set(inner(b)[0])
                need = set(contracts) | others
                for q, cs in parsed.items():
                    if q != p and q not in whole:
                        for k, n, b in cs:
                            if k in ("def", "module") or (k == "thm" and (q, n[0]) in stays): need |= tokens(b)
                thms = {n[0] for k, n, b in bs if k == "thm"}
                if not names & need and not any((p, t) in stays and t in need for t in thms):
                    whole.add(p); change = True
        for p, bs in parsed.items():
            rel = os.path.relpath(p, f"crates/{crate}/specs")
            go, keep = [], []
            if p in whole:
                for k, n, b in bs:
                    (keep if k in ("use", "comment") else go).append((k, n, b))
                bs = []
            for k, n, b in bs:
                if k == "module":
                    d, t = inner(b)
                    here = set()
                    for k2, n2, b2 in bs:
                        if k2 == "def": here |= tokens(b2)
                    (go if t and not set(d) & (here | imported(crate, rel)) else keep).append((k, n, b))
                elif k == "thm" and (p, n[0]) not in stays:
                    go.append((k, n, b))
                elif k == "def" and n[0] in private(bs, p, stays):
                    go.append((k, n, b))
                elif k in ("use", "comment", "def", "thm", "other"):
                    keep.append((k, n, b))
            if not go: continue
            names = []
            for k, n, b in go:
                if k == "module":
                    d, t = inner(b); names += d + t
                else: names.append(n[0])
            real = [x for x in keep if x[0] in ("def", "thm", "other", "module")]
            target = f"crates/{crate}/proofs/{rel}"
            if os.path.exists(target) or os.path.isdir(f"crates/{crate}/src") and os.path.exists(f"crates/{crate}/src/{os.path.basename(rel)[:-5].lower()}.rt"):
                target = target[:-5] + "Laws.antt"
            os.makedirs(os.path.dirname(target), exist_ok=True)
            module = os.path.relpath(target, f"crates/{crate}/proofs")[:-5].replace("/", ".")
            spec = rel[:-5].replace("/", ".")
            uses = [x for x in keep if x[0] == "use"]
            if not real:
                os.rename(p, target)
                gone = True
            else:
                # a definition that only theorems cite goes with them? it stays: it is a definition
                defs = []
                for k, n, b in real:
                    if k == "module":
                        d, t = inner(b); defs += d + t; continue
                    name = n[0]
                    if name != "_" and not b[-1].startswith("infix"): defs.append(name)
                    first = next(l for l in b if l.strip() and not l.startswith("--"))
                    if re.match(r"(?:pub )?(record|data)\b", first):
                        if re.match(r"(?:pub )?data\b", first): defs += fields(b)
                text = "\n".join(l for k, n, b in go for l in b)
                used = tokens(text.split("\n"))
                imports = [d for d in dict.fromkeys(defs) if d in used or ("◌" in d and all(z in used for z in d.split("◌") if z))]
                head = f"-- What is proved of the definitions in specs/{rel}.\n-- Assumes nothing.\n"
                ul = "\n".join(l for k, n, b in uses for l in b)
                if imports: ul += f"\nuse Rattle.{crate}.specs.{spec}.{{{', '.join(imports)}}}"
                open(target, "w", encoding="utf-8").write(head + ul + "\n" + text.rstrip() + "\n")
                opened = set(w for l in text.split("\n") for m in [re.match(r"\s*unfolding (.*)", l)] if m for w in m[1].split())
                rest = []
                for k, n, b in keep:
                    b = list(b)
                    if k in ("def", "thm") and n[0] in used:
                        for i, l in enumerate(b):
                            if l.strip() and not l.startswith("--"):
                                if not re.search(r"\bpub\b", l.split(":")[0]) and not re.match(r"infix|syntax|open|mutual", l):
                                    b[i] = re.sub(r"^((?:abbrev|unfoldable)\s+)?", lambda m: (m[1] or "") + "pub ", l, count=1) if not re.match(r"record|data", l) else "pub " + l
                                if k == "thm" and n[0] in opened: b[i] = "unfoldable " + b[i]
                                break
                    rest.append((k, n, b))
                keep = rest
                open(p, "w", encoding="utf-8").write("\n".join(l for k, n, b in keep for l in b).rstrip() + "\n")
                gone = False
            moved[(crate, spec)] = (module, set(names), gone)
            print(f"{crate}/specs/{rel} -> {os.path.relpath(target, 'crates/' + crate)}{' (whole)' if gone else ''}: {' '.join(names)}")
        relist(crate, moved)
    follow(moved)

def private(bs, p, stays):
    """definitions that are not `pub` and that no definition of the file cites, but for such"""
    own = {n[0] for k, n, b in bs if k == "def" and not b[-1].startswith("infix") and not re.search(r"\bpub\b", next(l for l in b if l.strip() and not l.startswith("--")))}
    while True:
        cited = set()
        for k, n, b in bs:
            if k == "def" and n[0] not in own or k == "thm" and (p, n[0]) in stays: cited |= tokens(b)
        if not own & cited: return own
        own -= cited

def imported(crate, rel):
    """the names of a file of specs/ that specs and contracts import"""
    c, path = set(), f"Rattle.{crate}.specs." + rel[:-5].replace("/", ".")
    for q in glob.glob("crates/*/specs/**/*.antt", recursive=True) + glob.glob("crates/*/src/**/*.rt", recursive=True):
        for m in re.finditer(r"use " + re.escape(path) + r"\.\{(.*)\}", open(q, encoding="utf-8").read()):
            c |= {x.strip().split(" as ")[0] for x in m[1].split(",")}
    return c

def relist(crate, moved):
    """Lib.antt of specs and proofs"""
    lib = f"crates/{crate}/specs/Lib.antt"
    t = open(lib, encoding="utf-8").read()
    pl = f"crates/{crate}/proofs/Lib.antt"
    q = open(pl, encoding="utf-8").read() if os.path.exists(pl) else "-- What is proved of the definitions in specs/, and laws over plain values that the functions' proofs cite.\n"
    for (c, spec), (module, names, gone) in moved.items():
        if c != crate: continue
        if "." in spec:
            folder, name = spec.split(".")
            f, g = f"crates/{crate}/specs/{folder}.antt", f"crates/{crate}/proofs/{folder}.antt"
            u = open(f, encoding="utf-8").read()
            if gone: open(f, "w", encoding="utf-8").write(re.sub(rf"^(pub )?mod {name}\n", "", u, flags=re.M))
            v = open(g, encoding="utf-8").read() if os.path.exists(g) else f"-- What is proved of the definitions in specs/{folder}.\n"
            open(g, "w", encoding="utf-8").write(v.rstrip() + f"\npub mod {module.split('.')[1]}\n")
            if not re.search(rf"^(pub )?mod {folder}$", q, re.M): q = q.rstrip() + f"\npub mod {folder}\n"
            continue
        if gone: t = re.sub(rf"^(pub )?mod {spec}\n", "", t, flags=re.M)
        if not re.search(rf"^(pub )?mod {module}$", q, re.M): q = q.rstrip() + f"\npub mod {module}\n"
        else: q = re.sub(rf"^mod {module}$", f"pub mod {module}", q, flags=re.M)
    open(lib, "w", encoding="utf-8").write(t)
    open(pl, "w", encoding="utf-8").write(q)

def follow(moved):
    byname = {(c, s): v for (c, s), v in moved.items()}
    for p in glob.glob("crates/**/*.antt", recursive=True) + glob.glob("crates/**/*.rt", recursive=True) + glob.glob("crates/**/*.edit", recursive=True):
        if "/out/" in p: continue
        t = open(p, encoding="utf-8").read()
        out = []
        for line in t.split("\n"):
            m = re.match(r"((?:old: |new: )?(?:ghost )?(?:pub )?use )Rattle\.(\w+)\.specs\.([\w.]+?)\.\{(.*)\}(;?)$", line)
            if m and (m[2], m[3]) in byname:
                module, names, gone = byname[(m[2], m[3])]
                items = [x.strip() for x in m[4].split(",")]
                go = [x for x in items if x.split(" as ")[0] in names or gone]
                keep = [x for x in items if x not in go]
                if keep: out.append(f"{m[1]}Rattle.{m[2]}.specs.{m[3]}.{{{', '.join(keep)}}}{m[5]}")
                # specs may not name proofs of their own crate: what is left there does not need it
                if go and not p.startswith(f"crates/{m[2]}/specs/"): out.append(f"{m[1]}Rattle.{m[2]}.proofs.{module}.{{{', '.join(go)}}}{m[5]}")
                continue
            m = re.match(r"((?:ghost )?use )Rattle\.(\w+)\.specs\.([\w.]+) as (\S+)$", line)
            if m and (m[2], m[3]) in byname:
                module, names, gone = byname[(m[2], m[3])]
                out.append(f"{m[1]}Rattle.{m[2]}.{'proofs.' + module if gone else 'specs.' + m[3]} as {m[4]}")
                if not gone: print("as:", p, line)
                continue
            out.append(line)
        n = "\n".join(out)
        # an edit's file that moved
        m = re.match(r"crates/(\w+)/must-fail/", p)
        if m:
            n = re.sub(r"^file: specs/(\S+)\.antt$", lambda k: (f"file: proofs/{byname[(m[1], k[1].replace('/', '.'))][0].replace('.', '/')}.antt" if (m[1], k[1].replace('/', '.')) in byname and byname[(m[1], k[1].replace('/', '.'))][2] else k[0]), n, flags=re.M)
        if n != t: open(p, "w", encoding="utf-8").write(n)

main(sys.argv[1:])
