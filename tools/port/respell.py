#!/usr/bin/env python3
"""Spells the repository's own definitions, lemmas, fields and constructors as today's Rattle spells names.

usage: python3 tools/port/respell.py [--dry]      at the top of the repository, once, after port.py

Words of a name are joined by `_`, and a dash is left only between the names of two definitions, as in `gcd-zero`; types and facts keep
their capitals. Names that the library also declares, names that Rattle makes and names from src/ stay. The files turned are .antt, .rt
(outside strings), .edit, and what stands between back quotes in .md. Prints each name and its new spelling, and stops at two names
that would fall together in one file.
"""
import glob, os, re, sys

TOKEN = re.compile(r"[^\s(){}\[\];,.:\"`⌜⌝@⟨⟩]+")
DECL = re.compile(r"^(\s*)((?:(?:abbrev|unfoldable|pub|axiom|record|data)\s+)*)([^\s:(){}\[\]]+)((?:\s*[({][^:]*:.*?[)}])*)\s*:\s+(.*)$")
STD_WORDS = set("""mul add sub div mod pow zero suc one length append take drop map set neg pos mag nat_abs and or not negsuc dvd
  shl shr bit_and bit_or min max cond lookup""".split())


# lemmas that port.py left with the name that their definition now has, and where they are cited
LEMMAS = {
    "is_name": "crates/grammar/specs/SymbolAgreement.antt crates/grammar/must-fail/name_with_*.edit crates/grammar/must-fail/long_names.edit",
    "last_row": "crates/claims/proofs/AskedLaws.antt",
    "line_after": "crates/program/proofs/**/*.antt crates/program/specs/*.antt",
    "to_the_end": "crates/grammar/specs/Texts.antt",
    "with_cell": "crates/tables/**/*.antt",
    "with_tail": "crates/value/proofs/**/*.antt",
    "with_value": "crates/tables/**/*.antt",
    "word_cell": "crates/row_reader/proofs/**/*.antt",
    "is_digit": "crates/value/proofs/read_run/Proof.antt",
}


def files_of(where):
    return {p for w in where.split() for p in glob.glob(w, recursive=True)}


def files(*kinds):
    for kind in kinds:
        for p in sorted(glob.glob(kind, recursive=True)):
            if "/out/" not in p and "/target/" not in p and os.path.isfile(p):
                yield p


def snake(part):
    if re.match(r"^[A-Z]", part) and not re.match(r"^[A-Z](_|$)", part):
        return part
    part = re.sub(r"([a-z0-9])([A-Z])", lambda m: m[1] + "_" + m[2].lower(), part)
    part = re.sub(r"([a-z])([ℕℤ])", r"\1_\2", part)
    return part


def main(dry):
    crates = {os.path.basename(os.path.dirname(p)) for p in glob.glob("crates/*/src")}
    declared, definitions, library, made = {}, set(), set(), set()
    for p in files("crates/**/*.antt"):
        for line in open(p, encoding="utf-8"):
            if line.lstrip().startswith("--"):
                continue
            m = re.match(r"^use\s+(\S+?)(?:\.\{(.*)\})?(?:\s+as\s+(\S+))?\s*$", line)
            if line.startswith("use "):
                path = line.split()[1]
                own = re.match(r"Rattle\.([a-z_0-9]+)\.", path)
                names = re.search(r"\{(.*)\}", line)
                if names and not (own and own[1] in crates and "declared" not in path):
                    for n in names[1].split(","):
                        library.add(n.strip().split(" as ")[0].strip())
                        if " as " in n:
                            declared.setdefault(n.strip().split(" as ")[1].strip(), set()).add(p)
                elif names:
                    for n in names[1].split(","):
                        if " as " in n:
                            declared.setdefault(n.strip().split(" as ")[1].strip(), set()).add(p)
                if m and m[3]:
                    declared.setdefault(m[3], set()).add(p)
                continue
            m = DECL.match(line)
            if not m:
                m2 = re.match(r"^\s*(?:pub\s+)?(?:record|data)\s+(\S+)", line)
                if m2:
                    definitions.add(m2[1])
                continue
            name, kind, type_ = m[3], m[2], m[5]
            if type_.startswith("tie."):
                made.add(name)
                continue
            declared.setdefault(name, set()).add(p)
            if "abbrev" in kind or "unfoldable" in kind:
                definitions.add(name)
    for p in files("crates/**/*.rt"):
        for line in open(p, encoding="utf-8"):
            if line.startswith("ghost use"):
                for a in re.findall(r" as (\w+)", line):
                    declared.setdefault(a, set()).add(p)
    words = {snake(d) for d in definitions if "-" not in d} | STD_WORDS
    turned = {}
    for name in declared:
        if name in library or name in made or "◌" in name:
            continue
        parts = [snake(x) for x in name.split("-")]
        if len(parts) == 1 or "" in parts:
            new = parts[0] if len(parts) == 1 else name
        else:
            new = parts[0]
            for a, b in zip(parts, parts[1:]):
                dash = (a in words or not re.match(r"^\w", a)) and (b in words or not re.match(r"^\w", b))
                new += ("-" if dash else "_") + b
        if new != name:
            turned[name] = new
    # a lemma that would have its definition's name
    for name, new in list(turned.items()):
        if "-" in name and any(n != name and turned[n] == new for n in turned) or "-" in name and new in definitions:
            turned[name] = new + "_lem"
    # names of functions' proofs
    for name in [n for n in declared if n.endswith("-spec")]:
        turned[name] = name.replace("-", "_")
    # what falls together
    bad = 0
    texts = {}
    for p in files("crates/**/*.antt", "crates/**/*.rt"):
        texts[p] = set(TOKEN.findall(open(p, encoding="utf-8").read()))
    for name, new in sorted(turned.items()):
        here = [p for p, t in texts.items() if name in t and new in t]
        if here:
            bad += 1
            print(f"together: {name} and {new} in {', '.join(here[:4])}{' ..' if len(here) > 4 else ''}")
    back = {}
    for name, new in turned.items():
        back.setdefault(new, []).append(name)
    for new, olds in back.items():
        if len(olds) > 1:
            print("two to one:", new, olds)
            bad += 1
    for name in sorted(turned):
        print(name, "->", turned[name])
    print(len(turned), "names,", bad, "fall together")
    if dry:
        return
    turned["◌andThen◌"] = "◌and_then◌"  # an operator of words
    swap = lambda m: turned.get(m[0], m[0])
    for p in files("crates/**/*.antt", "crates/**/*.edit"):
        t = open(p, encoding="utf-8").read()
        for name, where in LEMMAS.items():
            if p in files_of(where):
                t = re.sub(rf"(?<![\w.'-]){name}(?![\w'-])", name + "_lem", t)
        if p.startswith("crates/rules/"):  # two fields whose constructors have the name
            t = re.sub(r"(?<![\w-])at-(most|least)(?![\w-])", r"sense_is_at_\1", t)
        n = TOKEN.sub(swap, t)
        if n != t:
            open(p, "w", encoding="utf-8").write(n)
    for p in files("crates/**/*.rt"):
        t = open(p, encoding="utf-8").read()
        n = re.sub(r'b?"(?:[^"\\\n]|\\.)*"|[^"]+|"', lambda m: m[0] if m[0].startswith(('"', 'b"')) else TOKEN.sub(swap, m[0]), t)
        if n != t:
            open(p, "w", encoding="utf-8").write(n)
    for p in files("*.md", "docs/**/*.md", "crates/**/*.md", "examples/**/*.md", "tests/**/*.md", "bench/**/*.md"):
        t = open(p, encoding="utf-8").read()
        n = re.sub(r"`[^`\n]+`", lambda m: "`" + TOKEN.sub(swap, m[0][1:-1]) + "`", t)
        if n != t:
            open(p, "w", encoding="utf-8").write(n)


main("--dry" in sys.argv)
