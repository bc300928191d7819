#!/usr/bin/env python3
"""Counts the places of each point of docs/DESIGN-PASS.md in crates/*/src.

    python3 tools/design/count.py [-l] [COMMIT]

of the work tree, or of a commit; -l lists each place. What is counted is what the patterns below find: candidates, of which
docs/DESIGN-PASS.md says which are no places.
"""
import re
import subprocess
import sys

def files(commit):
    if commit:
        names = subprocess.run(["git", "ls-tree", "-r", "--name-only", commit, "crates"], capture_output=True, text=True, check=True).stdout.split()
        for name in sorted(n for n in names if "/src/" in n and n.endswith(".rt")):
            yield name, subprocess.run(["git", "show", f"{commit}:{name}"], capture_output=True, text=True, check=True).stdout
    else:
        names = subprocess.run(["git", "ls-files", "crates"], capture_output=True, text=True, check=True).stdout.split()
        for name in sorted(n for n in names if "/src/" in n and n.endswith(".rt")):
            yield name, open(name, encoding="utf-8").read()

def line_of(text, at):
    return text.count("\n", 0, at) + 1

def found(pattern, text, keep=lambda m: True):
    return [m for m in re.finditer(pattern, text, re.M) if keep(m)]

def has_payload(m):
    variants = re.findall(r"^\s+[A-Z]\w*(\(.*\))?,$", m.group(2), re.M)
    return any(variants)

def parameters(m):
    return re.findall(r"(\w+): ", m.group(2))

TABLES = {"index", "values", "rows"}

def lends_tables(m):
    return len(TABLES & set(parameters(m))) >= 2

def lends_arrays(m):
    return {"nums", "dens"} <= set(parameters(m)) or {"variables", "parts"} <= set(parameters(m))

SIGNATURE = r"^\s*(?:pub(?:\(crate\))? )?(?:extern \"C\" )?fn (\w+)(?:<[^>]*>)?\(((?:[^()]|\([^()]*\))*)\)"

POINTS = [
    ("1 enums with a variant that holds a value", lambda t: found(r"^(?:pub(?:\(crate\))? )?enum (\w+)(?:<[^>]*>)? \{\n((?:.*\n)*?)\}", t, has_payload)),
    ("1 refusals among plain variants", lambda t: found(r"^(?:pub(?:\(crate\))? )?enum (\w+) \{\n((?:.*\n)*?)\}", t, lambda m: not has_payload(m) and re.search(r"^\s+Not\w+,$", m.group(2), re.M) and "Error" not in m.group(1))),
    ("1 a flag beside a value", lambda t: found(r"^\s*(?:pub(?:\(crate\))? )?(?:any|asked|fits|negative|minus|neg|rounds): bool,|\((?:negative|minus|neg): bool,|, asked: bool|, any: bool", t)),
    ("1 answers taken apart only to be handed on", lambda t: found(r"^\s*let (?!Some|Ok|Err)[\w:]+(?:\(.*\))? = [^;]*? else \{$", t)),
    ("1 numbers for kinds", lambda t: found(r"== (?:tables::)?words::\w+|-> u8$|-> u8\n|: isize,|fn number\(", t)),
    ("2 functions of one shape as another (the groups are on the page)", lambda t: found(r"^(?:pub(?:\(crate\))? )?fn (floor|ceiling|product|sum|sense_in|direction_in|claim_in|reason_in|clear_cells|clear_values|store_cell|store_number|cell_at|number_at|cells_of|values_of|read_names|read_indices|read_pairs|read_rows|read_derivations|read_solution_list|check_rows|check_whole|check_solutions|check_derivations|read_full|next|cases|put|number|refused|answer|into|small_index|small_values|small_rows|long_text)(?:<[^>]*>)?\(", t)),
    ("3 loops", lambda t: found(r"^\s*while .*\{$", t)),
    ("4 by hand: equality, order, least, conversion, printing", lambda t: found(r"^\s*(?:pub(?:\(crate\))? )?fn (least|same_\w+|is_same|ordered|magnitude\w*|wide|low|number|numbered|show|text|put\w*|sense_cell|clear_\w+|cell_at|number_at|is_digit|is_separator|in_arrays?|within)\(", t)),
    ("5 functions that take two of the tables", lambda t: found(SIGNATURE, t, lends_tables)),
    ("5 functions that take parallel arrays or slices", lambda t: found(SIGNATURE, t, lends_arrays)),
    ("6 parallel arrays in a struct", lambda t: found(r"^\s*(?:pub )?nums: \[i32; 256\],$", t)),
    ("6 a buffer with its length beside", lambda t: found(r"^\s*(?:pub )?(?:came|size): usize,$", t)),
    ("7 switches over which step to run", lambda t: found(r"^(?:pub(?:\(crate\))? )?enum (Kind)\b", t)),
]

def main():
    arguments = sys.argv[1:]
    listed = "-l" in arguments
    commits = [a for a in arguments if a != "-l"]
    sources = list(files(commits[0] if commits else None))
    for name, of in POINTS:
        places = [(path, line_of(text, m.start()), m.group(0).strip().split("\n")[0]) for path, text in sources for m in of(text)]
        print(f"{len(places):4}  {name}")
        if listed:
            for path, line, words in places:
                print(f"        {path}:{line}: {words}")
    kept = [(path, n + 1, l.strip()) for path, text in sources for n, l in enumerate(text.split("\n")) if "// Kept:" in l]
    print(f"{len(kept):4}  lines that say why a place is kept")
    if listed:
        for path, line, words in kept:
            print(f"        {path}:{line}: {words}")

main()
