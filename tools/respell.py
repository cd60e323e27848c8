#!/usr/bin/env python3
"""Brings this repository's own ghost names to today's spelling: contracts-of becomes contracts_of, Has-number HasNumber, legOf leg_of.

usage: tools/respell.py [FOLDER]      (the repository's top; by default this folder)

Own names are the definitions, lemmas, fields, constructors, parameters and local facts of specs/ and proofs/, what a `use` line
renames, and the ghost members of traits. Names of the library, names that Rattle makes, functions, strings and comments keep their spelling.
Where two names would fall together it says so and writes nothing.
"""

import os
import re
import sys

NAME = r"[^\W\d][\w']*(?:-[\w'₀-₉]+)+"
WORD = re.compile(r"(?<![\w'\-])[^\W\d][\w']*(?:-[\w'₀-₉]+)*(?![\w'\-])")
DASHED = re.compile(r"(?<![\w'\-])" + NAME + r"(?![\w'\-])")
USE = re.compile(r"^\s*(?:ghost )?use ([\w.·'\-]+)\.\{([^}]*)\}", re.M)
RENAMED = re.compile(r"\bas (" + NAME + r")")
LOCAL = re.compile(r"(?:\blet |λ |[(;] ?)(" + NAME + r") *(?:[:=.]|↦)")
MEMBER = re.compile(r"^\s*ghost (?!use\b)(\w+) *[:=]", re.M)
KEPT_RT = r'("(?:\\.|[^"\\])*"|//.*)'
KEPT_ANTT = r'("(?:\\.|[^"\\])*"|--.*)'
MADE = ("Answers.antt", "Invariants.antt", "Choices.antt", "Proof.antt")
MAKES = ("in", "if", "loop", "returns", "invariant", "decreases", "overflow", "then", "else", "index", "saturating")

# names that say too little, or that a field or another name has already
OTHERWISE = {
    "leg-of": "leg_margin_of",
    "call-count": "count_of_calls",
    "contract-count": "count_of_contracts",
    "Line-of": "line_of",
}

# words that bear the name of the function which answers them, lemmas that bear the name of the function which names them, and
# fields of two records
SHARED = """
leg_close_reserve other_leg_margin contract_of past_limit lock_first unlock_first position_row first_written legs_sum
lower_leg_settlement pair_margin raw_margin straddle_margin close_percent floor_percent margin_per_unit out_of_the_money
underlying_risk premium_of buy_open buy_close sell_open sell_close calls_keep same_books_balance report_text locked_bought locked_written listed_margin underlying_close
""".split()


def files(top):
    for folder, dirs, names in os.walk(os.path.join(top, "crates")):
        dirs[:] = sorted(d for d in dirs if d not in ("out", "must-fail", "data"))
        for name in sorted(names):
            if name.endswith((".antt", ".rt")):
                path = os.path.join(folder, name)
                with open(path, encoding="utf-8") as f:
                    yield path, f.read()


def snake(name):
    if name in OTHERWISE:
        return OTHERWISE[name]
    first, *rest = name.split("-")
    if first[0].isupper() and len(first) > 1:
        return first + "".join(w[:1].upper() + w[1:] for w in rest)
    return re.sub(r"(?<=[a-z])[A-Z]", lambda m: "_" + m.group().lower(), name) if not rest else name.replace("-", "_")


def crates(top):
    return set(os.listdir(os.path.join(top, "crates")))


def library_names(top):
    """The names that files import from anywhere but a crate of the repository."""
    found = set()
    for _, text in files(top):
        for path, names in USE.findall(text):
            words = re.split(r"[.·]", path)
            if not (words[0] == "Rattle" and words[1] in crates(top)) and path != "goal":
                found |= {n.split(" as ")[0].strip() for n in names.split(",")}
    return found


def own_names(top):
    """The names to be respelled: those of every file, and those of single files."""
    library = library_names(top)
    everywhere, single = set(), {}
    for path, text in files(top):
        code = re.sub(r"(?m)--.*$", "", text) if path.endswith(".antt") else text
        renamed = set(RENAMED.findall("\n".join(m.group() for m in USE.finditer(code))))
        if path.endswith(".rt"):
            everywhere |= {m for m in MEMBER.findall(code) if snake(m) != m}
            single[path] = renamed
        elif os.path.basename(path) in MADE:
            single[path] = renamed | {n for n in LOCAL.findall(code) if n.split("-")[0] not in MAKES}
        else:
            bare = re.sub(r"(?m)^use .*\.Goals.*$", "", code)
            everywhere |= set(DASHED.findall(bare)) - library
    return everywhere, {p: n - library for p, n in single.items()}


def main(top):
    everywhere, single = own_names(top)
    together = {}
    for n in everywhere.union(*single.values()):
        together.setdefault(snake(n), set()).add(n)
    bad = [f"{sorted(v)} fall together" for v in together.values() if len(v) > 1]
    changed = {}
    for path, text in files(top):
        new = {n: snake(n) for n in everywhere | single.get(path, set())}
        has = set(WORD.findall(re.sub(r'"(?:\\.|[^"\\])*"', "", text)))
        bad += [f"{path}: {n} meets {new[n]}" for n in sorted(has & set(new)) if new[n] in has and new[n] not in SHARED]
        pieces = re.split(KEPT_RT if path.endswith(".rt") else KEPT_ANTT, text)
        out = "".join(t if i % 2 else WORD.sub(lambda m: new.get(m.group(), m.group()), t) for i, t in enumerate(pieces))
        if out != text:
            changed[path] = out
    if bad:
        print("\n".join(bad))
        print(f"respell: {len(bad)} names fall together; nothing was written")
        return 1
    for path, out in changed.items():
        with open(path, "w", encoding="utf-8") as f:
            f.write(out)
    print(f"respell: {len(everywhere)} names in {len(changed)} files")
    return 0


if __name__ == "__main__":
    raise SystemExit(main(sys.argv[1] if len(sys.argv) > 1 else "."))
