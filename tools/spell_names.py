#!/usr/bin/env python3
"""Spells the repository's own definitions, facts and lemmas as Rattle does, in contracts, specs/ and proofs/.

usage: python3 tools/spell_names.py    at the top of the repository, once

A fact (a type) is upper camel case, every other name snake case. A dash stays where it joins two names of an identity,
as in `mul-add`. In src/ only clauses and their imports are turned; strings, inputs and outputs are left alone. The script
prints each name it turns, and stops before it writes anything where two names of one crate would fall together.
"""
import glob
import re
import sys

# Identities that are named by the two operations they join.
JOINED = set("""
abs-mul abs-neg-pos add-mul add-mul-pos cancel-< cancel-≤ count-within length-below mul-< mul-add mul-neg mul-one mul-≤ neg-mul
""".split())
WORD = r"[^\s(){}\[\],;.:=`\"]+"
KEYWORDS = {"use", "let", "module", "mod", "where", "open", "in", "pub"}


def texts():
    for folder in ("specs", "proofs"):
        yield from sorted(glob.glob(f"crates/*/{folder}/**/*.antt", recursive=True))


def read(path):
    with open(path, encoding="utf-8") as f:
        return f.read()


def own_names():
    """Every name that specs/ or proofs/ define, also locally, but for the answers, whose names the check makes."""
    names = {}
    for path in texts():
        crate = path.split("/")[1]
        for line in read(path).splitlines():
            if line.lstrip().startswith("--") or " goal." in line:
                continue
            found = re.match(rf"\s*(?:(?:abbrev|unfoldable|pub|record|data|ruleset)\s+)*({WORD})\s*[:(={{]", line)
            heads = [found.group(1)] if found else []
            heads += re.findall(rf"(?:let|[({{]) *({WORD}) *:", line)
            for name in heads:
                if name not in KEYWORDS:
                    names.setdefault(name, set()).add(crate)
    return names


def spelled(name):
    if name in JOINED or not re.search(r"[A-Za-zℤ0-9]", name):
        return name
    if name[0].isupper():
        first, *more = re.split(r"[-·]", name)
        return first + "".join(part[:1].upper() + part[1:] for part in more)
    return re.sub(r"(?<=[a-z])(?=[ℤℕ])", "_", name).replace("-", "_").replace("·", "_")


def main():
    names = own_names()
    # answers are named by the check: a file below proofs/F/ defines no name that starts as theirs do
    made = re.compile(r"^(returns|overflow|nonzero|bounds|loop|invariant|decreases|offset|slice|prove|ghosts|listed-|the-)")
    turned = {n: spelled(n) for n in names if spelled(n) != n and not made.match(n)}
    for old, new in sorted(turned.items()):
        clash = names.get(new, set()) & names[old]
        if clash:
            print(f"{old} and {new} would fall together in {sorted(clash)}", file=sys.stderr)
            return 1
    both = sorted(turned.values())
    for a, b in zip(both, both[1:]):
        if a == b:
            print(f"two names become {a}", file=sys.stderr)
            return 1
    token = re.compile(WORD)

    def turn(text):
        return token.sub(lambda m: turned.get(m.group(0), m.group(0)), text)

    for path in texts():
        old = read(path)
        new = turn(old)
        if new != old:
            with open(path, "w", encoding="utf-8") as f:
                f.write(new)
    for path in sorted(glob.glob("crates/*/src/**/*.rt", recursive=True)):
        old = read(path)
        # only clauses and imports of clauses have such names, and no string does
        new = "".join(line if '"' in line and "codes" not in line else turn(line) for line in old.splitlines(True))
        if new != old:
            with open(path, "w", encoding="utf-8") as f:
                f.write(new)
    for old, new in sorted(turned.items()):
        print(f"{old} -> {new}")
    return 0


if __name__ == "__main__":
    sys.exit(main())
