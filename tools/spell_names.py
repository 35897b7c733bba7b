#!/usr/bin/env python3
"""Spells the repository's own definitions and lemmas as today's Rattle does: words in snake case, types and modules in camel case.

usage: python3 tools/spell_names.py     at the top of a checkout, right after the kit's port.py, once

A name is respelled if specs/ or proofs/ declare it: definitions, lemmas, constructors, fields, and the ghost members of traits.
A dash stays where it joins a function and what it is applied to (length-line). Names that Rattle makes (goals, invariants, measures)
and the functions of src/ keep their spelling. The script stops, and writes nothing, where two names would fall together.
"""
import pathlib
import re
import sys

MADE = re.compile(r"(returns|loop|invariant|decreases|overflow|[a-z-]+-requires$)")
DASH_STAYS = re.compile(r"(length|take|drop)-")
# where the plain spelling is that of a function of src/
APART = {
    "run-steps": "steps_of_run",
    "readDigits": "digits_value",
    "withRaised": "with_line_raised",
    "withDropped": "with_line_dropped",
    "putBack": "byte_put_back",
    "allHexadecimal": "all_digits",
}
TOKEN = re.compile(r"[^\s(){}\[\],;:\"`.…]+")
DECLARED = re.compile(r"( *)(?:(?:abbrev|unfoldable|opaque|pub|data|record) )*([^\s:{}().,]+)(?: \([^)]*\))* :(?: |$)")
MEMBER = re.compile(r" *ghost ([A-Za-z_0-9]+)(?:: | = )\{")


def snake(name):
    if name in APART:
        return APART[name]
    name = re.sub(r"(?<=[a-z])([A-Z]+)(?=$|[^a-z])", lambda m: "_" + m[1].lower(), name)
    name = re.sub(r"(?<=[a-z0-9])([A-Z])(?=[a-z])", lambda m: "_" + m[1].lower(), name)
    return name if DASH_STAYS.match(name) else name.replace("-", "_")


def declared(path, text):
    """The names that a file declares, but for those that Rattle makes."""
    pattern = DECLARED if path.suffix == ".antt" else MEMBER
    for line in text.splitlines():
        m = pattern.match(line)
        if not m:
            continue
        name = m[m.lastindex]
        if name[0].isupper() or MADE.match(name) or not re.fullmatch(r"[A-Za-z][A-Za-z0-9_'-]*", name):
            continue
        yield name


def respelled(line, names, ghost):
    return TOKEN.sub(lambda m: whole(m[0], names), line) if ghost else line


def whole(token, names):
    """A token with its primes: a dash inside a name is a part of it, so only the whole token counts."""
    bare = token.rstrip("'")
    return names.get(bare, bare) + token[len(bare):]


def ghost_lines(text):
    """For each line of a .rt file, whether it is ghost text: an import, a clause, a ghost member."""
    inside = 0
    for line in text.split("\n"):
        starts = re.match(r"\s*(ghost (?!fn)|requires|ensures)", line)
        ghost = bool(starts) or inside > 0
        if ghost:
            inside += line.count("{") - line.count("}")
            inside = max(0, inside)
        yield line, ghost


def main():
    files = sorted(p for c in pathlib.Path("crates").iterdir() for p in c.rglob("*") if p.suffix in (".antt", ".rt", ".edit") and "out" not in p.parts)
    texts = {p: p.read_text(encoding="utf-8") for p in files}
    names = {}
    for p, text in texts.items():
        if p.suffix in (".antt", ".rt"):
            for name in declared(p, text):
                if snake(name) != name:
                    names[name] = snake(name)
    if not names:
        print("spell_names: nothing to do")
        return 0
    taken = {}
    for p, text in texts.items():
        lines = [l for l, ghost in ghost_lines(text) if ghost] if p.suffix == ".rt" else text.splitlines() if p.suffix == ".antt" else []
        for line in lines:
            for m in TOKEN.finditer(re.sub(r"^\s*(--|//).*", "", line)):
                taken.setdefault(m[0], p)
    together = [(a, b, taken[b]) for a, b in names.items() if b in taken]
    together += [(a, b, "") for a, x in names.items() for b, y in names.items() if a < b and x == y]
    if together:
        for a, b, where in together:
            print(f"spell_names: {a} would fall together with {b} ({where})")
        return 1
    for p, text in texts.items():
        if p.suffix == ".rt":
            new = "\n".join(respelled(l, names, g) for l, g in ghost_lines(text))
        else:
            new = "\n".join(respelled(l, names, True) for l in text.split("\n"))
        if new != text:
            p.write_text(new, encoding="utf-8")
    for old, new in sorted(names.items()):
        print(f"{old} -> {new}")
    return 0


if __name__ == "__main__":
    sys.exit(main())
