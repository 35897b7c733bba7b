#!/usr/bin/env python3
"""Lists the places of older forms in crates/*/src, kind by kind, for docs/DESIGN-PASS.md.

Usage: tools/places.py [COMMIT]     without a commit, the files of the work tree
It finds by patterns: docs/DESIGN-PASS.md says which of the lines are places, and what reading found beside them.
"""
import re
import subprocess
import sys

COMMIT = sys.argv[1] if len(sys.argv) > 1 else None
TESTS = re.compile(r"crates/(trials|cases)/")

# What is looked for in each kind, line by line; tests are looked at for loops only.
PATTERNS = {
    1: r"fn number\(self|(refusal|ended): u8,|\(u32, u32, u8\)|Option<Refusal>\) -> u8|taken: bool",
    3: r"^\s*(for \w+ in 0\.\.|for .*enumerate\(\)|for (digit|character) in|while |let \w+ = loop)",
    4: r"fn (number\(self|to_byte|from_byte|into_bytes|named|core_name|parse_order|row_of|place\(|word\(|high_byte|low_byte|push_\w+\(text|end_number|address_of|all_hexadecimal)|pub fn new\(bytes",
    5: r"ensures core |requires (hexadecimal )?\{ all_digits|number: u32,$|≤ vec_capacity text.old",
    6: r"count: usize|text: &mut Vec<u8>|-> Result<Vec<u8>, AllocError>$|if place < self.bytes",
    7: r"^\s*(let \w+ = )?match (operation|order|row\.operation|change|branch|jump|way|standstill|pointer|condition|letter|mode|home|operand\.(mode|home)|home_of\(|self\.mode|Order::try_from|\((self\.stage|live)\.standing)",
}


def git(*args):
    return subprocess.run(["git", *args], check=True, capture_output=True, text=True).stdout


def sources():
    listed = git("ls-tree", "-r", "--name-only", COMMIT, "crates") if COMMIT else git("ls-files", "crates")
    for name in listed.split():
        if re.match(r"crates/[^/]+/src/.*\.rt$", name):
            yield name, git("show", f"{COMMIT}:{name}") if COMMIT else open(name).read()


FILES = dict(sources())


def by_line(kind, pattern):
    for name, text in FILES.items():
        if TESTS.match(name) and kind != 3:
            continue
        for number, line in enumerate(text.split("\n"), 1):
            if not line.strip().startswith("//") and re.search(pattern, line):
                yield f"{name}:{number}: {line.strip()}"


def together():
    """Functions that take a memory and the registers, or a line's number and its text, side by side."""
    for name, text in FILES.items():
        for head in re.finditer(r"fn (\w+)(?:<[^(]*>)?\(([^{]*?)\)(?: ->|\n)", text):
            args = head.group(2)
            if not TESTS.match(name) and "bus: &mut B" in args and "registers: &mut Registers" in args:
                yield f"{name}: {head.group(1)}: bus and registers"


def items():
    for name, text in FILES.items():
        if TESTS.match(name):
            continue
        for m in re.finditer(r"^( *)(?:pub(?:\([a-z]+\))? )?fn (\w+)(.*?)^\1\}$", text, re.M | re.S):
            yield name, "fn", m.group(2), m.group(3)
        for m in re.finditer(r"^pub(?:\([a-z]+\))? (enum|struct|trait|static) (\w+)(.*?)^[\]})]?[;}]?$", text, re.M | re.S):
            yield name, m.group(1), m.group(2), m.group(3)


def shape(body):
    """A function's body without its types, numbers and comments."""
    body = re.split(r"\n *\{\n", body, maxsplit=1)[-1]
    body = re.sub(r"//[^\n]*", "", body)
    body = re.sub(r"\b(u8|u16|u32|u64|usize)\b", "T", body)
    body = re.sub(r"\b(0x[0-9A-Fa-f_]+|[0-9][0-9_]*)\b", "N", body)
    return re.sub(r"\s+", " ", re.sub(r"\b(byte|word)s?\b", "V", body)).strip()


def twins():
    """Items of one name in two files, and functions of one shape: methods of traits and conversions are no twins."""
    named, alike = {}, {}
    for name, kind, item, body in items():
        if item not in ("class", "read", "store", "row", "entry_cycles", "clone", "new", "from", "try_from", "next", "fmt", "number", "widen", "truncate"):
            named.setdefault((kind, item), set()).add(name)
        if kind == "fn" and len(shape(body)) > 25:
            alike.setdefault(shape(body), set()).add(f"{name}: {item}")
    for (kind, item), places in sorted(named.items()):
        if len(places) > 1:
            yield f"{kind} {item}: " + ", ".join(sorted(places))
    for places in alike.values():
        if len({place.split(": ")[1] for place in places}) > 1:
            yield "alike: " + ", ".join(sorted(places))


def main():
    found = {kind: list(by_line(kind, pattern)) for kind, pattern in PATTERNS.items()}
    found[2] = sorted(twins())
    found[5] += list(together())
    for kind in sorted(found):
        print(f"kind {kind}: {len(found[kind])}")
        for place in found[kind]:
            print("    " + place)


main()
