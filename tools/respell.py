#!/usr/bin/env python3
"""Brings the repository's own definitions and lemmas to today's spelling: words in snake case, types in camel case.

usage: python3 tools/respell.py [--dry]    once, at the top of the repository, after port.py

A dash stays in the thesis's rules (S-WHILET), whose names are as printed. Names from Rust source, exported C names, strings, inputs and outputs stay. The answers to a function's goals are named by Rattle and not here.
"""
import collections
import os
import re
import sys

IDENT = r"[^\s(){}\[\],.;«»@!|`\"]+"
HEAD = re.compile(r"^(\s*)((?:(?:pub|abbrev|unfoldable|data|record) )*)([^\s(){};:,→λ=\[\]|]+(?: [^\s(){};:,→λ=\[\]|]+)*)((?: [({].*?)?) : (.*)")
RULE = re.compile(r"^[A-Z]+[0-9]*(-[A-Z0-9]+)+$")
WALKED = re.compile(r"/proofs/.*/Proof(\.antt|/)")  # a function's own proof, whose answers Rattle names
GOAL = re.compile(r"requires|returns|same-length|^(add|cast|mul|sub|shl|div|shr|offset|index|bounds|nonzero|overflow|array|slice|part|enum|borrow|share)-")
CONSTANT = {"LAST-VARIABLE", "MOST-OPTIONS"}
# types that were spelled as words, by the files in which the name is a type's
ONLY = {
    "good": ("Good", ["crates/imp/specs/Theorem/Range.antt"]),
    "later": ("Later", ["crates/image/specs/Theorem/Kinds.antt"]),
    # with number-of of a refusal, which is number_of now
    "number_of": (
        "verdict_number",
        ["crates/acceptance/specs/Unique.antt", "crates/sets/proofs/panel/sets_full_refusal/Proof.antt", "crates/sets/specs/Member.antt", "crates/sets/src/panel.rt"],
    ),
}
# what the rule would spell wrongly
SAID = {"bit-and": "bit_of_and", "bit-or": "bit_of_or", "All-fit": "TokensFit", "sat": "Sat", "unsat": "Unsat", "getD-fits": "get_or_fits", "low-toZ": "low_to_z", "truth-over": "truth_over_lem", "value-over": "value_over_lem"}


def files():
    for top in ("crates", "docs", "README.md"):
        if os.path.isfile(top):
            yield top
        for folder, dirs, names in os.walk(top):
            dirs[:] = sorted(d for d in dirs if d != "out")
            for n in sorted(names):
                if n.endswith((".antt", ".rt", ".edit", ".md")) and n != "PORT.md":
                    yield os.path.join(folder, n)


def declared():
    """Each declared name: where, its words, its type, and whether it is a field or constructor."""
    found = collections.defaultdict(list)
    for p in files():
        if not p.endswith(".antt"):
            continue
        block = None
        lines = open(p, encoding="utf-8").read().split("\n")
        for i, l in enumerate(lines):
            s = l.lstrip()
            if not s or s.startswith("--"):
                continue
            depth = len(l) - len(s)
            if block is not None and depth <= block:
                block = None
            if re.match(r"(let|in|use|module|mod|→|λ|unfolding|then|else)\b", s) or s.startswith(("→", "λ", "[", "|", "(")):
                continue
            m = HEAD.match(l)
            if m:
                words, kind = m.group(2).split(), m.group(5)
                j = i
                while j + 1 < len(lines) and lines[j + 1].lstrip().startswith("→"):
                    j += 1
                    kind += " " + lines[j].strip()
                for n in m.group(3).split():
                    found[n].append((p, words, kind, block is not None))
                if "data" in words or "record" in words:
                    block = depth
    return found


def snake(n):
    return re.sub(r"(?<=[a-z0-9])([A-Z])", r"_\1", n).lower()


def respelled(n, places):
    """The name as today's rules spell it, or the name itself."""
    if n in SAID:
        return SAID[n]
    if RULE.match(n) and n not in CONSTANT:
        return n
    if all(GOAL.search(n) or "tie." in kind for p, _, kind, _ in places if WALKED.search(p)) and all(WALKED.search(p) for p, _, _, _ in places):
        return n
    if n.endswith(("-spec", "_spec")) or n.startswith(("Inv-", "μ-", "+", "decreases-", "invariant-")):
        return n
    if n in CONSTANT:
        return n.replace("-", "_")
    if any(re.search(r"Type \d( where)?\s*$", kind) or "data" in words or "record" in words for _, words, kind, _ in places):
        return "".join(w[:1].upper() + w[1:] for w in n.split("-")) if "-" in n else n
    return "_".join(snake(w) for w in n.split("-"))


def main(argv):
    found = declared()
    new = {}
    for n, places in found.items():
        if "-" in n or re.match(r"^[a-z].*[a-z][A-Z]", n) or n in SAID:
            to = respelled(n, places)
            if to != n:
                new[n] = to
    back = collections.defaultdict(list)
    for n, to in new.items():
        back[to].append(n)
    for to, ns in sorted(back.items()):
        if len(ns) > 1 or to in found:
            print("falls together:", to, "<-", *ns, "| declared already:" if to in found else "", *[p for p, _, _, _ in found.get(to, [])][:3])
    if "--dry" in argv:
        for n, to in sorted(new.items()):
            print(n, "->", to)
        return
    one = re.compile(IDENT)

    def turn(text, p):
        only = {n: to for n, (to, ps) in ONLY.items() if p in ps}
        return one.sub(lambda m: only.get(m.group(0)) or new.get(m.group(0), m.group(0)), text)

    for p in files():
        text = open(p, encoding="utf-8").read()
        if p.endswith(".md"):
            out = re.sub(r"`[^`\n]+`", lambda m: turn(m.group(0), p), text)
            out = re.sub(r"(?ms)^```.*?^```", lambda m: turn(m.group(0), p), out)
        else:
            lines = []
            for l in text.split("\n"):
                mark = "//" if p.endswith(".rt") else "--"
                code, sep, said = l.partition(mark)
                said = re.sub(r"`[^`]+`", lambda m: turn(m.group(0), p), said)
                lines.append(turn(code, p) + sep + said)
            out = "\n".join(lines)
        if out != text:
            open(p, "w", encoding="utf-8").write(out)


if __name__ == "__main__":
    main(sys.argv[1:])
