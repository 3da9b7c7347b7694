#!/usr/bin/env python3
"""Respells the repository's own definitions and lemmas as today's Rattle spells names: words in snake case.

usage: tools/respell.py [--dry]     at the top, once, after port.py

It goes over the tokens of specs/, proofs/, the clauses in src/ and the pages. A name that is declared in specs/ or in a file of lemmas
and has a dash or a capital in its middle gets underscores: `openBefore` is `open_before`, `lent-call` is `lent_call`. Types, modules,
functions of src/ and what Rattle makes keep their spelling.
"""
import os
import re
import sys

DRY = "--dry" in sys.argv
TOKEN = re.compile(r"[^\s(){}\[\],;.«»`\"]+")
DECL = re.compile(r"^(?:(?:pub|unfoldable|abbrev|opaque) )*([^\s:(){}]+(?: [^\s:(){}]+)*?) : ")
INNER = re.compile(r"^\s+(?:(?:where|pub|abbrev|unfoldable) )*([^\s:(){}|λ=]+(?: [^\s:(){}|λ=]+)*) : ")
FIELD = re.compile(r"^\s+(?:pub )?([^\s:(){}|λ]+) : ")
# Spellings that the rule does not give: a statement's type in camel case, and a lemma that would have its function's name gets `_lem`.
FIXED = {
    "Demand-3": "Demand3Holds",
    "Demand-3-of-calls": "Demand3OfCalls",
    "Junction-demand": "JunctionDemandHolds",
}
# Names that a library of the kit has too.
LIBRARY = {"append-nil", "or-false", "and-true"}
LEMMAS = "in_order read_off hands_on count_at first_part names-of entry-at junction-done is-act edge-if put-edge active-in events-fault area-edges most-junctions reduced-graph ends-in kind-with node-of names-tag same-road read-reply"
for lemma in LEMMAS.split(" "):
    FIXED[lemma] = lemma.replace("-", "_") + "_lem"
# A lemma in one crate, and a field elsewhere that keeps to the rule.
FIXED_IN = {("theory_junction_timeline", "most-edges"): "most_edges_lem"}
# Functions of src/ that have such a name too: behind a dot it is what Rattle makes of the function.
MADE = {"change-byte", "is-first", "merge-edge", "name-roads", "put-edge", "first_part"}


def files(*endings):
    for top in ("crates", "docs", ".ci"):
        for folder, dirs, names in os.walk(top):
            dirs[:] = sorted(d for d in dirs if d not in ("out",))
            for name in sorted(names):
                if name.endswith(endings):
                    yield os.path.join(folder, name)


def read(path):
    with open(path, encoding="utf-8") as file:
        return file.read()


def is_function_proof(path):
    """A file of the proof of one function: what is declared there is Rattle's to name."""
    parts = path.split("/")
    return parts[2] == "proofs" and len(parts) > 4


def respelled(name):
    if name in FIXED:
        return FIXED[name]
    name = name.replace("getD", "get_or")
    if re.match(r"[A-Z][a-z]", name):
        return name
    name = re.sub(r"(?<=[a-z0-9₀-₉])([A-Z])(?=[a-z])", lambda m: "_" + m[1].lower(), name)
    return re.sub(r"(?<=[\w'₀-₉])-(?=[\w'])", "_", name)


def collected():
    names = {}
    for path in files(".antt"):
        if is_function_proof(path):
            continue
        # A block of fields is the lines below a record's head.
        in_record = False
        for line in read(path).split("\n"):
            if line.startswith("--"):
                continue
            if line and not line[0].isspace():
                in_record = bool(re.match(r"(pub )?(record|data) ", line))
            m = DECL.match(line)
            if m:
                for name in m[1].split(" "):
                    names.setdefault(name, path)
            elif in_record:
                m = FIELD.match(line)
                if m:
                    names.setdefault(m[1], path)
            else:
                m = INNER.match(line)
                if m:
                    for name in m[1].split(" "):
                        names.setdefault(name, path)
    out = {}
    for name, path in names.items():
        if not re.match(r"[a-zA-Z]", name) or name.startswith("μ") or name in LIBRARY:
            continue
        new = respelled(name)
        if new != name or name in FIXED:
            out[name] = new
    return out, names


def turn_text(text, names, comment, crate):
    """One file: tokens of code, and in comments those between backticks and those with a capital in their middle."""
    def token(m):
        if m[0] in MADE and m.string[max(0, m.start() - 1)] == ".":
            return m[0]
        if comment == "//" and "_" in m[0]:
            return m[0]
        return FIXED_IN.get((crate, m[0])) or names.get(m[0], m[0])

    def said(m):
        return "`" + re.sub(TOKEN, token, m[1]) + "`"

    lines = []
    for line in text.split("\n"):
        at = 0 if line.lstrip().startswith(comment) else -1
        if at == 0:
            line = re.sub(r"`([^`]+)`", said, line)
            line = TOKEN.sub(lambda m: names.get(m[0], m[0]) if re.search(r"[a-z][A-Z]", m[0]) else m[0], line)
            lines.append(line)
        else:
            lines.append(TOKEN.sub(token, line))
    return "\n".join(lines)


def main():
    names, all_names = collected()
    tokens = {}
    for path in files(".antt", ".rt"):
        for token in TOKEN.findall(read(path)):
            tokens.setdefault(token, path)
    clash = 0
    seen = {}
    for old, new in sorted(names.items()):
        if new in tokens or new in seen:
            clash += 1
            print(f"look: {old} -> {new}: also {'in ' + tokens[new] if new in tokens else 'from ' + seen[new]} ({all_names[old]})")
        seen[new] = old
    print(f"{len(names)} names, {clash} that fall together with a token that is there")
    if DRY:
        return 0
    for path in files(".antt", ".rt"):
        old = read(path)
        new = turn_text(old, names, "//" if path.endswith(".rt") else "--", path.split("/")[1])
        if new != old:
            with open(path, "w", encoding="utf-8") as file:
                file.write(new)
    return 0


if __name__ == "__main__":
    raise SystemExit(main())
