#!/usr/bin/env python3
"""Respells the names between backticks in the pages as the code has them since tools/respell.py.

usage: tools/respell_pages.py [--dry]     at the top, after respell.py

A token between backticks that is no word of the code, and whose respelled form is one, gets that form: `openBefore` is `open_before`, `lent-call` is
`lent_call`. A projection is written tight there, `c.0` for `(c .0)`. Blocks of code, paths, and the notes in docs/changes stay as they are.
What is left, names in the old form that the code has in neither, is printed.
"""
import os
import re
import subprocess
import sys

sys.dont_write_bytecode = True
DRY = "--dry" in sys.argv
sys.argv = sys.argv[:1]
sys.path.insert(0, os.path.dirname(os.path.abspath(__file__)))
import respell

PART = r"[\w'·′₀-₉-]"
SOURCES = ("crates/*.rt", "crates/*.antt", "crates.txt", "bindings/*", "bench/*", "text/*", ".ci/*", "docs/layers")
PAGES = ("README.md", "CONTRIBUTING.md", "docs/*.md", "bench/README.md")


def files(patterns):
    words = ["git", "ls-files", "--cached", "--others", "--exclude-standard", "--", *patterns]
    listed = subprocess.run(words, capture_output=True, text=True, check=True).stdout.split("\n")
    return [path for path in listed if path and os.path.exists(path) and not path.startswith("docs/changes/")]


def words_of_code():
    words = {os.path.basename(path)[: -len(".edit")] for path in files(["crates/*/must-fail/*.edit"])}
    for path in files(SOURCES):
        if not path.endswith((".md", ".svg", "stdin", "stdout", ".lock")):
            text = respell.read(path)
            if path.endswith((".rt", ".antt")):
                text = re.sub(r"^\s*(//|--).*$", "", text, flags=re.M)
            # (behind a dot a name with a dash is one that Rattle makes)
            words.update(word for dot, word in re.findall(rf"(\.?)({PART}+)", text) if not (dot and "-" in word))
    return words


def respelled(name):
    # respell.py met some lemmas when port.py had them in snake case already.
    under = name.replace("-", "_")
    if name != under and under in respell.FIXED:
        return respell.FIXED[under]
    return respell.respelled(name)


def main():
    code = words_of_code()
    left = {}

    def token(m):
        name = m[0]
        new = respelled(name)
        if name in code or "/" in m.string[max(0, m.start() - 1) : m.end() + 1]:
            return name
        if new not in code:
            if new != name:
                left.setdefault(name, set()).add(page)
            return name
        return new

    def span(m):
        said = re.sub(r"\((\w+) \.(\w+)\)", r"\1.\2", m[1])
        return "`" + re.sub(rf"{PART}+", token, said) + "`"

    for page in files(PAGES):
        old = respell.read(page)
        parts = re.split(r"(^```.*?^```)", old, flags=re.M | re.S)
        new = "".join(part if part.startswith("```") else re.sub(r"`([^`\n]+)`", span, part) for part in parts)
        if new != old:
            print(f"{page}: {sum(a != b for a, b in zip(old.split(chr(10)), new.split(chr(10))))} lines")
            if not DRY:
                with open(page, "w", encoding="utf-8") as file:
                    file.write(new)
    for name, pages in sorted(left.items()):
        print(f"left: {name} ({', '.join(sorted(pages))})")


if __name__ == "__main__":
    main()
