#!/usr/bin/env python3
"""design_count [POINT..]: places of older forms in crates/*/src, by the points of docs/DESIGN-PASS.md, each as file:line and what stands there.

It reads text and judges nothing: a place that it names may be right as it is, with a line `// Kept:` beside it. Run it at the top of the repository.
  1  own enums; fields, parameters and results that are a number of a refusal or a kind; results with a number for none
  2  functions of one shape (names, types and numbers aside)
  3  while loops; for loops over a range whose body indexes a table by the counter
  4  comparisons field by field, constructors of zeros, casts by function, texts and numbers written by hand
  5  lists of seven parameters or more; parts of clauses that three functions or more have
  6  arrays of a fixed length that are written as a type or made; indices that go round
  7  parameters that are flags; matches on numbers
  8  lines and goals of the proofs of functions
"""
import glob
import re
import sys
from collections import defaultdict

FILES = sorted(glob.glob("crates/*/src/**/*.rt", recursive=True))
WORD = re.compile(r"[A-Za-z_][A-Za-z_0-9]*|\d+|\S")
KEYWORDS = set("fn let mut if else while for in match return as usize u8 u16 u32 u64 bool true false pub crate self Self impl struct enum loop break".split())


def functions(path):
    """(line, name, parameters, result, clauses, body, the comment above) of each function of a file."""
    text = open(path, encoding="utf-8").read()
    lines = text.split("\n")
    out = []
    for hit in re.finditer(r"^([ \t]*)(?:pub(?:\(\w+\))? )?(?:unsafe )?(?:extern \"C\" )?fn (\w+)", text, re.M):
        start = text.index("(", hit.end())
        depth, i = 0, start
        while True:
            depth += {"(": 1, ")": -1}.get(text[i], 0)
            i += 1
            if depth == 0:
                break
        parameters = text[start + 1 : i - 1]
        line = text.count("\n", 0, hit.start()) + 1
        indent = hit.group(1)
        # The body begins with a brace that stands alone or ends the line of the signature.
        tail = re.compile(r"^" + indent + r"\{$|\{$", re.M).search(text, i)
        end = re.compile(r"^" + indent + r"\}", re.M).search(text, i)
        if not tail or not end:
            continue
        result = re.match(r"\s*->\s*([^\n{]+)", text[i:])
        body = text[tail.end() : end.start()] if tail.start() < end.start() else ""
        above = []
        for k in range(line - 2, -1, -1):
            if lines[k].strip().startswith(("//", "#[")):
                above.append(lines[k].strip())
            else:
                break
        out.append((line, hit.group(2), parameters, result.group(1).strip() if result else "", text[i : tail.start()], body, " ".join(reversed(above))))
    return out


def split(parameters):
    return [p.strip() for p in re.split(r",(?![^<(\[]*[>)\]])", parameters) if p.strip()]


def code(text):
    return re.sub(r"//[^\n]*", "", text)


def point1():
    for path in FILES:
        text = open(path, encoding="utf-8").read()
        for number, line in enumerate(text.split("\n"), 1):
            if re.match(r"\s*(pub(\(\w+\))? )?enum \w+", line):
                yield path, number, line.strip()
            elif re.match(r"\s*(pub(\(\w+\))? )?(code|place|kind): (usize|u32|u8),", line):
                yield path, number, "field " + line.strip()
        for line, name, parameters, result, clauses, body, above in functions(path):
            if re.search(r"\b(code|kind): (usize|u32|u8)\b", parameters):
                yield path, line, f"parameter of {name}"
            if result in ("usize", "u8", "u16", "u32") and re.search(
                r"\b(or|else|and) (0|m|M|k|T|65535)\b|0 (where|for|at)|0 means|\b0, 5, 6|or nothing|65535|by which|number of a kind|by its number", above
            ):
                yield path, line, f"result of {name}: {above[:110]}"


def point2():
    shapes = defaultdict(list)
    for path in FILES:
        for line, name, parameters, result, clauses, body, above in functions(path):
            names, tokens = {}, []
            for token in WORD.findall(code(body)):
                if re.match(r"\d", token):
                    token = "#"
                elif re.match(r"[A-Za-z_]", token) and token not in KEYWORDS:
                    token = names.setdefault(token, f"n{len(names)}")
                tokens.append(token)
            if len(tokens) >= 30:
                shapes[" ".join(tokens)].append((path, line, name))
    for group in shapes.values():
        if len(group) > 1:
            first = group[0]
            for other in group[1:]:
                yield other[0], other[1], f"{other[2]} has the shape of {first[2]}, {first[0]}:{first[1]}"


def point3():
    for path in FILES:
        lines = open(path, encoding="utf-8").read().split("\n")
        for number, line in enumerate(lines, 1):
            indent = len(line) - len(line.lstrip())
            head = re.match(r"\s*(?:'\w+: )?(while|for) (.*)\{$", line)
            if not head:
                continue
            body = []
            for after in lines[number:]:
                if after.strip() and len(after) - len(after.lstrip()) <= indent:
                    break
                body.append(after)
            text = code("\n".join(body))
            if head.group(1) == "while":
                counted = [w for w in re.findall(r"\b[a-z_]+\b", head.group(2)) if re.search(rf"\b{w} [+-]= 1;", text)]
                yield path, number, ("counted " if counted else "followed ") + line.strip()
            else:
                over = re.match(r"(\w+) in (.*\.\..*)", head.group(2))
                if over and re.search(rf"\w\[(?:[^\]]*\W)?{over.group(1)}(?:\W[^\]]*)?\]", text):
                    yield path, number, "indexed " + line.strip()


def point4():
    for path in FILES:
        for line, name, parameters, result, clauses, body, above in functions(path):
            text = code(body)
            same = re.findall(r"(\w+)\.(\w+) == (\w+)\.\2\b", text)
            if len(same) > 1:
                yield path, line, f"{name} compares {len(same)} fields"
            if len(re.findall(r"\w+: (?:0|\[0; \d+\]|\w+::none\(\)),", text)) > 2:
                yield path, line, f"{name} makes zeros"
            if re.fullmatch(r"\s*\w+ as \w+\s*", text):
                yield path, line, f"{name} is a cast"
            if re.search(r"print::report\(|48 \+", text):
                yield path, line, f"{name} writes text or digits by hand"
            if re.search(r"\b(read|from|code|kind)", name) and re.search(r"match \w+ \{", text) and re.search(r"=> \d+,", text):
                yield path, line, f"{name} is a table of numbers"


def point5():
    parts = defaultdict(set)
    for path in FILES:
        for line, name, parameters, result, clauses, body, above in functions(path):
            if len(split(parameters)) >= 7:
                yield path, line, f"{name} has {len(split(parameters))} parameters"
            for clause in re.findall(r"(?:requires|ensures)(?: \w+)? \{(.*?)\}", clauses, re.S):
                for part in re.split(r" × ", " ".join(clause.split())):
                    parts[part.strip(" ()")].add((path, line, name))
    for part, where in parts.items():
        if len(where) >= 3 and len(part) > 12:
            path, line, name = sorted(where)[0]
            yield path, line, f"{len(where)} functions have {part[:90]}"


def point6():
    for path in FILES:
        for number, line in enumerate(open(path, encoding="utf-8").read().split("\n"), 1):
            line = code(line)
            if re.search(r"\[\w+; \d+\]", line):
                yield path, number, "fixed " + line.strip()[:100]
            if re.search(r"\[[^\[\]]*% \d+\]", line):
                yield path, number, "goes round " + line.strip()[:100]


def point7():
    for path in FILES:
        for line, name, parameters, result, clauses, body, above in functions(path):
            for p in split(parameters):
                if re.search(r": bool$", p):
                    yield path, line, f"{name}({p})"
            text = code(body)
            if re.search(r"match [^{]*\{\s*\d", text):
                yield path, line, f"{name} matches on a number"


def point8():
    for crate in sorted(glob.glob("crates/*")):
        answers = glob.glob(crate + "/proofs/*/**/Answers.antt", recursive=True)
        others = glob.glob(crate + "/proofs/*/**/*.antt", recursive=True)
        laws = glob.glob(crate + "/proofs/*.antt")
        goals = sum(len(re.findall(r"^pub [\w-]+ : goal\.", open(p, encoding="utf-8").read(), re.M)) for p in answers)
        count = lambda paths: sum(len(open(p, encoding="utf-8").read().split("\n")) - 1 for p in paths)
        if others or laws:
            yield crate, 0, f"{goals} answers; {count(others)} lines for functions, {count(laws)} of laws"


def main():
    points = {"1": point1, "2": point2, "3": point3, "4": point4, "5": point5, "6": point6, "7": point7, "8": point8}
    for key in sys.argv[1:] or sorted(points):
        rows = list(points[key]())
        for path, line, what in rows:
            print(f"{key} {path}:{line} {what}")
        print(f"{key} = {len(rows)}")


main()
