#!/usr/bin/env python3
"""Counts the places in crates/*/src that docs/DESIGN-PASS.md is about, by the points of that page.

usage: python3 tools/design_counts.py [--list] [COMMIT]     of the working tree, or of a commit; --list names each place
"""
import os
import re
import subprocess
import sys
from collections import defaultdict


def sources(commit):
    if commit:
        names = subprocess.run(["git", "ls-tree", "-r", "--name-only", commit, "crates"], capture_output=True, text=True, check=True).stdout
        for name in names.splitlines():
            if name.endswith((".rt", ".antt")):
                yield name, subprocess.run(["git", "show", f"{commit}:{name}"], capture_output=True, text=True, check=True).stdout
    else:
        for folder, dirs, files in os.walk("crates"):
            dirs[:] = sorted(d for d in dirs if d != "out")
            for f in sorted(files):
                if f.endswith((".rt", ".antt")):
                    name = os.path.join(folder, f)
                    with open(name, encoding="utf-8") as h:
                        yield name, h.read()


HEAD = re.compile(r"^ *(?:pub |pub\(crate\) )?(?:extern \"C\" )?(?:const )?fn (\w+)", re.M)


def functions(text):
    """Each function: its line, name, parameters and result, contract, body, and the comment above it."""
    for m in HEAD.finditer(text):
        line = text.count("\n", 0, m.start()) + 1
        rest = text[m.start():]
        body = re.search(r"^( *)\{\n", rest, re.M)
        start = rest.find("{\n") if body is None else body.start()
        close = re.search(r"^" + (body.group(1) if body else " *") + r"\}", rest[start:], re.M)
        end = start + (close.end() if close else 0)
        head = re.split(r"^ *(?:requires|ensures)", rest[:start], maxsplit=1, flags=re.M)[0]
        above = text[:m.start()].rstrip("\n").split("\n")
        comment = []
        while above and above[-1].lstrip().startswith("//"):
            comment.insert(0, above.pop())
        yield line, m.group(1), head, rest[len(head):start], rest[start:end], "\n".join(comment)


TABLES = [("last", "root", "level"), ("terms", "starts", "postings"), ("second_terms", "second_starts", "second_postings")]
CONVERSIONS = r"\b(?:least|least_u32|one_less|larger|narrow|choose|more|u8_to_u32|u8_to_u64|u16_to_u32|u16_to_usize|u32_to_usize)\("
PRINTING = r"print_decimal|write_all\(STDOUT"


def count(files):
    found = defaultdict(list)
    shapes = defaultdict(list)
    facts = defaultdict(list)
    for name, text in files:
        if name.endswith("Answers.antt"):
            for m in re.finditer(r"^pub (?:\w|-|\+)+ : goal\.", text, re.M):
                found["8 answers in proofs"].append(name)
        if not name.endswith(".rt"):
            continue
        for i, l in enumerate(text.split("\n"), 1):
            place = f"{name}:{i}: {l.strip()}"
            if re.match(r"(pub )?enum ", l) and re.search(r"enum \w+ \{[^}]*\b(Refused|Unreadable)\b", text[text.find(l):]):
                found["1 own enums of the shape of Result"].append(place)
            if re.match(r" +(pub )?\w+: bool,$", l):
                found["1 flags beside a value, as fields and parameters"].append(place)
            if re.match(r"(pub )?const [A-Z_]+: u(32|64) = ([0-9]|1[0-9]|[A-Z]+ as u64( \+ 1)?);", l):
                found["1 numbers for kinds"].append(place)
            if re.match(r"\s*(while |loop \{|'\w+: (while|loop))", l):
                found["3 loops that are no for"].append(place)
            for _ in re.findall(CONVERSIONS, l):
                if not re.search(r"\bfn ", l):
                    found["4 conversions and choices by functions of our own"].append(place)
            for _ in re.findall(PRINTING, l):
                found["4 printing by hand"].append(place)
            if re.search(r"\+ \((\w+) - (\w+)\) / 2", l):
                found["6 sorted tables searched by hand"].append(place)
            if re.match(r" +(pub )?\w+: (&mut )?\[\w+; [\w:]+\],$", l):
                found["6 buffers of a fixed length, as fields and parameters"].append(place)
        for line, fn, head, contract, body, comment in functions(text):
            place = f"{name}:{line}: {fn}"
            if re.search(r"-> u(32|64)\s*$", head) and re.search(r"refus|\brow\b|\brows\b", fn + comment + contract, re.I):
                found["1 functions that give a refusal as a number"].append(place)
            if re.search(r"\bor 0\b|else 0\b|begin at 0", comment) and re.search(r"-> (usize|Found|Start)\s*$", head):
                found["1 a 0 that means none"].append(place)
            names = set(re.findall(r"(\w+): &", head))
            groups = [g for g in TABLES if len(names.intersection(g)) == 3]
            if groups:
                found["5 functions over three tables that travel together"].append(place)
            for f in re.findall(r"requires (?:\w+ )?\{ (.*?) \}\s*$", contract, re.M):
                for part in re.split(r" × ", f):
                    facts[re.sub(r"\s+", " ", part.strip("() "))].append(place)
            code = re.sub(r"//.*", "", body)
            if len(re.findall(r"==? [A-Z_]{3,}\b", code)) + len(re.findall(r"return \w+;\n", code)) >= 4 and code.count("if ") >= 4:
                found["7 chains of tests that choose"].append(place)
            sign = re.sub(r"fn \w+", "fn", re.sub(r"^ *(pub )?", "", head))
            shape = re.sub(r"\b\d[\d_]*\b", "N", re.sub(r"\b[a-zA-Z_]\w*\b", "x", re.sub(r'b?"[^"]*"', "S", sign + code)))
            shape = re.sub(r"\s+", " ", shape)
            if code.count("\n") >= 3:
                shapes[shape].append(place)
    for places in shapes.values():
        if len(places) > 1:
            found["2 functions of the shape of another"] += places
    for fact, places in facts.items():
        if len(set(places)) > 2:
            found["5 facts in the requires of three functions or more"].append(f"{fact}: {len(set(places))} functions, as {places[0]}")
    return found


def main():
    args = [a for a in sys.argv[1:] if a != "--list"]
    found = count(list(sources(args[0] if args else None)))
    for what in sorted(found):
        print(f"{len(found[what]):5}  {what}")
        if "--list" in sys.argv[1:]:
            for place in found[what]:
                print(f"         {place}")


if __name__ == "__main__":
    main()
