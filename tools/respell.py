#!/usr/bin/env python3
"""Brings this repository's own definitions and lemmas to the spelling of today's Rattle: words in snake case, types in camel case.

usage: python3 tools/respell.py [--look]      at the top, once, right after port.py

A name is renamed where the repository declares it: a definition, lemma, field or constructor of specs/ or proofs/ whose name has a dash, and the
proof of a function, f-spec. Names of the library keep their dashes. With --look it writes nothing, and says which names fall together.
"""
import os
import re
import sys

NAME = r"[^\s(){}.,;:«»\[\]|\"◌`→]+"
TOKEN = re.compile(NAME)
DECLARED = re.compile(r"^\s*(?:(?:abbrev|unfoldable|pub|record|data|ruleset) )*(" + NAME + r")(?: :|.* where| \(.*\) :| \(|\s=)")
PROOF = re.compile(r"^pub (\S+-spec) : ")
TYPE = re.compile(r"^\s*(?:(?:abbrev|unfoldable|pub) )*(\S+) : .*Type 0\s*$")
OWN_PROOFS = ("Proof.antt", "Invariants.antt", "Answers.antt")


def files():
    for folder, dirs, names in os.walk("crates"):
        dirs[:] = sorted(d for d in dirs if d != "out")
        for n in sorted(names):
            if n.endswith((".antt", ".rt", ".edit")):
                yield os.path.join(folder, n)


def read(path):
    with open(path, encoding="utf-8") as f:
        return f.read()


def own_crates():
    with open("crates.txt", encoding="utf-8") as f:
        return {l.split(":")[0].split()[0] for l in f if ":" in l and not l.startswith("#")}


def camel(name):
    return "".join(w[:1].upper() + w[1:] for w in name.split("-"))


def declared():
    names = {}
    for p in files():
        if not p.endswith(".antt"):
            continue
        for m in re.finditer(r"^use Rattle\.\S+ as ([a-z]\w*-[\w-]+)$", read(p), re.M):
            names[m.group(1)] = m.group(1).replace("-", "_")
        for line in read(p).split("\n"):
            if os.path.basename(p) in OWN_PROOFS:
                m = PROOF.match(line)
                if m:
                    names[m.group(1)] = m.group(1).replace("-", "_")
                continue
            m = TYPE.match(line)
            if m and "-" in m.group(1):
                names[m.group(1)] = camel(m.group(1))
                continue
            m = DECLARED.match(line)
            if m and "-" in m.group(1).strip("-") and not m.group(1).startswith("-") and re.search(r"\w-\w|[^\s]-\w", m.group(1)):
                names.setdefault(m.group(1), m.group(1).replace("-", "_"))
    return names


def foreign(text, own):
    """The names that a file takes from a library."""
    found = set()
    for m in re.finditer(r"use ([\w.]+)\.\{([^}]*)\}", text):
        path = m.group(1).split(".")
        if path[0] == "Rattle" and len(path) > 1 and path[1] in own:
            continue
        for n in m.group(2).split(","):
            found |= set(n.split())
    return found


def unquoted(text):
    """A name that is a Rust identifier now needs no quotes."""
    return re.sub(r"«([a-z][a-z0-9]*_[a-z0-9_]*)»", r"\1", text)


def parts(line, mark):
    """A line as code and the rest: comments, in which only names in backquotes are ours, and strings, in which none is."""
    out, i, n, code = [], 0, len(line), ""
    while i < n:
        if line.startswith(mark, i) and (i == 0 or line[i - 1] in " \t"):
            out.append((code, True))
            out.append((line[i:], False))
            return out
        if line[i] == '"':
            j = line.find('"', i + 1)
            j = n if j < 0 else j + 1
            out.append((code, True))
            out.append((line[i:j], None))
            code, i = "", j
            continue
        code += line[i]
        i += 1
    out.append((code, True))
    return out


def turned(text, names, mark):
    put = lambda m: names.get(m.group(0), m.group(0))
    lines = []
    for line in text.split("\n"):
        made = ""
        for piece, is_code in parts(line, mark):
            if is_code:
                made += TOKEN.sub(put, piece)
            elif is_code is False:
                made += re.sub(r"`[^`]*`", lambda m: TOKEN.sub(put, m.group(0)), piece)
            else:
                made += piece
        lines.append(made)
    return "\n".join(lines)


def main(argv):
    own, names = own_crates(), declared()
    if "--look" in argv:
        taken = {}
        for p in files():
            if p.endswith(".antt") and os.path.basename(p) not in OWN_PROOFS:
                for line in read(p).split("\n"):
                    m = DECLARED.match(line)
                    if m and m.group(1) not in names:
                        taken.setdefault(m.group(1), set()).add(p)
        for old, new in sorted(names.items()):
            if new in taken:
                print(f"{old} falls together with {new} of {' '.join(sorted(taken[new]))}")
        for p in files():
            text = read(p)
            words = set(TOKEN.findall(text))
            both = foreign(text, own) & set(names)
            if both:
                print(f"{p}: a library's: {' '.join(sorted(both))}")
            hidden = {names[w] for w in words if w in names} & words
            if hidden:
                print(f"{p}: there already: {' '.join(sorted(hidden))}")
        print(f"{len(names)} names")
        return 0
    changed = 0
    for p in files():
        text = read(p)
        of_library = foreign(text, own)
        mine = {k: v for k, v in names.items() if k not in of_library}
        new = unquoted(turned(text, mine, "--" if p.endswith(".antt") else "//"))
        if new != text:
            with open(p, "w", encoding="utf-8") as f:
                f.write(new)
            changed += 1
    print(f"{len(names)} names, {changed} files")
    return 0


if __name__ == "__main__":
    raise SystemExit(main(sys.argv[1:]))
