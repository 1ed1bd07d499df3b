#!/usr/bin/env python3
"""Brings the repository's own definitions and lemmas to snake case.

usage: python3 tools/respell.py            at the top of the repository, once, right after the port script

Renamed are the names that a file of specs/ or a lemma file of proofs/ defines (fields and constructors too): `insideWeight` and
`inside-weight` become `inside_weight`. Functions of src/, C names, strings and comments' words keep their spelling. Two names of one
file that would fall together are listed, and then nothing is written.
"""
import os
import re
import sys

TOKEN = re.compile(r"[A-Za-z_][A-Za-z0-9_'₀-₉ᴰ-]*")
HEAD = re.compile(r"^(\s*)(?:(?:abbrev|unfoldable|pub|ruleset)\s+)*([^\s(){}.,;:]+(?: [^\s(){}.,;:]+)*)(?: \{[^}]*\})*\s+:\s")
# a definition whose plain snake case is a parameter's name where it is cited
OTHER = {"fullWidth": "full_width_of", "fullHeight": "full_height_of"}
# a lemma whose plain snake case is a definition's or a function's name where it is cited
LEMMAS = """before-inside box-kept column-mass first-accepted second-accepted job-length line-told row-after row-boxed row-mass
same-gray same-leftover too-heavy total-after refusal-line read-picture refused-by""".split()
OTHER.update((n, n.replace("-", "_") + "_lem") for n in LEMMAS)
# the same for a lemma that the port script turned already: the folder, the name there, and what the definition is still called
TURNED = [("crates/report/", "not_opened", "not_opened_lem")]


def snake(name):
    """`insideWeight` and `inside-weight` as `inside_weight`."""
    if name in OTHER:
        return OTHER[name]
    out = re.sub(r"(?<=[a-z0-9])([A-Z])", lambda m: "_" + m.group(1).lower(), name)
    return out.replace("-", "_")


def files(ends):
    for top in sorted(os.listdir("crates")):
        for folder, dirs, names in os.walk(os.path.join("crates", top)):
            dirs[:] = sorted(d for d in dirs if d not in ("out", ".git"))
            for f in sorted(names):
                if f.endswith(ends):
                    yield os.path.join(folder, f)


def own(path):
    parts = path.split(os.sep)
    return path.endswith(".antt") and parts[2] in ("specs", "proofs") and len(parts) == 4 and parts[3] != "Lib.antt"


def defined():
    names = set()
    for p in files((".antt",)):
        if not own(p):
            continue
        for line in open(p, encoding="utf-8"):
            m = HEAD.match(line)
            if m and not line.lstrip().startswith("--") and ("pub" in line.split(":")[0].split() or m.group(1) in ("", "  ")):
                names.update(m.group(2).split())
    return {n for n in names if TOKEN.fullmatch(n) and n[0].islower() and snake(n) != n}


def turn_line(line, names, rust):
    """One line respelled, and the tokens that it has before and after."""
    pairs = []
    note = line.find("--") if not rust else line.find("//")
    code, rest = (line, "") if note < 0 else (line[:note], line[note:])

    def put(m):
        t = m.group(0)
        at = m.start()
        dotted = at > 0 and code[at - 1] == "."
        new = t
        if t in names:
            camel = re.search("[A-Z]", t) is not None
            # a dash name behind a dot is a field of a generated record, unless the path is a module's
            path = re.search(r"[A-Za-z_'.]*$", code[:at]).group(0)
            if camel or not dotted or re.match(r"(Rattle\.)|([A-Z][A-Za-z]*\.$)", path) or t in FIELDS:
                new = snake(t)
        pairs.append((t, new, dotted))
        return new

    out = TOKEN.sub(put, code)
    if rest:
        # names that a comment cites
        rest = re.sub(r"`([^`]*)`", lambda m: "`" + TOKEN.sub(lambda n: snake(n.group(0)) if n.group(0) in names else n.group(0), m.group(1)) + "`", rest)
    return out + rest, pairs


FIELDS = set()


def main():
    names = defined()
    written = {}
    bad = []
    pages = ["README.md"] + sorted(os.path.join("docs", f) for f in os.listdir("docs"))
    for p in list(files((".antt", ".rt", ".edit"))) + pages:
        text = open(p, encoding="utf-8").read()
        rust = p.endswith((".rt", ".edit"))
        if p.endswith(".md"):
            new = re.sub(r"`([^`\n]*)`", lambda m: "`" + TOKEN.sub(lambda n: snake(n.group(0)) if n.group(0) in names else n.group(0), m.group(1)) + "`", text)
            if new != text:
                written[p] = new
            continue
        out, seen = [], {}
        for line in text.split("\n"):
            for folder, lemma, new_lemma in TURNED:
                if p.startswith(folder) and p.endswith(".antt"):
                    line = re.sub(r"(?<![\w.'-])" + lemma + r"(?![\w.'-])", new_lemma, line)
            new, pairs = turn_line(line, names, rust)
            for a, b, dotted in pairs:
                seen.setdefault(b, set()).add(a)
            out.append(new)
        for b, olds in seen.items():
            if len(olds) > 1:
                bad.append((p, b, sorted(olds)))
        new = "\n".join(out)
        if new != text:
            written[p] = new
    for p, b, olds in bad:
        print("falls together:", p, b, olds)
    if bad and "--force" not in sys.argv:
        print(len(bad), "places; nothing written")
        raise SystemExit(1)
    for p, t in written.items():
        open(p, "w", encoding="utf-8").write(t)
    print(len(names), "names,", len(written), "files")


if __name__ == "__main__":
    main()
