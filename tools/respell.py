#!/usr/bin/env python3
"""Turns the definitions, fields and lemmas of this repository to snake case, in specs/, proofs/, clauses, must-fail edits and the documents.

usage: respell.py [--check] [ROOT]

A name counts if specs/ or a lemma file (proofs/*.antt) of a crate here declares it, begins with a small letter and has a capital or a dash.
Types, modules, constructors, functions of src/, strings and what Rattle makes keep their names. --check writes nothing and lists what would
fall together.
"""
import collections
import os
import re
import subprocess
import sys

WORD = re.compile(r'[^\s(){}.;,@"«»\[\]⁻]+')
DECL = re.compile(r"^ *(?:(?:abbrev|unfoldable|pub|private|instance) +)*((?:\([^()]*\)|[^\s(){}:=|→λ\"]+)(?: +[^\s(){}:=|→λ\"]+)*) +: ", re.M)
# Lemmas that are spelled as a definition now is: file, name.
LEMMAS = {
    "crates/listing/proofs/": ["first_three"],
    "crates/table_filter/proofs/": ["has_address"],
    "crates/theorem/proofs/": ["load_given"],
    "crates/items/proofs/": ["node_at"],
    "crates/node/proofs/": ["same_address"],
    "crates/reasons/proofs/": ["taken_out"],
    "crates/laws/proofs/SavedSteps": ["write_bytes"],
}


def snake(name):
    name = name.replace("getD", "get_or")
    name = re.sub(r"(?<=[a-z0-9])[A-Z]", lambda m: "_" + m[0].lower(), name)
    return name.replace("-", "_")


def files(root):
    out = subprocess.run(["git", "-C", root, "ls-files"], capture_output=True, text=True, check=True).stdout.split("\n")
    return [f for f in out if f and os.path.isfile(os.path.join(root, f))]


def read(root, f):
    with open(os.path.join(root, f), encoding="utf-8") as it:
        return it.read()


def code_of(text):
    return re.sub(r"--[^\n]*", "", text)


def declared(root, names):
    own = collections.defaultdict(set)
    for f in names:
        if re.fullmatch(r"crates/\w+/(specs/.*|proofs/[^/]+)\.antt", f):
            for m in DECL.finditer(code_of(read(root, f))):
                for n in m[1].split():
                    own[n].add(f)
    return own


def foreign(root, names):
    """Names that some file imports from a library."""
    crates = {f.split("/")[1] for f in names if f.startswith("crates/")}
    out = set()
    for f in names:
        if f.endswith((".antt", ".rt")):
            for path, items in re.findall(r"\buse ([^\s;{]+)\{([^}]*)\}", read(root, f)):
                steps = path.split(".")
                if steps[0] != "Rattle" or steps[1] not in crates:
                    out |= {w for w in WORD.findall(items)}
    return out


def table(root, names):
    own, lib = declared(root, names), foreign(root, names)
    t = {}
    for n in own:
        if not re.match(r"[a-zA-Z]", n) or n in lib:
            continue
        if not (re.search(r"[a-z0-9][A-Z]", n) and n[0].islower() or re.search(r"\w-\w", n)):
            continue
        new = snake(n)
        if new != n:
            t[n] = new
    # a lemma that would have its definition's name gets _lem
    words = [set(re.findall(r"(?<![.\w-])" + WORD.pattern, code_of(read(root, f)))) for f in names if f.endswith(".antt")]
    turned = collections.defaultdict(list)
    for n in t:
        turned[t[n]].append(n)
    for n in sorted(t):
        if "-" in n:
            others = [o for o in turned[t[n]] + [t[n]] if o != n]
            if any(n in w and o in w for w in words for o in others):
                t[n] += "_lem"
    return t


def turn(text, t, strings=True):
    def one(m):
        return t.get(m[0], m[0])

    return WORD.sub(one, text)


def turn_antt(text, t, camel):
    out = []
    for line in text.split("\n"):
        code, dash, comment = line.partition("--") if line.lstrip().startswith("--") else re.match(r"(.*?)(?:( -- )(.*))?$", line, re.S).groups("")
        out.append(turn(code, t) + dash + turn(comment, camel))
    return "\n".join(out)


CLAUSE = re.compile(r"\b(?:requires|ensures)\s*\*?\s*(?:\w+\s*)?\{|\bghost\b\s*(?:\w+\s*(?::\s*(?:(?:owns|lends)\s*)?|=\s*))?\{")


def clauses(text):
    """The spans of clauses and ghost uses."""
    spans = [m.span() for m in re.finditer(r"ghost\s+use\b[^;]*;", text)]
    for m in CLAUSE.finditer(text):
        depth, i = 1, m.end()
        while depth and i < len(text):
            depth += {"{": 1, "}": -1}.get(text[i], 0)
            i += 1
        spans.append((m.start(), i))
    return sorted(spans)


def turn_rt(text, t, camel):
    out, at = [], 0
    for a, b in clauses(text):
        if a < at:
            continue
        out += [re.sub(r"(?m)//[^\n]*", lambda m: turn(m[0], camel), text[at:a]), turn(text[a:b], t)]
        at = b
    out.append(re.sub(r"(?m)//[^\n]*", lambda m: turn(m[0], camel), text[at:]))
    return "".join(out)


def turn_edit(text, t, camel):
    out, rt = [], False
    for line in text.split("\n"):
        head, _, rest = line.partition(": ")
        if head == "file":
            rt = rest.endswith(".rt")
        if head in ("old", "new"):
            line = head + ": " + (turn(rest, camel) if rt and not re.search(r"ghost use|requires|ensures", rest) else turn(rest, t))
        else:
            line = turn(line, camel)
        out.append(line)
    return "\n".join(out)


def main(argv):
    check = "--check" in argv
    argv = [a for a in argv if a != "--check"]
    root = argv[0] if argv else "."
    names = files(root)
    t = table(root, names)
    camel = {o: n for o, n in t.items() if "-" not in o and re.search(r"[a-z0-9][A-Z]", o)}
    if check:
        for k, v in together(root, names, t):
            print(k, v)
        print(len(t), "names")
        return
    for f in names:
        if f.endswith(".antt"):
            lemmas = {n: n + "_lem" for place, ns in LEMMAS.items() if f.startswith(place) for n in ns}
            new = turn_antt(turn(read(root, f), lemmas), t, camel)
        elif f.endswith(".rt"):
            new = turn_rt(read(root, f), t, camel)
        elif f.endswith(".edit"):
            new = turn_edit(read(root, f), t, camel)
        elif f.endswith(".md") and (f.startswith("docs/") or f == "README.md"):
            new = re.sub(r"`[^`\n]+`", lambda m: turn(m[0][1:-1], t).join("``"), read(root, f))
        else:
            continue
        if new != read(root, f):
            with open(os.path.join(root, f), "w", encoding="utf-8") as it:
                it.write(new)
    print(len(t), "names")


def together(root, names, t):
    """Where the new spelling of a name stands already in a file that has the old one."""
    by_new = collections.defaultdict(list)
    for o, n in t.items():
        by_new[n].append(o)
    out = [(n, "both: " + " ".join(os)) for n, os in by_new.items() if len(os) > 1]
    seen = collections.defaultdict(set)
    for f in names:
        if f.endswith((".antt", ".rt")):
            text = re.sub(r"(?m)(--|//)[^\n]*", "", read(root, f))
            words = set(WORD.findall(text))
            for o in words & set(t):
                if t[o] in words:
                    bare = re.search(r'(?<![.\w-])' + re.escape(t[o]) + r'(?![\w\'-])', text)
                    seen[(o, t[o])].add(f + ("" if bare else " (dotted)"))
    return out + [(k, sorted(v)) for k, v in sorted(seen.items())]


if __name__ == "__main__":
    main(sys.argv[1:])
