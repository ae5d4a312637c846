#!/usr/bin/env python3
"""Respells the names of this repository's definitions and lemmas as today's Rattle spells names: words in snake case, a dash between two
names only, `_lem` behind a lemma that would have its function's name. Run once, at the top, on the commit that port.py made.

usage: respell.py [--list]     --list prints the table and writes nothing

It goes by the names that .antt files declare outside the folders of functions (proofs/F/Proof.antt), and turns whole words: in .antt files, in
the clauses and `ghost use` items of .rt files, in must-fail edits and in the pages' code spans. Functions of src/, strings and outputs keep
their names. It stops where two names would fall together."""
import collections
import glob
import os
import re
import sys

# Functions of the library that names of lemmas join by a dash.
STD = set("length take drop append map filter sets get_or max min insert sort".split())
# Names that would fall together with another one, or read worse by the rule.
OWN = {
    "join_kept": "join_kept_lem",
    "raised_at": "raised_at_lem",
    "run_none": "run_none_lem",
    "in_order": "in_order_kept",
    "sameRow-refl": "same_row-refl",
}
WORD = r"[^\s(){}.;,@\"«»:=|\[\]`]+"
DECLARED = re.compile(rf"^(\s*)(?:(abbrev|unfoldable|ruleset)\s+)?(?:pub\s+)?(?:(abbrev|unfoldable|ruleset|record|data)\s+)?({WORD})(?:\s+[({{][^:]*:[^=]*)?\s+[:=]\s")
QUIET = ("use ", "pub use ", "--", "section", "module", "mod ", "pub mod", "unfolding", "where", "let ", "in ", "deriving")


def antt_files():
    return sorted(glob.glob("crates/*/specs/**/*.antt", recursive=True) + glob.glob("crates/*/proofs/**/*.antt", recursive=True))


def is_walk(path):
    return os.path.basename(os.path.dirname(path)) != "proofs" and os.path.basename(path) in ("Proof.antt", "Answers.antt", "Invariants.antt")


def snake(part):
    if part[:1].isupper():
        return part
    return re.sub(r"(?<=[a-z0-9])([A-Z])", lambda m: "_" + m.group(1).lower(), part)


def declared():
    """Each declared name: 'definition', 'field' or 'lemma'."""
    names = collections.OrderedDict()
    for path in antt_files():
        if is_walk(path):
            continue
        in_record = False
        for line in open(path, encoding="utf-8"):
            if line.strip() and not line[0].isspace():
                in_record = line.startswith(("pub record ", "record "))
            if line.strip().startswith(QUIET):
                continue
            m = DECLARED.match(line)
            if not m:
                continue
            name = m.group(4)
            definition = "/specs/" in path or {m.group(2), m.group(3)} & {"abbrev", "unfoldable", "record", "data"}
            kind = "field" if in_record and m.group(1) else "definition" if definition else "lemma"
            if names.get(name) != "definition":
                names[name] = kind
    return names


def imported():
    words = set()
    for path in antt_files():
        text = open(path, encoding="utf-8").read()
        for m in re.finditer(r"(?m)^(?:pub )?use (?!Rattle\.(?!std\b|core\b|io\b))([^\s{]+)\{([^}]*)\}", text):
            words |= {w.strip().split(" as ")[0] for w in m.group(2).split(",")}
    return words


def table():
    names, taken = declared(), imported()
    heads = {snake(n) for n, kind in names.items() if kind == "definition" and "-" not in n and "_" in snake(n)} | STD
    new = {}
    for name, kind in names.items():
        if name in taken or name[:1].isupper() and "-" not in name:
            continue
        parts = [snake(p) for p in name.split("-")]
        out = parts[0]
        for before, part in zip(parts, parts[1:]):
            out += ("-" if kind == "lemma" and before in heads and part in heads else "_") + part
        out = OWN.get(name, out)
        if out != name:
            new[name] = out
    words = set()
    for path in antt_files():
        if not is_walk(path):
            text = re.sub(r"(?m)--[^\n]*|^(?:pub )?use [^{\n]*|^(?:pub )?mod .*", "", open(path, encoding="utf-8").read())
            words |= set(re.findall(WORD, text))
    sources = collections.Counter(new.values())
    for name in list(new):
        out = new[name]
        if names[name] != "field" and (out in words and out not in new or sources[out] > 1 and "-" in name):
            new[name] = out + "_lem"
    return new, words, names


def main():
    new, words, names = table()
    # a field may have the name of a definition: it is only named behind a dot or in its own record
    spelled = [out for name, out in new.items() if names[name] != "field"]
    bad = [n for n, c in collections.Counter(spelled).items() if c > 1] + [n for n in spelled if n in words and n not in new]
    if "--list" in sys.argv:
        for a, b in new.items():
            print(f"{a}\t{b}")
        print("fall together:", bad)
        return
    if bad:
        sys.exit("these fall together: " + " ".join(bad))
    word = re.compile(rf"\.?{WORD}")
    quiet = re.compile(r"\"(?:[^\"\\\n]|\\.)*\"|--[^\n]*")
    span = re.compile(r"`[^`\n]*`")
    clause = re.compile(r"ghost use [^;]*;|(?:requires|ensures)\s*\w*\s*\{(?:[^{}]|\{[^{}]*\})*\}")
    fields = {n for n, kind in names.items() if kind == "field"}

    def turn(text, walk=False):
        def one(m):
            dot = "." if m.group(0)[0] == "." else ""
            name = m.group(0)[len(dot) :]
            if name not in new:
                return m.group(0)
            # behind a dot a walk names its own steps, which are named after functions
            return dot + (name.replace("-", "_") if walk and dot and name not in fields else new[name])

        return word.sub(one, text)

    def comment(text):
        text = span.sub(lambda m: turn(m.group(0)), text)
        return re.sub(r"\w+", lambda m: new.get(m.group(0), m.group(0)) if re.search("[a-z][A-Z]", m.group(0)) else m.group(0), text)

    def antt(text, walk=False):
        out, at = [], 0
        for m in quiet.finditer(text):
            out += [turn(text[at : m.start()], walk), comment(m.group(0)) if m.group(0)[0] == "-" else m.group(0)]
            at = m.end()
        return "".join(out) + turn(text[at:], walk)

    for path in antt_files():
        rewrite(path, lambda t: antt(t, is_walk(path)))
    for path in glob.glob("crates/*/src/**/*.rt", recursive=True):
        rewrite(path, lambda t: clause.sub(lambda m: turn(m.group(0)), t))
    for path in glob.glob("crates/*/must-fail/*.edit"):
        rewrite(path, antt)
    for path in ["README.md", "samples/README.md", "bench/README.md"] + glob.glob("docs/*.md"):
        rewrite(path, lambda t: span.sub(lambda m: turn(m.group(0)), t))


def rewrite(path, turned):
    old = open(path, encoding="utf-8").read()
    text = turned(old)
    if text != old:
        open(path, "w", encoding="utf-8").write(text)


if __name__ == "__main__":
    main()
