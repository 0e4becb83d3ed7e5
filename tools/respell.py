#!/usr/bin/env python3
"""Respells this repository's own words as today's Rattle spells them: definitions, lemmas and the
fields of records in snake case, with no dash; types keep their capitals. It is run once, at the top,
after the kit's port.py. Names of src/, names that Rattle makes and names of libraries stay.

usage: tools/respell.py [--check]
"""
import os
import re
import sys

TOKEN = re.compile(r"(\.?)([^\W\d][\w'′]*(?:-[\w'′]+)*)")
DECLARED = re.compile(r"^(\s*)(?:abbrev |unfoldable |pattern )*(?:pub )?((?:[^\W\d][\w'′-]*)(?: [^\W\d][\w'′-]*)*) :\s")
HEAD = re.compile(r"^(\s*)(?:pub )?(record|data) ")
# A new name that would fall together with another gets this one instead.
OTHER = {"trackCount": "count_of_track", "bestOf": "best_offset_of"}
# Words of other records or of libraries that a lemma's or a fact's new name would be: it ends in _lem.
TAKEN = {"at_least", "at_most", "is_nan", "log_at", "nan_bits", "offset_of", "size_of"}


def texts(ending):
    for folder, dirs, files in os.walk("crates"):
        dirs[:] = sorted(d for d in dirs if d != "out")
        for f in sorted(files):
            if f.endswith(ending):
                yield os.path.join(folder, f)


def read(path):
    with open(path, encoding="utf-8") as f:
        return f.read()


def snake(name):
    """The word in snake case. A type at the head of a name keeps its capital and its dash."""
    head, tail = "", name
    if name[0].isupper():
        if "-" not in name:
            return name
        head, tail = name.split("-", 1)
        head += "-"
    tail = tail.replace("′", "'").replace("-", "_")
    tail = re.sub(r"(?<=[a-z0-9])([A-Z])", lambda m: "_" + m[1].lower(), tail)
    return head + tail


def declared():
    """Words that specs/ and proofs/ declare, and those among them that are fields."""
    words, fields = {}, set()
    for path in texts(".antt"):
        made = path.endswith("Proof.antt")
        record = None
        for line in read(path).splitlines():
            if line.lstrip().startswith("--"):
                continue
            indent = len(line) - len(line.lstrip())
            if record is not None and line.strip() and indent <= record:
                record = None
            h = HEAD.match(line)
            if h:
                record = len(h[1])
                continue
            m = DECLARED.match(line)
            if not m:
                continue
            if made and (re.search(r" : (tie\.|.*\bstatement\b)", line) or re.search(r":: ", line)):
                continue
            for n in m[2].split():
                words.setdefault(n, path)
                if record is not None:
                    fields.add(n)
    return words, fields


def renamed():
    words, fields = declared()
    names = {}
    for n in words:
        new = OTHER.get(n, snake(n))
        if new != n:
            names[n] = new
    camel = {new for n, new in names.items() if "-" not in n}
    for n, new in names.items():
        if "-" in n and (new in camel or new in TAKEN):
            names[n] = new + "_lem"
    return names, fields, words


def foreign(text):
    """Words that a file takes from a library."""
    own = set(os.listdir("crates"))
    found = set()
    for m in re.finditer(r"^(?:ghost |pub )?use ([\w.']+)\.\{([^}]*)\}", text, re.M):
        parts = m[1].split(".")
        if parts[0] != "Rattle" or parts[1] not in own:
            found |= {it.strip().split(" as ")[0] for it in m[2].split(",")}
    return found


def respelled(text, names, fields):
    others = foreign(text)

    def one(m):
        dot, n = m[1], m[2]
        if n not in names or n in others or (dot and n not in fields):
            return m[0]
        return dot + names[n]

    return TOKEN.sub(one, text)


def clauses(text, names, fields):
    """A source file, respelled in comments, in what is imported for clauses, and in clauses."""
    out = []
    inside = False
    for line in text.splitlines(keepends=True):
        s = line.lstrip()
        ghost = s.startswith(("ghost ", "//", "requires", "ensures"))
        if ghost or inside:
            line = respelled(line, names, fields)
        if s.startswith("ghost use"):
            inside = ";" not in line
        elif ghost and not s.startswith("//"):
            inside = line.count("{") > line.count("}")
        elif inside:
            inside = "}" not in line and ";" not in line
        out.append(line)
    return "".join(out)


def main(argv):
    names, fields, words = renamed()
    if argv:
        for n, new in sorted(names.items()):
            print(n, new)
        return
    for path in texts(".antt"):
        text = read(path)
        new = respelled(text, names, fields)
        if new != text:
            with open(path, "w", encoding="utf-8") as f:
                f.write(new)
    for path in texts(".rt"):
        text = read(path)
        new = clauses(text, names, fields)
        if new != text:
            with open(path, "w", encoding="utf-8") as f:
                f.write(new)


main(sys.argv[1:])
