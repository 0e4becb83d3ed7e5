#!/usr/bin/env python3
"""design.py [--other] [--list] [FOLDER]: places that docs/DESIGN-PASS.md counts, in the sources below FOLDER (default
crates).

One line for each point with how many there are; with --list each place too, as POINT FILE:LINE what. A place is
one to look at, found by shape alone: docs/DESIGN-PASS.md says of each whether it was changed or why it stays.
With --other the places are found by other signs, as a test of the first way.
"""
import argparse, collections, glob, itertools, os, re, sys

WORD = re.compile(r"[A-Za-z_]\w*|\d[\w.]*|\S")
KEYWORDS = {"if", "else", "while", "for", "in", "let", "mut", "return", "match", "fn", "pub", "as", "true", "false", "loop",
            "len", "usize"}
FUNCTION = re.compile(r'^(?P<indent>[ \t]*)(?:pub(?:\(crate\))? )?(?:extern "C" )?fn (?P<name>\w+)', re.M)


class Function:
    """A function of a source file: its name, parameters, clauses and body, and where it stands."""

    def __init__(self, path, text, match):
        self.path, self.name = path, match["name"]
        self.line = text.count("\n", 0, match.start("name")) + 1
        end = re.compile(r"^%s\}" % re.escape(match["indent"]), re.M).search(text, match.end())
        one = re.compile(r"\{[^{}\n]*\}\n").search(text, match.end())
        stop = end.end() if end else len(text)
        self.text = text[match.start():stop]
        opened = re.compile(r"^%s\{" % re.escape(match["indent"]), re.M).search(self.text)
        first = self.text.index("\n") if "\n" in self.text else len(self.text)
        cut = opened.start() if opened else (first if self.text[:first].rstrip().endswith("{") else 0)
        self.head, self.body = self.text[:cut], self.text[cut:]
        at = self.text.index("(")
        depth = 0
        for i in range(at, len(self.text)):
            depth += {"(": 1, ")": -1}.get(self.text[i], 0)
            if depth == 0:
                break
        inside = self.text[at + 1:i]
        self.parameters = [tuple(p.strip() for p in q.split(":", 1)) for q in re.split(r",\s*(?![^<\[(]*[>\])])", inside)
                           if ":" in q]
        arrow = re.match(r"\s*->\s*([^\n{]+)", self.text[i + 1:])
        self.result = arrow[1].strip() if arrow else ""

    def clauses(self):
        return re.findall(r"^\s*(requires|ensures)\s+(?:\w+ )?\{ (.*) \}$", self.head, re.M)

    def shape(self):
        """The body and the parameters' number, with names, numbers and types told apart by order alone."""
        seen, out = {}, [str(len(self.parameters))]
        for word in WORD.findall(re.sub(r"//[^\n]*", "", self.body)):
            if word in KEYWORDS or not (word[0].isalpha() or word[0].isdigit() or word[0] == "_"):
                out.append(word)
            else:
                out.append("#%d" % seen.setdefault(word, len(seen)))
        return tuple(out)


def read(folder):
    files, functions = {}, []
    for path in sorted(glob.glob(os.path.join(folder, "*", "src", "**", "*.rt"), recursive=True)):
        text = open(path, encoding="utf-8").read()
        files[path] = text
        bare = re.sub(r"^\s*//[^\n]*$", "", text, flags=re.M)
        functions += [Function(path, bare, m) for m in FUNCTION.finditer(bare)]
    return files, functions


def bodies(files, kind):
    """Each struct or enum: path, line, name, the text between its braces."""
    for path, text in files.items():
        for m in re.finditer(r"^(?:pub )?%s (\w+)[^\n{;(]*\{\n(.*?)^\}" % kind, text, re.M | re.S):
            yield path, text.count("\n", 0, m.start()) + 1, m[1], re.sub(r"//[^\n]*", "", m[2])


def point_1(files, functions):
    for path, line, name, inside in bodies(files, "enum"):
        cases = re.findall(r"^    (\w+)", inside, re.M)
        if set(cases) & {"None", "Absent", "Malformed", "Unknown", "Filled", "Refused"}:
            yield path, line, "enum %s: %s" % (name, " ".join(cases))
    for path, line, name, inside in bodies(files, "struct"):
        for field, of in re.findall(r"(\w+): (\w+)", inside):
            if field in ("refusal", "answer", "sure") and of != "u64" or field.startswith("has_") or field == "sure":
                yield path, line, "struct %s: %s beside a value" % (name, field)
    for f in functions:
        numbers = re.findall(r"(?:==|=>) \(?(?:0x)?\d[\d_]*\b(?!\.)", f.body)
        if len(numbers) >= 3 and "loop" not in f.body:
            yield f.path, f.line, "%s: %d numbers for kinds" % (f.name, len(numbers))
        elif re.search(r"== (?:16|\w+\.len\(\))[ {]", f.body) and re.search(r"return|beats|Malformed", f.body):
            yield f.path, f.line, "%s: a number that stands for none" % f.name


def point_2(files, functions):
    by = collections.defaultdict(list)
    for f in functions:
        shape = f.shape()
        if len(shape) >= 25:
            by[shape].append(f)
    for shape, same in by.items():
        if len(same) > 1:
            for f in same:
                yield f.path, f.line, "%s, as %s" % (f.name, ", ".join(g.name for g in same if g is not f))


def point_3(files, functions):
    for path, text in files.items():
        for m in re.finditer(r"^\s*(?:'\w+: )?(while [^\n]*) \{", text, re.M):
            yield path, text.count("\n", 0, m.start(1)) + 1, m[1]


def point_4(files, functions):
    for f in functions:
        arms = re.findall(r"=> ([^,\n{]+),", f.body)
        literal = [a for a in arms if re.fullmatch(r"true|false|\d+|[A-Z_]+|\w+::\w+", a)]
        if len(arms) >= 2 and len(literal) == len(arms):
            yield f.path, f.line, "%s: a match of literals" % f.name
        elif len(re.findall(r"== \d+ \{\s*return \w+::\w+;", f.body)) >= 2:
            yield f.path, f.line, "%s: a case for each number" % f.name
        elif re.fullmatch(r"\{\s*if \w+ < \w+ \{ (\w+ - \w+|\w+|0) \} else \{ (\w+ - \w+|\w+|0) \}\s*\}", f.body.strip()):
            yield f.path, f.line, "%s: a method of usize" % f.name
        elif re.search(r"return (1|true|_\w+);\s*\} else \{\s*return (0|false);", f.body) or re.fullmatch(
                r"\{\s*(if \w+ == 0|if \w+) \{\s*return [\w.]+;\s*\}\s*[\w. -]+\s*\}", f.body.strip()):
            yield f.path, f.line, "%s: a conversion" % f.name


def point_5(files, functions):
    with_triple = collections.defaultdict(set)
    for i, f in enumerate(functions):
        names = sorted({(n.replace("mut ", ""), re.sub(r"&mut |&", "&", t)) for n, t in f.parameters})
        for triple in itertools.combinations(names, 3):
            with_triple[triple].add(i)
    found = collections.defaultdict(set)
    for triple, where in with_triple.items():
        if len(where) >= 3:
            for i in where:
                found[i] |= {n for n, _ in triple}
    for i in sorted(found):
        f = functions[i]
        yield f.path, f.line, "%s: %s" % (f.name, ", ".join(n for n, _ in f.parameters if n in found[i]))
    by = collections.defaultdict(set)
    for i, f in enumerate(functions):
        for kind, text in f.clauses():
            if kind == "requires":
                by[text].add(i)
    for text, where in by.items():
        if len(where) >= 3:
            f = functions[min(where)]
            yield f.path, f.line, "asked by %d: %s" % (len(where), text)


def point_6(files, functions):
    for path, line, name, inside in bodies(files, "struct"):
        if re.search(r": \[\w+; \w+\]", inside) and re.search(r"\b(\w*count|len|size): usize", inside):
            yield path, line, "struct %s: an array with a count" % name
    for f in functions:
        same = re.findall(r"length (\w+)\.(?:old|now) ≡ (?:length (\w+)\.(?:old|now)|block)\b", f.head)
        if len(same) >= 2:
            yield f.path, f.line, "%s: %d slices of one length" % (f.name, len(same) + 1)


def point_7(files, functions):
    for f in functions:
        if any(n == "fault" for n, _ in f.parameters) and re.search(r"fault == \d", f.body):
            yield f.path, f.line, "%s: by the number of a fault" % f.name
    for path, text in files.items():
        for m in re.finditer(r"\bfn\(", text):
            yield path, text.count("\n", 0, m.start()) + 1, "a function pointer"


def point_8(folder):
    answers = lines = 0
    for path in glob.glob(os.path.join(folder, "*", "proofs", "**", "Answers.antt"), recursive=True):
        text = open(path, encoding="utf-8").read()
        answers += len(re.findall(r"^pub ", text, re.M))
        lines += text.count("\n")
    every = sum(open(p, encoding="utf-8").read().count("\n")
                for p in glob.glob(os.path.join(folder, "*", "proofs", "**", "*.antt"), recursive=True))
    return answers, lines, every


def other_1(files, functions):
    """Functions whose result is a number, or a truth value that something was done: those of C names apart."""
    for f in functions:
        if 'extern "C"' not in f.head and re.fullmatch(r"(u8|u16|u32|u64|bool)", f.result):
            done = f.result == "bool" and any("&mut" in t for _, t in f.parameters)
            kinds = f.result != "bool" and re.search(r"match |if \w+\.is_\w+\(\)", f.body)
            if done or kinds:
                yield f.path, f.line, "%s: -> %s" % (f.name, f.result)


def other_2(files, functions):
    """Pairs of functions of which seven lines that follow each other are the same but for names and numbers."""
    at = collections.defaultdict(set)
    for i, f in enumerate(functions):
        lines = [l.strip() for l in re.sub(r"//[^\n]*", "", f.text).split("\n") if l.strip()]
        for k in range(len(lines) - 6):
            seen, out = {}, []
            for word in WORD.findall("\n".join(lines[k:k + 7])):
                named = word not in KEYWORDS and (word[0].isalpha() or word[0].isdigit() or word[0] == "_")
                out.append("#%d" % seen.setdefault(word, len(seen)) if named else word)
            at[tuple(out)].add(i)
    pairs = {p for where in at.values() for p in itertools.combinations(sorted(where), 2)}
    for i, k in sorted(pairs):
        f, g = functions[i], functions[k]
        yield f.path, f.line, "%s, as %s:%d %s" % (f.name, g.path, g.line, g.name)


def other_3(files, functions):
    for path, text in files.items():
        for m in re.finditer(r"^[^\n/]*(\bloop\b|\bwhile\b|\b(\w+) (\+= 1|= \2 \+ 1);)", text, re.M):
            yield path, text.count("\n", 0, m.start(1)) + 1, m[1]


def other_4(files, functions):
    for path, text in files.items():
        for m in re.finditer(r"^impl[^\n]* (Clone|Copy|PartialEq|Eq|PartialOrd|Ord|Default|Debug|Display)\b[^\n]*", text, re.M):
            yield path, text.count("\n", 0, m.start()) + 1, m[0]
    for f in functions:
        if re.match(r"(is_same|same|equal|copy|clone|print|to|from|as)_|(eq|cmp|clone|fmt|from)$", f.name):
            yield f.path, f.line, f.name


def other_5(files, functions):
    """More than six parameters; and what three functions of a crate ask, whatever their parameters are called."""
    by = collections.defaultdict(set)
    for i, f in enumerate(functions):
        if len(f.parameters) > 6:
            yield f.path, f.line, "%s: %d parameters" % (f.name, len(f.parameters))
        names = {n.replace("mut ", "") for n, _ in f.parameters}
        for kind, text in f.clauses():
            if kind == "requires":
                seen = {}
                plain = re.sub(r"\b[a-z_]\w*\b", lambda m: "#%d" % seen.setdefault(m[0], len(seen)) if m[0] in names
                               else m[0], text)
                by[f.path.split(os.sep)[-3], re.sub(r"\.(old|now|new)\b", "", plain)].add(i)
    for (crate, text), where in sorted(by.items()):
        if len(where) >= 3:
            f = functions[min(where)]
            yield f.path, f.line, "asked by %d: %s" % (len(where), text)


def other_6(files, functions):
    for f in functions:
        for (n, t), (m, u) in zip(f.parameters, f.parameters[1:]):
            if re.match(r"&(mut )?\[", t) and u == "usize" and re.search(r"len|count|size|^n$", m):
                yield f.path, f.line, "%s: %s with %s beside it" % (f.name, n, m)
    for path, line, name, inside in bodies(files, "struct"):
        if len(re.findall(r": (?:\[\w+; \w+\]|&'a \[\w+\])", inside)) >= 3:
            yield path, line, "struct %s: rows side by side" % name


def other_7(files, functions):
    for path, text in files.items():
        for m in re.finditer(r"\bdyn\b|\bfn\(|\bFn(?:Mut|Once)?\(", text):
            yield path, text.count("\n", 0, m.start()) + 1, m[0]
    for f in functions:
        numbers = re.findall(r"^\s*\d+ => ", f.body, re.M)
        if len(numbers) >= 2:
            yield f.path, f.line, "%s: a branch for each of %d numbers" % (f.name, len(numbers))


def main():
    parser = argparse.ArgumentParser(description=__doc__, formatter_class=argparse.RawDescriptionHelpFormatter)
    parser.add_argument("folder", nargs="?", default="crates")
    parser.add_argument("--list", action="store_true")
    parser.add_argument("--other", action="store_true")
    given = parser.parse_args()
    if not os.path.isdir(given.folder):
        sys.exit("design.py: no folder %s" % given.folder)
    files, functions = read(given.folder)
    ways = (point_1, point_2, point_3, point_4, point_5, point_6, point_7)
    if given.other:
        ways = (other_1, other_2, other_3, other_4, other_5, other_6, other_7)
    for number, point in enumerate(ways, 1):
        places = list(point(files, functions))
        print("point %d: %d places" % (number, len(places)))
        if given.list:
            for path, line, what in places:
                print("  %d %s:%d %s" % (number, path, line, what))
    print("point 8: %d answers in %d lines; %d lines of proofs" % point_8(given.folder))


if __name__ == "__main__":
    main()
