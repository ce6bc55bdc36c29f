#!/usr/bin/env python3
"""Brings the repository's own definitions and lemmas to snake case: in clauses, specs/, proofs/, must-fail edits and documents.

usage: tools/spelling.py [--list]     at the top of the repository; --list prints the table of names and writes nothing

Types, modules, functions of src/ and names of libraries keep their spelling. A name that would fall together with another one has its
new name in OWN. A second run changes nothing.
"""
import os
import re
import sys

WORD = re.compile(r'[^\s(){}.;,@"«»`|\[\]]+')
CAMEL = re.compile(r"[a-z][a-z0-9]*(?:[A-Z][A-Za-z0-9]*)+'*$")
DASHED = re.compile(r"[A-Za-z][\w']*(?:-[\w']+)+$")
DECLARED = re.compile(r"^\s*(?:(?:pub|abbrev|unfoldable|let|in|where|mutual|tabled|instance) +)*((?:[^\s(){}.;,@\"«»:]+ +)+): ")
BOUND = re.compile(r"[({]((?:[^\s(){}.;,@\"«»:]+ +)+): ")
LET = re.compile(r"\blet +([^\s(){}.;,@\"«»:]+) *[:=]")
USE = re.compile(r"\b(?:pub )?use ([^\s{;]+)\.\{([^}]*)\}")

# Names that snake case alone would make equal to another name.
OWN = {
    "allPaid": "are_all_paid",
    "lastLine": "last_line_of",
    "bad-check": "bad_check_lem",
    "below-npa": "below_npa_lem",
    "missing-upper": "missing_upper_lem",
    "quote-refusal": "quote_refusal_lem",
    "refused-numbers": "refused_numbers_lem",
    "settle-refusal": "settle_refusal_lem",
    "settled-line": "settled_line_lem",
}
# Names of this repository that keep their spelling.
KEPT = set()


def snake(word):
    tail = re.search(r"'*$", word).group()
    word = word[: len(word) - len(tail)]
    out = []
    for part in word.split("-"):
        if part[:1].islower():
            part = re.sub(r"(?<=[a-z0-9])([A-Z])", lambda m: "_" + m.group(1).lower(), part)
            part = re.sub(r"(?<=_[a-z])([A-Z])(?![a-z])", lambda m: "_" + m.group(1).lower(), part)
        out.append(part)
    return "_".join(out) + tail


def files(root, *ends):
    for folder, dirs, names in os.walk(root):
        dirs[:] = sorted(d for d in dirs if d not in ("out", "target", ".git"))
        for name in sorted(names):
            if name.endswith(ends):
                yield os.path.join(folder, name)


def read(path):
    with open(path, encoding="utf-8") as f:
        return f.read()


def code_of(text):
    return "\n".join(re.split(r"(?:^|(?<=\s))--(?:\s|$)", line)[0] for line in text.splitlines())


def table(root):
    own = set(os.listdir(os.path.join(root, "crates")))
    texts = {p: code_of(read(p)) for p in files(os.path.join(root, "crates"), ".antt")}
    library, declared, used = set(), set(), set()
    for path, text in texts.items():
        for m in USE.finditer(text):
            head = m.group(1).split(".")
            if not (head[0] == "Rattle" and len(head) > 1 and head[1] in own) and head[0] not in ("mir",):
                for item in m.group(2).split(","):
                    library.add(item.split(" as ")[0].strip())
        for line in text.splitlines():
            m = DECLARED.match(line)
            if m:
                declared.update(m.group(1).split())
            for m in BOUND.finditer(line):
                declared.update(m.group(1).split())
            for m in LET.finditer(line):
                declared.add(m.group(1))
        used.update(WORD.findall(text))
    for path in files(os.path.join(root, "crates"), ".rt"):
        for m in USE.finditer(read(path)):
            head = m.group(1).split(".")
            if head[0] == "Rattle" and len(head) > 1 and head[1] not in own:
                library.update(item.strip() for item in m.group(2).split(","))
    names = {}
    for word in sorted(used | declared):
        if word in library or word in KEPT or word.startswith(("Need-", "goal-", "if-", "loop-", "returns-")):
            continue
        if CAMEL.match(word) or (DASHED.match(word) and word in declared):
            new = OWN.get(word) or snake(word)
            if new != word:
                names[word] = new
    return names, used, library


def collisions(root, names, used, library):
    functions = set()
    for path in files(os.path.join(root, "crates"), ".rt"):
        functions.update(re.findall(r"\bfn (\w+)", read(path)))
    back = {}
    for old, new in names.items():
        back.setdefault(new, []).append(old)
    for new, olds in sorted(back.items()):
        others = []
        if len(olds) > 1:
            others.append("and " + ", ".join(olds[1:]))
        if new in used:
            others.append("a word in use")
        if new in library:
            others.append("a library's name")
        if new in functions:
            others.append("a function")
        if others:
            print(f"{olds[0]} -> {new}: {'; '.join(others)}")


def turned(text, names):
    return WORD.sub(lambda m: names.get(m.group(), m.group()), text)


def clauses(text, names):
    """In a source: clauses, ghost uses and what a comment has between backquotes."""
    plain = {o: n for o, n in names.items() if "-" not in o}
    out, depth, inside = [], 0, False
    for line in text.split("\n"):
        if re.match(r"\s*//", line):
            line = re.sub(r"`[^`]*`", lambda m: turned(m.group(), names), line)
        elif inside or re.match(r"\s*(?:requires|ensures|ghost)\b", line):
            line = turned(line, names)
            depth += line.count("{") - line.count("}")
            inside = depth > 0
            if not inside:
                depth = 0
        else:
            line = turned(line, plain)
        out.append(line)
    return "\n".join(out)


def prose(text, names):
    return re.sub(r"`[^`\n]*`", lambda m: re.sub(r"[\w'-]+", lambda w: names.get(w.group(), w.group()), m.group()), text)


def main():
    root = os.getcwd()
    names, used, library = table(root)
    if "--list" in sys.argv[1:]:
        for old, new in sorted(names.items()):
            print(f"{old}\t{new}")
        return
    if "--together" in sys.argv[1:]:
        collisions(root, names, used, library)
        return
    changed = 0
    for path in files(root, ".antt", ".rt", ".edit", ".md"):
        old = read(path)
        if path.endswith(".antt"):
            new = turned(old, names)
        elif path.endswith(".rt"):
            new = clauses(old, names)
        elif path.endswith(".edit"):
            new = "\n".join(turned(l, names) if l.startswith(("old:", "new:")) else prose(l, names) for l in old.split("\n"))
        else:
            new = prose(old, names)
        if new != old:
            with open(path, "w", encoding="utf-8") as f:
                f.write(new)
            changed += 1
    print(f"{len(names)} names, {changed} files")


if __name__ == "__main__":
    main()
