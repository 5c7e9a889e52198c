#!/usr/bin/env python3
"""Respells this repository's own definitions, lemmas, constructors and fields: words in snake case, types and facts in camel case.

usage: python3 tools/spelling.py [--list]        at the top of the repository, once, right after the toolchain's port.py

--list prints each old and new name and changes nothing. Functions of src/, exported C names, strings, inputs and outputs keep their names.
"""
import os
import re
import sys
import collections

NAME = r"[^\s(){}\[\],;.:]+"
WORD = re.compile(r"[A-Za-z][\w'′-]*")
# Functions that would fall together with a field, or with a constructor, of the same file.
OTHER = {"firstLine": "first_line_of", "versionLine": "version_line_of", "nextLines": "next_lines_of", "cutShort": "cut_short_lent", "in-float": "in_float_lem"}


def walk(top, endings):
    for folder, dirs, files in os.walk(top):
        dirs[:] = sorted(d for d in dirs if d not in ("out", ".git", "target", "build"))
        for f in sorted(files):
            if f.endswith(endings):
                yield os.path.join(folder, f)


def read(p):
    with open(p, encoding="utf-8", newline="") as f:
        return f.read()


def declared():
    kinds = collections.defaultdict(set)
    where = collections.defaultdict(set)

    def add(n, kind, p):
        kinds[n].add(kind)
        where[n].add(p)

    for p in walk("crates", (".antt",)):
        mode = None
        lines = read(p).split("\n")
        for i, line in enumerate(lines):
            m = re.match(rf"(?:(?:pub|abbrev|unfoldable) )*(data|record) ({NAME})", line)
            if m:
                mode = m[1]
                add(m[2], "type", p)
                continue
            if line and not line[0].isspace():
                m = re.match(rf"((?:(?:pub|abbrev|unfoldable) )*)({NAME}(?: {NAME})*) :(?: (.*))?$", line)
                if m and not line.startswith(("use ", "--")):
                    said = m[3] or ""
                    for more in lines[i + 1 :]:
                        if not more or not more[0].isspace():
                            break
                        said += " " + more.strip()
                    if re.match(r"(tie|goal)\.|\{M : Type 1\} → statement", said):
                        continue  # a goal's answer, whose name is Rattle's
                    fact = re.search(r"(→ |^)Type( \d| \{[^}]*\})?\s*$", said.strip())
                    for n in m[2].split():
                        add(n, "fact" if fact else "word", p)
                if line.startswith("module"):
                    mode = "module"
                elif not line.startswith("--"):
                    mode = None
            elif line.strip() and mode == "module":
                m = re.match(r" +((?:(?:pub|abbrev|unfoldable) )*)([A-Za-z]\S*) :( |$)", line)
                if m:
                    add(m[2], "word", p)
            elif line.strip() and mode:
                m = re.match(rf"\s+(?:pub )?({NAME}(?: {NAME})*) : ", line)
                if m:
                    for n in m[1].split():
                        add(n, "constructor" if mode == "data" else "field", p)
    return kinds, where


def new_name(n, kinds):
    if n in OTHER:
        return OTHER[n]
    n = n.replace("′", "'")
    if kinds & {"type", "fact"} and n[0].isupper():
        return "".join(x[:1].upper() + x[1:] for x in re.split("[-_]", n))
    n = re.sub(r"\bgetD\b", "get_or", n)
    n = re.sub(r"(?<=[a-z0-9])([A-Z])", lambda m: "_" + m[1].lower(), n)
    return n.replace("-", "_")


def table():
    """The new names; and those of lemmas that would have their function's name, which get `_lem`."""
    kinds, where = declared()
    names = {n: new_name(n, kinds[n]) for n in kinds if WORD.fullmatch(n)}
    by_new = collections.defaultdict(list)
    for n in names:
        by_new[names[n]].append(n)
    lemmas = {}
    for new, olds in by_new.items():
        if len(olds) > 1:
            camels = [n for n in olds if re.search("[a-z0-9][A-Z]", n)]
            for n in olds:
                if n not in camels and ("-" in n or camels) and kinds[n] == {"word"} and all("/proofs/" in w for w in where[n]):
                    lemmas[n] = new + "_lem"
    return {n: new for n, new in names.items() if n != new or n in lemmas}, lemmas, kinds, where


FOREIGN = re.compile(r"^\s*(?:pub )?(?:ghost )?use ([^\s{}]+)\.\{([^}]*)\}", re.M)


def foreign(text, crates):
    """The names that a text imports from the library."""
    found = set()
    for m in FOREIGN.finditer(text):
        own = re.match(r"Rattle\.(\w+)\.", m[1] + ".")
        if not (own and own[1] in crates):
            found |= {x.split(" as ")[0].strip() for x in m[2].split(",")}
    return found


def brought(text, crates):
    """The names that a text imports from this repository's crates, and those that it takes by a module's name."""
    found = set(re.findall(r"\b[A-Z]\w*\.([\w'′-]+)", text))
    for m in FOREIGN.finditer(text):
        own = re.match(r"Rattle\.(\w+)\.", m[1] + ".")
        if own and own[1] in crates:
            found |= {x.split(" as ")[0].strip() for x in m[2].split(",")}
    return found


def turn(text, names, lemmas, dashed=True):
    def one(m):
        w = m[0]
        if not dashed and "-" in w:
            return w
        if w in lemmas:
            before = re.search(r"([\w'-]*)\.$", text[: m.start()])
            if not before or before[1][:1].isupper():  # and no field of a value
                return lemmas[w]
        return names.get(w, w)

    return WORD.sub(one, text)


def turn_antt(text, names, lemmas):
    out = []
    for line in text.split("\n"):
        code, dash, comment = (("", "--", line.split("--", 1)[1]) if line.lstrip().startswith("--") else (line, "", ""))
        if dash:
            lead = line[: len(line) - len(line.lstrip())]
            comment = re.sub(r"`[^`]*`", lambda m: turn(m[0], names, lemmas), comment)
            out.append(lead + "--" + turn(comment, names, lemmas, dashed=False))
        else:
            parts = re.split(r'("(?:[^"\\]|\\.)*")', code)
            out.append("".join(x if k % 2 else turn(x, names, lemmas) for k, x in enumerate(parts)))
    return "\n".join(out)


def turn_rt(text, names, lemmas):
    """In the source only imports of ghost names, clauses and comments speak of definitions."""
    out = []
    depth = 0
    for line in text.split("\n"):
        stripped = line.lstrip()
        if stripped.startswith("//"):
            out.append(re.sub(r"`[^`]*`", lambda m: turn(m[0], names, lemmas), line))
            continue
        starts = re.match(r"(pub )?ghost |(requires|ensures|also_owns|let ghost)\b", stripped)
        if depth or starts:
            out.append(turn(line, names, lemmas))
            depth += line.count("{") - line.count("}")
        else:
            out.append(line)
    return "\n".join(out)


def main():
    names, lemmas, kinds, where = table()
    crates = set(os.listdir("crates"))
    if "--list" in sys.argv:
        for n in sorted(names):
            print(f"{n}\t{lemmas.get(n, names[n])}\t{'/'.join(sorted(kinds[n]))}\t{len(where[n])}")
        by_new = collections.defaultdict(list)
        for n in kinds:
            by_new[lemmas.get(n, names.get(n, n))].append(n)
        for new, olds in sorted(by_new.items()):
            if len(olds) > 1:
                both = set.intersection(*[{os.path.dirname(w) for w in where[o]} for o in olds])
                print("together:", new, olds, [sorted(where[o])[:3] for o in olds])
        lib = collections.defaultdict(set)
        for p in walk("crates", (".antt", ".rt")):
            for n in foreign(read(p), crates):
                lib[n].add(p)
        for n in sorted(names):
            if n in lib:
                print("library:", n, sorted(lib[n])[:3])
            if names[n] in lib:
                print("new name in library:", n, names[n], sorted(lib[names[n]])[:3], sorted(where[n])[:3])
        return
    for p in walk("crates", (".antt", ".rt")):
        old = read(p)
        away = foreign(old, crates)
        here = {k: v for k, v in names.items() if k not in away}
        mine = brought(old, crates)
        own = {k: v for k, v in lemmas.items() if k not in away and (k in mine or p in where[k])}
        new = (turn_antt if p.endswith(".antt") else turn_rt)(old, here, own)
        if new != old:
            with open(p, "w", encoding="utf-8", newline="") as f:
                f.write(new)


if __name__ == "__main__":
    main()
