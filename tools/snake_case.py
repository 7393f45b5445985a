#!/usr/bin/env python3
"""Respells the repository's own definitions and lemmas in snake case, once, after port.py: `firstFrom` is `first_from`, `none-some` is `none_some`.

usage: python3 tools/snake_case.py [--dry]    at the top of the repository

Renamed are names that specs/ and the lemma files of proofs/ declare. Names of the library, of Rust sources, and those that Rattle makes
(`loop-i-preserved`) stay; so do words of comments and pages, but for those in camel case or between backquotes.
Where two names would fall together, the lemma gets `_lem`, and a definition that would be named as a variable or a field gets `_of`.
"""
import collections
import glob
import re
import sys

NAME = r"[A-Za-zα-ωκ][\w'₀-₉ᴰ]*(?:-[\w'₀-₉ᴰ]+)*"
TOKEN = re.compile(r"(?<![\w'◌-])" + NAME + r"(?![\w'◌])")
LINE = re.compile(r"^([ \t]*)((?:(?:abbrev|unfoldable|pub|opaque) )*)(" + NAME + r"(?: " + NAME + r")*)\s*:(?=\s|$)")
RULESET = re.compile(r"^([ \t]*)(?:pub )?ruleset (" + NAME + r")")
HEAD = re.compile(r"^([ \t]*)(?:pub )?(module|record|data|mutual)\b ?(" + NAME + r")?")
USED = re.compile(r"^(?:pub )?use ([\w.+-]+)\.\{([^}]*)\}", re.M)
BOUND = re.compile(r"\b(?:let (?:mut )?|for )(\w+)\b|\b(\w+)\s*:(?!:)")
ALIAS = re.compile(r" as (" + NAME + r")(?=[,}])")
COMMENT = re.compile(r"(?:--|//).*$", re.M)
# document 01's states keep their capital, and a type is in camel case
GIVEN = {"P3-coloured": "P3Coloured", "outOfRange": "out_of_range"}
# the code's struct Limits has fields of these names
LIMITS = ("fewestServers", "mostServers", "leastQuota", "mostQuota", "mostPayload", "mostIndex", "mostNumber", "mostLength")


def snake(name):
    if name in GIVEN:
        return GIVEN[name]
    parts = []
    for part in name.split("-"):
        if part[:1].islower():
            part = re.sub(r"(?<=[a-z0-9])([A-Z])", lambda m: "_" + m.group(1).lower(), part)
        parts.append(part)
    return "_".join(parts)


def texts():
    found = []
    for pattern in ("specs/**/*.antt", "proofs/**/*.antt", "src/**/*.rt", "must-fail/*.edit"):
        found += glob.glob("crates/*/" + pattern, recursive=True)
    return sorted(found)


def pages():
    return sorted(glob.glob("*.md") + glob.glob("docs/**/*.md", recursive=True) + glob.glob("bench/*.md"))


def of_a_function(path):
    return "/specs/" not in path and path.endswith(("/Proof.antt", "/Invariants.antt", "/Answers.antt"))


def declared(files):
    """The names that files of specs/ and lemmas declare, the fields among them, and the library's names that files import."""
    names, fields, library = set(), set(), set()
    for path, text in files.items():
        names |= set(ALIAS.findall(text))
        if not path.endswith(".antt"):
            continue
        for m in USED.finditer(text):
            if not m.group(1).startswith("Rattle."):
                library |= {n.strip().split(" as ")[0] for n in m.group(2).split(",")}
        if of_a_function(path):
            continue
        heads = []
        for line in text.split("\n"):
            if not line.strip() or line.lstrip().startswith("--"):
                continue
            indent = len(line) - len(line.lstrip())
            while heads and heads[-1][0] >= indent:
                heads.pop()
            m = HEAD.match(line)
            if m:
                heads.append((indent, m.group(2)))
                if m.group(3):
                    names.add(m.group(3))
                continue
            m = RULESET.match(line)
            if m:
                names.add(m.group(2))
                continue
            m = LINE.match(line)
            if m:
                for n in m.group(3).split():
                    names.add(n)
                    if heads and heads[-1][1] == "record":
                        fields.add(n)
    return {n for n in names if snake(n) != n} - library, fields, names


def bare(text):
    return COMMENT.sub("", text)


def chosen(files, names, fields, all_names):
    """The new name of each."""
    uses = collections.defaultdict(set)
    alone = collections.defaultdict(set)
    for path, text in files.items():
        text = bare(text)
        if path.endswith(".rt"):
            for m in BOUND.finditer(text):
                alone[m.group(1) or m.group(2)].add(path)
        for m in TOKEN.finditer(text):
            uses[m.group()].add(path)
            if path.endswith(".antt") and text[m.start() - 1 : m.start()] != "." and text[m.end() : m.end() + 1] != ".":
                alone[m.group()].add(path)
    targets = collections.defaultdict(set)
    for n in names:
        targets[snake(n)].add(n)
    new, said = {}, []
    for n in sorted(names):
        t = snake(n)
        clash = (uses[n] & alone.get(t, set())) or (t in all_names)
        if n in LIMITS:
            t += "_limit"
        elif "-" in n and n[0].islower():
            if len(targets[t]) > 1 or clash:
                t += "_lem"
        elif n[0].islower() and t in all_names and t not in fields:
            # port.py has given the lemma this name
            new[t] = t + "_lem"
            said.append((t, new[t], "for", n))
        elif n[0].islower() and clash:
            t += "_of"
        if t != snake(n):
            said.append((n, t, sorted(uses[n] & alone.get(snake(n), set()))[:3]))
        new[n] = t
    back = collections.defaultdict(set)
    for n, t in new.items():
        back[t].add(n)
    for t, ns in sorted(back.items()):
        if len(ns) > 1:
            said.append(("TWO", t, sorted(ns)))
        elif t in all_names or (t not in ("Reg_prim", "Non_prim", "Trans_prim") and set.union(*(uses[n] for n in ns)) & alone.get(t, set())):
            said.append(("STILL", t, sorted(ns)))
    return new, said


def aliases(text):
    """Modules that the file calls by a name in lower case."""
    return set(re.findall(r"^(?:pub )?use [\w.]+(?: as |\.)([a-z]\w*)$", text, re.M)) | set(re.findall(r"^[ \t]*(?:pub )?module ([a-z]\w*)", text, re.M))


def code(text, new, fields, rust=False, modules=()):
    # what stands in quotes is data
    within = [m.span() for m in re.finditer(r'"[^"\n]*"', text)]

    def one(m):
        n = m.group()
        if any(a < m.start() < b for a, b in within):
            return n
        if n not in new or (rust and snake(n) == n):
            return n
        if m.start() and text[m.start() - 1] == ".":
            before = re.search(r"([\w'-]+)\.$", text[: m.start()][-80:])
            if n not in fields and not (before and (before.group(1)[0].isupper() or before.group(1) in modules)):
                return n
        return new[n]

    return TOKEN.sub(one, text)


def said(text, new, fields):
    text = re.sub(r"`[^`\n]*`", lambda m: code(m.group(), new, fields, True), text)
    return TOKEN.sub(lambda m: new[m.group()] if m.group() in new and "-" not in m.group() and snake(m.group()) != m.group() else m.group(), text)


def turn(path, text, new, fields):
    if path.endswith(".md"):
        return re.sub(r"`[^`\n]*`", lambda m: code(m.group(), new, fields, True), text)
    if path.endswith(".edit"):
        rust = "file: src/" in text
        return "\n".join(code(l, new, fields, rust) if l.startswith(("old:", "new:")) else said(l, new, fields) for l in text.split("\n"))
    out, at, modules = [], 0, aliases(text)
    for m in COMMENT.finditer(text):
        out += [code(text[at : m.start()], new, fields, path.endswith(".rt"), modules), said(m.group(), new, fields)]
        at = m.end()
    return "".join(out) + code(text[at:], new, fields, path.endswith(".rt"), modules)


def main(argv):
    files = {p: open(p, encoding="utf-8").read() for p in texts()}
    names, fields, all_names = declared(files)
    new, left = chosen(files, names, fields, all_names)
    print(len(new), "names")
    for it in left:
        print(*it)
    if "--dry" in argv:
        return
    files.update({p: open(p, encoding="utf-8").read() for p in pages()})
    for path, text in files.items():
        turned = turn(path, text, new, fields)
        if turned != text:
            with open(path, "w", encoding="utf-8") as f:
                f.write(turned)


if __name__ == "__main__":
    main(sys.argv[1:])
