#!/usr/bin/env python3
"""Lists the places in crates/*/src that docs/DESIGN-PASS.md counts, by point: places.py [COMMIT] [--list POINT]. Without a commit, of the files as they stand."""
import re
import subprocess
import sys
from collections import defaultdict

LOOP = re.compile(r"^\s*while\b|^\s*loop\b")
FN = re.compile(r"^\s*(?:pub )?(?:extern \"C\" )?(?:const )?fn (\w+)")


def sources(commit):
    if commit:
        names = subprocess.run(["git", "ls-tree", "-r", "--name-only", commit, "crates"], capture_output=True, text=True, check=True).stdout.split()
    else:
        names = subprocess.run(["git", "ls-files", "crates"], capture_output=True, text=True, check=True).stdout.split()
    for name in sorted(names):
        if not re.fullmatch(r"crates/\w+/src/.*\.rt", name):
            continue
        if commit:
            text = subprocess.run(["git", "show", f"{commit}:{name}"], capture_output=True, text=True, check=True).stdout
        else:
            try:
                text = open(name, encoding="utf-8").read()
            except FileNotFoundError:
                continue
        yield name.removeprefix("crates/").replace("/src/", "/"), text.split("\n")


def functions(lines):
    """Each function: name, line, head with clauses, body."""
    i = 0
    while i < len(lines):
        m = FN.match(lines[i])
        if not m:
            i += 1
            continue
        indent = len(lines[i]) - len(lines[i].lstrip())
        end = i
        while end < len(lines) and not (lines[end].startswith(" " * indent + "}") or lines[end].rstrip().endswith("{}")):
            end += 1
        part = lines[i : end + 1]
        cut = next((k for k, l in enumerate(part) if l.strip() == "{"), None)
        if cut is None:
            cut = next((k for k, l in enumerate(part) if l.rstrip().endswith("{")), len(part) - 1)
            yield m.group(1), i + 1, part[: cut + 1], part[cut + 1 :]
        else:
            yield m.group(1), i + 1, part[:cut], part[cut:]
        i = end + 1


def lines_of(files, pattern, skip=None):
    p = re.compile(pattern)
    for name, lines in files:
        for k, line in enumerate(lines):
            code = line.split("//")[0]
            if p.search(code) and not (skip and re.search(skip, code)):
                yield f"{name}:{k + 1}: {line.strip()}"


def shape(body):
    """A body with its types, sizes, numbers, constants and names of functions taken away."""
    text = " ".join(l.split("//")[0].strip() for l in body)
    text = re.sub(r"\b(?:u|i)(?:8|16|32|64|size)\b", "T", text)
    text = re.sub(r"\b(?:\w+::)*[A-Z][A-Z_0-9]+\b|\b\d[\d_]*\b", "N", text)
    return re.sub(r"\b[a-z_]\w*(?=\()", "f", text)


def twins(files):
    groups = defaultdict(list)
    for name, lines in files:
        for fn, at, _, body in functions(lines):
            if len("".join(body)) > 60:
                groups[shape(body)].append(f"{name}:{at}: {fn}")
    for group in groups.values():
        if len(group) > 1:
            yield " = ".join(group)


def clauses(files):
    """Requires that three or more functions of one crate share, but for names of variables; and parameters that three or more take together."""
    facts, together = defaultdict(set), defaultdict(set)
    for name, lines in files:
        crate = name.split("/")[0]
        for fn, at, head, _ in functions(lines):
            text = " ".join(head)
            for part in re.findall(r"requires \w*\s*\{(.*?)\}", text):
                for fact in part.split("×"):
                    fact = fact.strip().strip("()").strip()
                    if re.match(r"[A-Z]", fact):
                        facts[crate, " ".join(fact.split())].add(f"{name}:{at}")
            inside = re.search(r"\((.*?)\)\s*(?:->|requires|ensures|$)", text)
            if inside:
                ps = [re.sub(r"\s+", " ", p).strip() for p in inside.group(1).split(",") if ":" in p]
                for i in range(len(ps)):
                    for j in range(i + 1, len(ps)):
                        together[crate, ps[i], ps[j]].add(f"{name}:{at}")
    for (crate, fact), where in sorted(facts.items()):
        if len(where) >= 3:
            yield f"{crate}: requires {fact}: {len(where)} functions"
    for (crate, a, b), where in sorted(together.items()):
        if len(where) >= 5:
            yield f"{crate}: {a} with {b}: {len(where)} functions"


def places(files):
    yield 1, "enums; flags beside values; numbers for kinds, states and refusals", [
        *lines_of(files, r"^\s*(pub )?enum (Framed|Reading|Written|Next|Going|Group)\b"),
        *lines_of(files, r"^\s*(pub )?\w+: bool,$", r"fn "),
        *lines_of(files, r"const [A-Z_]+: u(8|32) = \d+;", r"VERSION|SERVERS|FILL"),
        *lines_of(files, r"return (Answer::refused\(|Setup::refused\(|\w+::stopped\()?(BAD_RECORD|OUT_OF_RANGE|QUOTA_USED|NOT_NOW|NOT_FROM_HERE|SHORT_BUFFER|BAD_STATE|PEG_THERE|PEG_NOT_THERE|NO_OPERATION|BAD_RECTANGLE|REGISTER_FULL|Reading::\w+)\b"),
        *lines_of(files, r"if (\w+(\.\w+)?|\w+\(.*\)) [!=]= (0|SHORT_BUFFER) \{"),
    ]
    yield 2, "functions alike but for types, sizes, constants and the functions that they call", list(twins(files))
    yield 3, "loops by `while` or `loop`", list(lines_of(files, LOOP.pattern))
    yield 4, "conversion, comparison and printing by hand", [
        *lines_of(files, r"/ 256|% 256|16777216|65536"),
        *lines_of(files, r"fn (wide|wider|is_same|stands_before|shorter|later|likewise|same_attempt|same_pair|is_id|lower|higher|gap|moved|millimetres)\("),
        *lines_of(files, r"^\s*if (\w+(\.\w+)*) < (\w+(\.\w+)*) \{$"),
        *lines_of(files, r"io::(write_all|print_decimal|decimal)\("),
    ]
    yield 5, "facts in three contracts or more, parameters that five functions or more take together", list(clauses(files))
    yield 6, "a slice with a place, a step or a count beside it", [
        f"{name}:{at}: {fn}"
        for name, lines in files
        for fn, at, head, _ in functions(lines)
        if re.search(r": &(mut )?\[\w+\],\s*(\w+: \w+,\s*)?(at|from|start|ids|count|here|slot|room|m|length|step): (usize|u32)", " ".join(head))
    ]
    yield 7, "which of several is meant, as a value that is looked at in every step", list(lines_of(files, r"\bf: Number\b|section == THE_|match kind \{|match e\[0\] \{"))


def main():
    words = sys.argv[1:]
    wanted = int(words[words.index("--list") + 1]) if "--list" in words else None
    commit = words[0] if words and not words[0].startswith("--") else None
    files = list(sources(commit))
    for point, what, found in places(files):
        if wanted in (None, point):
            print(f"{point}: {len(found)}: {what}")
            if wanted:
                print("\n".join(found))


main()
