#!/usr/bin/env python3
"""Gives the repository's own definitions and lemmas today's spelling. Run once, at the top, after port.py and before any edit by hand.

    camelCase   ->  snake_case                     rankOrNone   ->  rank_or_none
    word-word   ->  word_word                      both-second  ->  both_second
    name-name   stays where both sides are functions' names      digits-put
    f-spec      ->  f_spec                         lies-in-spec ->  lies_in_spec

Types, modules, functions of src/, exported names, strings, inputs and outputs keep their names, and so do names that a file imports from
a library. Names of goals (declared at a `tie.` type) are Rattle's. It stops where two names of one file would fall together.
"""
import collections
import glob
import os
import re
import sys

WORD = r"[^\s(){}.;,@\"«»\[\]\\]+"
TOKEN = re.compile(r"--[^\n]*|Rattle\.[^\s{;()]*|\"(?:[^\"\\]|\\.)*\"|«[^»]*»|" + WORD)
DECLARED = re.compile(r"^(\s*)((?:(?:abbrev|unfoldable|pub)\s+)*)(" + WORD + r")((?:\s*(?:\([^)]*\)|\{[^}]*\}))*)\s:\s+(.*)$")
HEADED = re.compile(r"^(\s*)((?:(?:abbrev|unfoldable|pub)\s+)*)(" + WORD + r")\s+:$")
LISTS = "length get_or take drop set sets map append reverse range_with_len ones sum".split()
SKIP = {"use", "module", "let", "in", "record", "data", "where", "open", "elim", "λ"}


def antt():
    return sorted(f for part in ("specs", "proofs") for f in glob.glob(f"crates/*/{part}/**/*.antt", recursive=True) if "/out/" not in f)


def read(path):
    with open(path, encoding="utf-8", newline="") as f:
        return f.read()


def write(path, text):
    with open(path, "w", encoding="utf-8", newline="") as f:
        f.write(text)


def snake(word):
    return re.sub(r"(?<=[a-z0-9])([A-Z])", lambda m: "_" + m.group(1).lower(), word)


def cased(word):
    return word[:1].islower() and re.search(r"[a-z0-9][A-Z]", word) is not None


def declared():
    own, goals = collections.defaultdict(set), set()
    for f in antt():
        for line in read(f).split("\n"):
            m = DECLARED.match(line) or HEADED.match(line)
            if not m or line.lstrip().startswith("--"):
                continue
            name, typ = m.group(3), m.group(5) if m.re is DECLARED else ""
            if name in SKIP or (m.group(1) and m.re is HEADED):
                continue
            if re.match(r"(tie|goal)\.(Need|invariant|decreases|returns|Loop)", typ):
                goals.add(name)
            else:
                own[name].add(f)
    return own, goals


def spelled(own, functions):
    table = {}
    for name in own:
        if name[:1].isupper() and "-" not in name and not cased(name) or name.startswith("◌"):
            continue
        if name[:1] == "+":
            new = name.replace("-", "_")
        else:
            parts = [snake(p) if cased(p) else p for p in name.split("-")]
            new = "_".join(parts)
            for i in range(1, len(parts)):
                left, right = "_".join(parts[:i]), "_".join(parts[i:])
                if left in functions and right in functions:
                    new = left + "-" + right
        if new != name:
            table[name] = new
    # A lemma that would have its function's name gets `_lem`.
    cases = {table[n] for n in table if cased(n) and "-" not in n} | {n for n in own if n not in table}
    for name in table:
        if "-" in name and table[name] in cases:
            table[name] += "_lem"
    for name in own:
        if name not in table and name in {table[n] for n in table if cased(n)}:
            table[name] = name + "_lem"
    return table


def imported(text):
    """Names that the file takes from a library."""
    out = set()
    for m in re.finditer(r"^\s*(?:pub\s+)?(?:ghost\s+)?use\s+([^\s{;]+?)(?:\.\{([^}]*)\})?(?:\s+as\s+\S+)?;?\s*$", text, re.M):
        path, names = m.group(1), m.group(2)
        if re.match(r"Rattle\.(?!std\b)", path) or names is None:
            continue
        out |= {n.split(" as ")[-1].strip() for n in names.split(",")}
    return out


def turn(text, table, kept):
    def one(m):
        word = m.group(0)
        if word.startswith("--"):
            return re.sub(r"`([^`]*)`|[a-z]+[A-Z]\w*", lambda n: turn(n.group(1), table, kept).join("``") if n.group(1) is not None else table.get(n.group(0), n.group(0)), word)
        if word.startswith(('"', "Rattle.")) or word in kept:
            return word
        return table.get(word, word)

    return TOKEN.sub(one, text)


def main():
    own, goals = declared()
    functions = set(LISTS)
    for name, files in own.items():
        if any("/specs/" in f for f in files) and name[:1].islower():
            functions.add(snake(name))
    table = spelled({n: fs for n, fs in own.items() if n not in goals}, functions)
    by_new = collections.defaultdict(set)
    for old, new in table.items():
        by_new[new].add(old)
    falls = 0
    for f in antt():
        text = read(f)
        words = set(TOKEN.findall(text))
        kept = imported(text)
        for old in words & set(table) - kept:
            clash = (by_new[table[old]] - {old}) & words | {table[old]} & words & (set(own) - set(table) | kept)
            if clash:
                falls += 1
                print(f"falls together: {f}: {old} and {', '.join(sorted(clash))}")
    for new, olds in by_new.items():
        if new in set(own) - set(table) or len(olds) > 1:
            print(f"two of one name: {new}: {sorted(olds | ({new} & set(own)))}")
    if "--list" in sys.argv:
        for old in sorted(table):
            print(old, table[old])
        return
    if falls and "--force" not in sys.argv:
        raise SystemExit(f"{falls} places: name them apart first")
    for f in antt():
        text = read(f)
        write(f, turn(text, table, imported(text)))
    camel = {o: n for o, n in table.items() if cased(o)}
    for f in sorted(glob.glob("crates/*/src/**/*.rt", recursive=True)):
        text = read(f)
        write(f, re.sub(r"(?<![\w\"])[a-z][a-z0-9]*[A-Z]\w*", lambda m: camel.get(m.group(0), m.group(0)), text))
    for f in sorted(glob.glob("crates/*/must-fail/*.edit")):
        lines = read(f).split("\n")
        for i, line in enumerate(lines):
            if line.startswith(("old:", "new:")):
                lines[i] = turn(line, table, set())
        write(f, "\n".join(lines))
    for f in ["README.md"] + sorted(glob.glob("docs/*.md")):
        text = read(f)
        write(f, re.sub(r"`[^`\n]+`", lambda m: turn(m.group(0), table, set()), text))
    print(f"{len(table)} names")


if __name__ == "__main__":
    os.chdir(os.path.dirname(os.path.dirname(os.path.abspath(__file__))))
    main()
