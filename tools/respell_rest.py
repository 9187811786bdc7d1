#!/usr/bin/env python3
"""Finishes what respell.py left: run once, at the top, after it.

respell.py kept a dash beside a record's field or a case as if that were a function's name, and wrote getD's name apart.

    name-word   ->  name_word       names-rising    ->  names_rising    a field or a case is a plain word
    name-name   stays               list_layout-length                  two functions
    get_d_name  ->  get_or-name     get_d_range     ->  get_or-range    or get_or_word beside a plain word

Names of goals and steps are Rattle's, and so is what stands behind a dot, but for the repository's own fields and for the names of
a module that the file has under another name (`use .. as runs`, then `runs.names-rising`). A lemma that would have
another name of its file ends in `_lem`. It stops where two names fall together all the same.
"""
import collections
import glob
import os
import re
import sys

sys.path.insert(0, os.path.dirname(os.path.abspath(__file__)))
import respell as first

GOAL = re.compile(r"(tie|goal)\.[A-Za-z]")
ROOT = "--list" not in sys.argv


def names():
    """The functions, the fields and cases, and all that the repository declares but goals."""
    functions, words, own = set(first.LISTS), set(), collections.defaultdict(set)
    for f in first.antt():
        inside = False
        for line in first.read(f).split("\n"):
            if re.match(r"^(?:abbrev |unfoldable |pub )*(?:record|data)\b", line):
                inside = True
            elif line and not line[0].isspace():
                inside = False
            m = first.DECLARED.match(line) or first.HEADED.match(line)
            if not m or line.lstrip().startswith("--") or m.group(3) in first.SKIP or (m.group(1) and m.re is first.HEADED):
                continue
            if m.re is first.DECLARED and GOAL.match(m.group(5)):
                continue
            own[m.group(3)].add(f)
            member = inside and bool(m.group(1))
            if member:
                words.add(m.group(3))
            elif "/specs/" in f and m.group(3)[:1].islower():
                functions.add(m.group(3))
    return functions, words, own


def joined(parts, functions):
    for i in range(1, len(parts)):
        left, right = "_".join(parts[:i]), "_".join(parts[i:])
        if left in functions and right in functions:
            return left + "-" + right
    return "_".join(parts)


def table_of(functions, own):
    table = {}
    for name in own:
        if name.startswith(("◌", "+")) or name[:1].isupper():
            continue
        if name.startswith("get_d_"):
            new = joined(["get_or", name[len("get_d_"):]], functions)
        elif "-" in name:
            new = joined(name.split("-"), functions)
        else:
            continue
        if new != name:
            table[name] = new
    return table


def modules(text):
    """Names under which the file has a module of the repository's laws."""
    return set(re.findall(r"^\s*(?:unfoldable )?use Rattle\.(?!std\b)\w+\.(?:proofs|specs)\.[A-Z]\w* as ([^\s;]+)", text, re.M))


def turn(text, table, fields, kept):
    """Like respell's, but a word behind a dot is turned only where it is a field of the repository's, or behind a module's name."""
    out, last, aliases, before = [], 0, modules(text), ""
    for m in first.TOKEN.finditer(text):
        word = m.group(0)
        out.append(text[last:m.start()])
        last = m.end()
        behind = m.start() > 0 and text[m.start() - 1] == "." and before not in aliases
        before = word
        if word.startswith("--"):
            word = re.sub(r"`([^`\n]+)`", lambda n: "`" + turn(n.group(1), table, fields, kept) + "`", word)
        elif not word.startswith(('"', "Rattle.")) and word not in kept and (not behind or word in fields):
            word = table.get(word, word)
        out.append(word)
    return "".join(out) + text[last:]


def main():
    functions, words, own = names()
    table = table_of(functions, own)
    fields = {n for n in table if n in words}
    known = set(own) | words
    for f in first.antt():
        seen = set(first.TOKEN.findall(first.read(f)))
        for old in sorted(seen & set(table)):
            if table[old] in (seen | known) - set(table) or table[old] in first.imported(first.read(f)):
                table[old] = table[old] + ("" if table[old].endswith("_lem") else "_lem")
    falls = [(n, o) for n, o in collections.Counter(table.values()).items() if o > 1] + [(o, n) for o, n in table.items() if n in known - set(table)]
    for f in first.antt():
        seen = set(first.TOKEN.findall(first.read(f)))
        falls += [(f, o, table[o]) for o in seen & set(table) if table[o] in seen - set(table)]
    for it in falls:
        print("falls together:", *it)
    if not ROOT:
        for o in sorted(table):
            print(o, table[o])
        print(len(table), "names;", len(fields), "fields:", sorted(fields))
        return
    if falls:
        raise SystemExit("name them apart first")
    for f in first.antt():
        text = first.read(f)
        first.write(f, turn(text, table, fields, first.imported(text)))
    for f in sorted(glob.glob("crates/*/must-fail/*.edit")):
        lines = first.read(f).split("\n")
        first.write(f, "\n".join(turn(x, table, fields, set()) if x.startswith(("old:", "new:")) else x for x in lines))
    for f in ["README.md"] + sorted(glob.glob("docs/*.md")):
        if f == "docs/PORT.md":
            continue
        first.write(f, re.sub(r"`[^`\n]+`", lambda m: turn(m.group(0), table, fields, set()), first.read(f)))
    print(len(table), "names")


if __name__ == "__main__":
    os.chdir(os.path.dirname(os.path.dirname(os.path.abspath(__file__))))
    main()
