#!/usr/bin/env python3
"""Spells this repository's own definitions and lemmas as today's Rattle spells its library's: words in snake case, types and modules in camel
case; a dash joins two names that stand for something, any other word is joined by an underscore.

usage: respell.py table FOLDER     prints the table, old TAB new, from what FOLDER's crates declare in specs/ and proofs/
       respell.py turn FOLDER      turns the files of FOLDER by names.tsv beside this script: specs/, proofs/, and of src/ the clauses,
                                   ghost uses and comments; of README.md and docs/ the code spans

Whole words alone are turned. Functions of src/, strings and file names stay. It is run once, behind the kit's own script: the words of APART would
be turned again.
"""
import glob
import os
import re
import sys

HERE = os.path.dirname(os.path.realpath(__file__))
WORD = re.compile(r"[^\s(){}.;,@\"«»`|]+")
DECLARED = re.compile(r"^( *)(?:unfoldable |abbrev |pub |ruleset |mutual )*(?:data |record )?([^\s(){};:,.]+)(?: \{[^{}\n]*\}| \([^()\n]*\))* :(?= )")
CASES = re.compile(r"^  ((?:[a-z]\w*'* )+): \w")
# names of the library that the lemmas of this repository speak of
LIBRARY = set("length take drop append set map reverse add sub mul div mod suc zero nil cons splice get_or all cond max min plus eqb leb ltb list".split())
# two words of one file that would fall together, the one by the kit's script and the other by this one
APART = {"crates/meaning/proofs/Skipped.antt": {"is_read": "is_read_lem"}, "crates/table/proofs/Rows.antt": {"row_back": "row_back_lem"}}
# kept: parameters of the sources, which are spelled as there
KEEP = re.compile(r"^(lldp\w*|txPropagationDelay)$")


def texts(root):
    for kind in ("specs", "proofs"):
        yield from sorted(glob.glob(os.path.join(root, "crates", "*", kind, "**", "*.antt"), recursive=True))


def snake(word):
    return re.sub(r"(?<=[a-z0-9])[A-Z]|(?<=[A-Z])[A-Z](?=[a-z])", lambda m: "_" + m.group(0), word).lower()


def declared(root):
    """The names that specs/ and the files of lemmas declare, and of these the ones that specs/ does."""
    names, specs = set(), set()
    for path in texts(root):
        if os.path.basename(path) in ("Proof.antt",):
            continue
        for line in open(path, encoding="utf-8"):
            found = []
            m = DECLARED.match(line)
            if m:
                found.append(m.group(2))
            c = CASES.match(line)
            if c:
                found += c.group(1).split()
            for name in found:
                names.add(name)
                if "/specs/" in path:
                    specs.add(name)
    return names, specs


def imported(root):
    """Names that some file takes from the library."""
    found = set()
    for path in texts(root):
        for module, items in re.findall(r"^use ([\w.]+)\.\{([^{}]*)\}", open(path, encoding="utf-8").read(), re.M):
            if not module.startswith("Rattle.") or module.startswith("Rattle.std."):
                found |= {i.split(" as ")[0].strip() for i in items.split(",")}
    return found


def functions(root):
    found = set()
    for path in glob.glob(os.path.join(root, "crates", "*", "src", "*.rt")):
        found |= set(re.findall(r"\bfn (\w+)", open(path, encoding="utf-8").read()))
    return found


def table(root):
    names, specs = declared(root)
    known = {snake(n) for n in specs if "-" not in n and n[:1].islower()} | functions(root) | LIBRARY
    rows = {"formB": "form_b"}
    names -= imported(root)
    for name in sorted(names):
        if KEEP.match(name) or not re.match(r"[a-z]", name) or "·" in name:
            continue
        parts = [snake(p) for p in name.split("-")]
        new = parts[0]
        for before, part in zip(parts, parts[1:]):
            new += ("-" if before in known and part in known else "_") + part
        if new != name:
            rows[name] = new
    # a lemma that would have the name of something else that is declared
    for name in [n for n in rows if "-" in n]:
        others = {rows.get(n, n) for n in names if n != name}
        if rows[name] in others:
            rows[name] += "_lem"
    return rows


def falling(root, rows):
    """Files in which two words would become one."""
    for path in texts(root):
        seen = {}
        for line in open(path, encoding="utf-8"):
            line = line.split("--")[0] if line.lstrip().startswith("--") else line
            for w in WORD.findall(line):
                seen.setdefault(rows.get(w, w), set()).add(w)
        for new, olds in seen.items():
            if len(olds) > 1:
                yield path, new, sorted(olds)


def words(text, rows):
    return WORD.sub(lambda m: rows.get(m.group(0), m.group(0)), text)


def loose(text, rows):
    """Of prose: camel words anywhere, others in code spans alone."""
    text = re.sub(r"`[^`\n]+`", lambda m: words(m.group(0), rows), text)
    return re.sub(r"(?<![\w`/.-])[a-z][a-z0-9]*[A-Z][A-Za-z0-9]*(?![\w-])", lambda m: rows.get(m.group(0), m.group(0)), text)


def antt(text, rows):
    out = []
    for line in text.split("\n"):
        if line.lstrip().startswith("--"):
            out.append(loose(line, rows))
        else:
            code, dash, note = line.partition(" -- ")
            quoted = re.split(r"(\"[^\"\n]*\")", code)
            out.append("".join(q if q.startswith('"') else words(q, rows) for q in quoted) + dash + (loose(note, rows) if dash else ""))
    return "\n".join(out)


def rust(text, rows):
    out, depth = [], 0
    for line in text.split("\n"):
        if line.lstrip().startswith("//"):
            out.append(loose(line, rows))
            continue
        start = re.match(r"\s*(ghost use|requires|ensures|ghost)\b", line)
        if start or depth > 0:
            line = words(line, rows)
            depth = max(0, depth + line.count("{") - line.count("}"))
        out.append(line)
    return "\n".join(out)


def turn(root):
    rows = dict(r.rstrip("\n").split("\t") for r in open(os.path.join(HERE, "names.tsv"), encoding="utf-8") if "\t" in r)
    changed = 0
    jobs = [(p, antt) for p in texts(root)]
    jobs += [(p, rust) for p in sorted(glob.glob(os.path.join(root, "crates", "*", "src", "*.rt")))]
    jobs += [(p, loose) for p in [os.path.join(root, "README.md"), *sorted(glob.glob(os.path.join(root, "docs", "**", "*.md"), recursive=True))] if os.path.exists(p)]
    for path, how in jobs:
        old = open(path, encoding="utf-8").read()
        new = how(old, rows | APART.get(os.path.relpath(path, root), {}))
        if new != old:
            open(path, "w", encoding="utf-8").write(new)
            changed += 1
    print(f"respell: {len(rows)} names, {changed} files changed")


def main():
    if len(sys.argv) != 3 or sys.argv[1] not in ("table", "turn"):
        sys.exit(__doc__)
    if sys.argv[1] == "turn":
        turn(sys.argv[2])
        return
    rows = table(sys.argv[2])
    for old, new in rows.items():
        print(f"{old}\t{new}")
    for path, new, olds in falling(sys.argv[2], rows):
        print(f"{path}: {' and '.join(olds)} would both be {new}", file=sys.stderr)


if __name__ == "__main__":
    main()
