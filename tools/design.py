#!/usr/bin/env python3
"""Lists the places that docs/DESIGN-PASS.md counts, point by point: design.py [POINT..], at the top of the repository.

It finds candidates by their text alone; which of them is a place, and why one stays, the page says."""
import difflib
import glob
import re
import sys
from collections import Counter, defaultdict

FUNCTION = re.compile(r"^ *(?:pub )?(?:const )?fn (\w+)", re.M)


def sources():
    """Each source file as (crate, text without comments)."""
    for path in sorted(glob.glob("crates/*/src/**/*.rt", recursive=True)):
        with open(path, encoding="utf-8") as file:
            yield path.split("/")[1], re.sub(r"//.*", "", file.read())


def functions():
    """Each function as (crate, name, parameters, clauses, body)."""
    for crate, text in sources():
        starts = [m.start() for m in FUNCTION.finditer(text)] + [len(text)]
        for start, end in zip(starts, starts[1:]):
            part = text[start:end]
            name = FUNCTION.match(part).group(1)
            # The body is the block that begins a line or ends the signature; clauses are blocks within a line.
            margin = re.match(" *", part).group()
            head, _, rest = part.partition(f"\n{margin}{{\n")
            if not rest:
                head, _, rest = part.partition(" {\n")
            signature = re.split(r"\n\s*(?:requires|ensures)", head)[0]
            signature = signature[signature.find(name) + len(name):]
            clauses = re.findall(r"^\s*(requires|ensures)(?: \w+)? \{(.*)\}\s*$", head, re.M)
            body = rest.split(f"\n{margin}}}")[0]
            yield crate, name, signature, clauses, body


def parameters(signature):
    inner = re.split(r"->", signature)[0].strip().lstrip("<'a>").strip("() \n")
    return [re.sub(r"\s+", " ", p.strip()) for p in re.split(r",\s*", inner) if ":" in p]


def one():
    """Enums; flags of structs; numbers for kinds."""
    for crate, text in sources():
        for m in re.finditer(r"^ *(?:pub )?enum (\w+)[^{]*\{(.*?)^ *\}", text, re.M | re.S):
            cases = re.findall(r"^\s+(\w+)(?=[(,{ ])", m.group(2), re.M)
            yield f"enum {crate} {m.group(1)}: {' '.join(cases)}"
        for m in re.finditer(r"^ +(?:pub )?(\w+): bool,", text, re.M):
            if re.search(r"struct [^{}]*\{[^{}]*$", text[: m.start()]):
                yield f"flag {crate} {m.group(1)}"
        groups = Counter(m.group(1) for m in re.finditer(r"^(?:pub )?const ([A-Z]+)_\w+: u8", text, re.M))
        for group, n in groups.items():
            if n > 1:
                yield f"numbers {crate} {group}: {n}"
        for m in re.finditer(r"match (\w+) \{\s*(?:\d+|[A-Z_]+)(?: \|| =>)", text):
            yield f"match on a number {crate} {m.group(1)}"


def two():
    """Functions of one shape: bodies of three lines or more that are alike, names and numbers aside."""
    shapes = []
    for crate, name, _, _, body in functions():
        tokens = re.findall(r"\w+|[^\w\s]", body)
        if len(tokens) >= 12:
            shapes.append((crate, name, [re.sub(r"^\w+$", "w", t) for t in tokens], set(re.findall(r"\w+", body))))
    for i, (crate, name, shape, words) in enumerate(shapes):
        for other, another, its, theirs in shapes[i + 1:]:
            if abs(len(shape) - len(its)) * 8 > len(shape):
                continue
            alike = len(words & theirs) / len(words | theirs)
            if alike >= 0.5 and difflib.SequenceMatcher(None, shape, its, False).ratio() >= 0.9:
                yield f"{crate}::{name} ~ {other}::{another}"


def three():
    """Loops; those that step a number by hand are marked."""
    for crate, name, _, _, body in functions():
        for m in re.finditer(r"^( *)(while|loop|for)\b(.*)\{$", body, re.M):
            block = body[m.end():].split("\n" + m.group(1) + "}")[0]
            hand = m.group(2) != "for" and re.search(r"^\s*\w+ [+-]= [\w:]+;", block, re.M)
            yield f"{crate}::{name} {m.group(2)}{m.group(3).rstrip()}{'  BY HAND' if hand else ''}"


def four():
    """Functions whose names say that they compare, convert, copy or print; impls of the library's traits."""
    names = re.compile(r"^(same|wide|number|written|digit|sign_of|copy_within|renew|to_\w+|from_\w+|get\d+|put\d+|as_\w+|instant|nanoseconds|write_(hex|shown|\w*decimal))$")
    for crate, name, *_ in functions():
        if names.match(name):
            yield f"by hand {crate}::{name}"
    for crate, text in sources():
        for m in re.finditer(r"^impl(?:<[^>]*>)? ([\w:<>]+) for (\w+)", text, re.M):
            yield f"impl {crate} {m.group(1)} for {m.group(2)}"


def five():
    """Facts that three or more contracts ask for, and parameters that three or more functions take together."""
    facts, pairs = defaultdict(list), defaultdict(list)
    for crate, name, signature, clauses, _ in functions():
        for kind, clause in clauses:
            if kind == "requires":
                for fact in re.split(r" × ", clause):
                    fact = re.sub(r"\b\w+(?:\.\w+)*\.(?:now|old)\b", "x", fact.strip().strip("()"))
                    facts[fact].append(f"{crate}::{name}")
        params = parameters(signature)
        for i, a in enumerate(params):
            for b in params[i + 1:]:
                pairs[f"{a}, {b}"].append(f"{crate}::{name}")
    for table, word in ((facts, "fact"), (pairs, "together")):
        for key, places in sorted(table.items(), key=lambda e: -len(e[1])):
            if len(places) >= 3:
                yield f"{word} {len(places)}: {key}"


def six():
    """Numbers that stand beside octets in a struct or in parameters: a count of what is in use."""
    for crate, name, signature, _, _ in functions():
        params = parameters(signature)
        lent = [p for p in params if re.search(r"\[u8", p)]
        counts = [p for p in params if re.match(r"(count|kept|n|left|to|last)\b.*usize", p)]
        if lent and counts:
            yield f"{crate}::{name} {', '.join(counts)} beside {', '.join(p.split(':')[0] for p in lent)}"


def seven():
    """Parameters that choose a step: flags, and codes that a match takes apart."""
    for crate, name, signature, _, body in functions():
        for p in parameters(signature):
            word = p.split(":")[0]
            if p.endswith(": bool") and re.search(rf"\bif !?{word}\b", body):
                yield f"{crate}::{name} {p}"
            if re.search(r": (u8|usize)$", p) and re.search(rf"match {word} \{{", body):
                yield f"{crate}::{name} match {p}"


def eight():
    """Proofs of each crate: functions with answers, answers, lines of proofs."""
    for crate in sorted({c for c, _ in sources()}):
        answers = glob.glob(f"crates/{crate}/proofs/**/Answers.antt", recursive=True)
        goals = sum(len(re.findall(r"^pub [^\s:]+ : goal\.", open(a, encoding="utf-8").read(), re.M)) for a in answers)
        files = glob.glob(f"crates/{crate}/proofs/**/*.antt", recursive=True)
        lines = sum(len(open(f, encoding="utf-8").read().splitlines()) for f in files)
        yield f"{crate}: {len(answers)} functions, {goals} answers, {lines} lines"


def main():
    points = {"1": one, "2": two, "3": three, "4": four, "5": five, "6": six, "7": seven, "8": eight}
    wanted = sys.argv[1:] or list(points)
    if not set(wanted) <= set(points):
        sys.exit(f"design: no such point; the points are {' '.join(points)}")
    for point in wanted:
        found = list(points[point]())
        print(f"{point}. {points[point].__doc__} {len(found)} lines")
        for line in found:
            print("   " + line)


main()
