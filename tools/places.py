#!/usr/bin/env python3
"""Counts the places of each point of docs/DESIGN-PASS.md in crates/*/src.

usage: places.py [POINT..] [--list]     at the top of the repository; with --list each place, as file:line and what stands there
  1  own enums that carry values, structs with a code beside a value, structs of numbered codes
  2  groups of functions that are equal but for names, types and numbers
  3  loops that count or move an index by hand
  4  functions that compare, choose, copy, fill, convert or print by hand
  5  facts that stand in three or more contracts, groups of parameters that travel together
  6  slices that come with a count, parallel slices
  7  switches on which step to run: matches and chains of ifs on a code that end in calls
  8  answers in proofs, and those that cite a name of Rattle's own"""
import re, sys
from collections import defaultdict
from pathlib import Path

TOP = Path("crates")
FN = re.compile(r"^( *)(?:pub(?:\(\w+\))? )?(?:unsafe )?(?:extern \"C\" )?fn (\w+)", re.M)


def sources():
    for p in sorted(TOP.glob("*/src/**/*.rt")):
        yield p, p.read_text(encoding="utf-8")


def line(s, at):
    return s.count("\n", 0, at) + 1


def functions(s):
    for m in FN.finditer(s):
        end = re.search(r"^" + m[1] + r"\}", s[m.end():], re.M)
        if end:
            yield m[2], m.start(), s[m.start():m.end() + end.end()]


def body(text):
    i = re.search(r"^ *\{$", text, re.M) or re.search(r"\{$", text, re.M)
    return text[i.end():] if i else ""


def parameters(text):
    head = text[text.index("(") + 1:]
    d, out, cur = 0, [], ""
    for c in head:
        if c in "([{<":
            d += 1
        elif c in ")]}>":
            if d == 0:
                break
            d -= 1
        if c == "," and d == 0:
            out.append(cur); cur = ""
        else:
            cur += c
    out.append(cur)
    return [re.sub(r"\s+", " ", x).strip() for x in out if x.strip()]


def one():
    for p, s in sources():
        for m in re.finditer(r"^(?:pub )?enum (\w+) \{\n(.*?)^\}", s, re.M | re.S):
            vs = re.findall(r"^    (\w+)(\(.*\))?,", m[2], re.M)
            if any(v[1] for v in vs):
                yield p, line(s, m.start()), "enum %s { %s }" % (m[1], ", ".join(a + b for a, b in vs[:5]) + (", .." if len(vs) > 5 else ""))
        for m in re.finditer(r"^(?:pub )?struct (\w+) \{\n(.*?)^\}", s, re.M | re.S):
            codes = re.findall(r"^    (?:pub )?(number|kind|shape|over|odd|head|state): ", m[2], re.M)
            if codes:
                yield p, line(s, m.start()), "struct %s: %s" % (m[1], ", ".join(codes))
        for m in re.finditer(r"^(?:pub )?struct (\w+);", s, re.M):
            impl = re.search(r"^impl " + m[1] + r" \{\n(.*?)^\}", s, re.M | re.S)
            codes = re.findall(r"const \w+: (?:u8|u64) =", impl[1]) if impl else []
            if len(codes) >= 3:
                yield p, line(s, m.start()), "struct %s of %d codes" % (m[1], len(codes))


def two():
    word = re.compile(r"[A-Za-z_]\w*|\d+")
    keep = set("fn let mut if else match while for in loop return".split())
    groups = defaultdict(list)
    for p, s in sources():
        for name, at, text in functions(s):
            b = re.sub(r"//.*", "", body(text))
            shape = re.sub(r"\s+", " ", word.sub(lambda m: m[0] if m[0] in keep else "x", b)).strip()
            if len(shape) > 60:
                groups[shape].append((p, line(s, at), name))
    for places in groups.values():
        if len(places) > 1:
            p, n, _ = places[0]
            yield p, n, ", ".join("%s::%s" % (q.parts[1], f) for q, _, f in places)


def three():
    for p, s in sources():
        for name, at, text in functions(s):
            for m in re.finditer(r"^ *(?:'\w+: )?(while .*|loop) \{$|^ *while (.*\n)+?^ *\{$", text, re.M):
                rest = text[m.end():]
                if re.search(r"\b(\w+) [+-]= |\b(\w+) = [^;]*;", rest):
                    yield p, line(s, at + m.start()), "%s: %s" % (name, m[0].strip().split("\n")[0])


def four():
    verbs = re.compile(r"^(is_before|less|at_most|same\w*|equal\w*|either|max_of|min_of|earlier|capped|cut|or_zero|is_known|put|put_\w+|copy\w*|clear\w*|shift\w*|fill\w*|zero\w*|all_zero|is_zero|wide\w*|fresh|bare|number_of|peek|cell_at|local_at|digit)$")
    for p, s in sources():
        if p.parts[1] in ("tokens", "reads", "opens", "states", "evals", "enabled", "calls", "values"):
            continue
        for name, at, text in functions(s):
            if verbs.match(name):
                yield p, line(s, at), name


def five():
    facts, groups = defaultdict(list), defaultdict(list)
    for p, s in sources():
        for name, at, text in functions(s):
            head = text[:len(text) - len(body(text))]
            for m in re.finditer(r"^ *(?:requires|ensures)(?: \w+)? \{ (.*) \}$", head, re.M):
                for fact in re.split(r" × (?![^()]*\))", m[1]):
                    facts[fact.strip()].append((p, line(s, at), name))
            ps = [re.sub(r"^(?:mut )?(\w+): .*$", r"\1", x) for x in parameters(text)]
            if len(ps) >= 4:
                for i in range(len(ps) - 2):
                    groups[tuple(ps[i:i + 3])].append((p, line(s, at), name))
    for f, places in facts.items():
        if len({(q, k) for q, k, _ in places}) >= 3:
            yield places[0][0], places[0][1], "fact in %d contracts: %s" % (len(places), f[:90])
    for g, places in groups.items():
        if len(places) >= 3:
            yield places[0][0], places[0][1], "parameters of %d functions: %s" % (len(places), ", ".join(g))


def six():
    for p, s in sources():
        for name, at, text in functions(s):
            ps = parameters(text)
            slices = [x for x in ps if re.search(r": &(?:'\w+ )?(?:mut )?\[", x)]
            counts = [x for x in ps if re.match(r"(n|count|rows|sums|processes|pairs|size|len\w*|used): usize", x)]
            if slices and counts or len(slices) >= 3:
                yield p, line(s, at), "%s: %d slices%s" % (name, len(slices), ", " + ", ".join(c.split(":")[0] for c in counts) if counts else "")


def seven():
    for p, s in sources():
        for name, at, text in functions(s):
            b = body(text)
            arms = re.findall(r"=> [a-z_:]+\(", b)
            if len(arms) >= 4:
                yield p, line(s, at), "%s: %d arms that call" % (name, len(arms))


def eight():
    for p in sorted(TOP.glob("*/proofs/**/Answers.antt")):
        t = p.read_text(encoding="utf-8")
        n = len(re.findall(r"^pub [\w-]+ : goal\.", t, re.M))
        own = len(re.findall(r"\b(?:branch-raw|true-raw|false-raw|in_default-own|s-1)\b", t))
        yield p, 1, "%d answers%s" % (n, ", %d names of Rattle's own" % own if own else "")


POINTS = {"1": one, "2": two, "3": three, "4": four, "5": five, "6": six, "7": seven, "8": eight}
args = [a for a in sys.argv[1:] if a != "--list"]
for k in args or sorted(POINTS):
    places = list(POINTS[k]())
    print("point %s: %d places" % (k, len(places)))
    if "--list" in sys.argv:
        for p, n, what in places:
            print("  %s:%d: %s" % (p, n, what))
