#!/usr/bin/env python3
"""Counts what docs/DESIGN-PASS.md counts, in crates/*/src: python3 tools/places.py [POINT]. With a point it lists the places."""
import collections, difflib, glob, itertools, re, sys

KEYWORDS = set("fn pub let mut if else while for in return match loop as use mod struct enum impl trait const self Self true false usize u8 u16 u32 u64 i32 i64 bool".split())


def functions():
    """Every function: (file, line, name, parameters, requires clauses, ensures clauses, body)."""
    for path in sorted(glob.glob("crates/*/src/**/*.rt", recursive=True)):
        text = open(path).read()
        for m in re.finditer(r"^( *)(?:pub )?(?:extern \"C\" )?fn (\w+)", text, re.M):
            end = text.find("\n" + m.group(1) + "}", m.start())
            whole = text[m.start() : end]
            if "{" not in whole:
                continue
            start = whole.find("\n" + m.group(1) + "{\n")
            head, body = (whole[:start], whole[start:]) if start >= 0 else (whole[: whole.find("{")], whole[whole.find("{") :])
            line = text.count("\n", 0, m.start()) + 1
            yield path, line, m.group(2), head, body


def clauses(head, kind):
    for m in re.finditer(r"\b%s(?: \w+)? \{" % kind, head):
        depth, i = 1, m.end()
        while depth and i < len(head):
            depth += {"{": 1, "}": -1}.get(head[i], 0)
            i += 1
        yield head[m.end() : i - 1].strip()


def facts(clause):
    """The facts of a clause, joined by ×, without the brackets around them."""
    depth, part, parts = 0, "", []
    for c in clause:
        depth += {"(": 1, ")": -1}.get(c, 0)
        if c == "×" and depth == 0:
            parts.append(part)
            part = ""
        else:
            part += c
    for p in parts + [part]:
        p = p.strip()
        if p.startswith("(") and p.endswith(")") and p.count("×") == 0:
            p = p[1:-1]
        if p:
            yield p


def parameters(head):
    m = re.search(r"\((.*?)\)\s*(?:->|\n|$)", head, re.S)
    return [p.strip() for p in (m.group(1) if m else "").replace("\n", " ").split(",") if ":" in p]


def lines(pattern, crates=""):
    for path in sorted(glob.glob("crates/*/src/**/*.rt", recursive=True)):
        if crates and path.split("/")[1] not in crates.split():
            continue
        for i, line in enumerate(open(path), 1):
            if re.search(pattern, line):
                yield "%s:%d: %s" % (path, i, line.strip())


def one():
    """Own enums; a number or flag with values beside it; functions that answer a number of the table; places that make one."""
    yield "enums of the shape of Option or Result", list(own_enums())
    yield "structs with a code beside values", list(lines(r"^ *pub code: u32"))
    yield "functions that answer or take a number of the table", [
        "%s:%d: %s" % f[:3] for f in functions() if "exports" not in f[0] and "timing" not in f[0] and (re.search(r"refus", f[2]) or re.search(r"\bcode: u32", f[3])) and "u32" in f[3]
    ]
    yield "places that write such a number", list(
        lines(r"return ([2-9]|1[0-6]);|refused?(_job|_answer)?\([0-9]+[,)]|code: [0-9]+\b|^ +1[26]$|\{ 0 \} else \{ 3 \}|\{ ([2-9]|1[0-6]) \} else \{ 0 \}", "refusals resolvents records linres_text exports")
    )


def own_enums():
    """Enums one of whose variants holds nothing or an error and the other a value."""
    for path in sorted(glob.glob("crates/*/src/**/*.rt", recursive=True)):
        text = open(path).read()
        for m in re.finditer(r"^ *(?:pub )?enum (\w+) \{(.*?)^ *\}", text, re.M | re.S):
            variants = re.findall(r"^ *(\w+)(\(.*\))?,", m.group(2), re.M)
            if len(variants) == 2:
                yield "%s: %s" % (path, m.group(1))


def shape(text):
    out = []
    for t in re.findall(r"[A-Za-z_]\w*|\d+|[^\s\w]", re.sub(r"//.*", "", text)):
        out.append("x" if re.match(r"[A-Za-z_]", t) and t not in KEYWORDS - {"u8", "u32", "u64", "i32", "i64", "usize"} else "0" if t.isdigit() else t)
    return out


def two():
    """Pairs of functions that are the same but for names, types and numbers, of 40 words and signs or more; alike to nine tenths."""
    fs = [(f, shape(re.sub(r"(requires|ensures).*", "", f[3]) + f[4])) for f in functions()]
    fs = [(f, s) for f, s in fs if len(s) >= 40]
    pairs = []
    for (f, s), (g, t) in itertools.combinations(fs, 2):
        if min(len(s), len(t)) > 0.85 * max(len(s), len(t)):
            m = difflib.SequenceMatcher(None, s, t, autojunk=False)
            if m.quick_ratio() > 0.9 and m.ratio() > 0.92:
                pairs.append("%s:%d %s ~ %s:%d %s" % (f[:3] + g[:3]))
    yield "pairs of functions alike", pairs


def three():
    yield "loops that are no `for`", list(lines(r"^ *('\w+: )?(while|loop)\b"))
    yield "(`for` loops)", list(lines(r"^ *('\w+: )?for\b"))


def four():
    yield "prints by hand", list(lines(r"\bio::(write_all|print_decimal)\("))
    yield "functions that only convert or compare", [
        "%s:%d: %s" % f[:3] for f in functions() if re.fullmatch(r"\s*\{\s*(0 - )?\(?\w+( as \w+)?\)?( as \w+)?( < 0)?\s*", f[4]) or f[2] in ("size", "one_if")
    ]
    yield "(derives)", list(lines(r"^ *#\[derive"))


def five():
    found = collections.defaultdict(set)
    for f in functions():
        for c in clauses(f[3], "requires"):
            for x in facts(c):
                found[re.sub(r"\.(now|old)\b", "", x)].add("%s %s" % (f[0].split("/")[1], f[2]))
    yield "facts asked by three functions or more", ["%s: %d (%s)" % (x, len(s), ", ".join(sorted(s))) for x, s in sorted(found.items(), key=lambda e: -len(e[1])) if len(s) >= 3]
    sets = collections.defaultdict(set)
    for f in functions():
        names = sorted({p.replace("mut ", "", 1) if p.startswith("mut ") else p for p in parameters(f[3])})
        for k in range(3, len(names) + 1):
            for combination in itertools.combinations(names, k):
                sets[combination].add("%s %s" % (f[0].split("/")[1], f[2]))
    groups = {c: s for c, s in sets.items() if len(s) >= 3}
    groups = {c: s for c, s in groups.items() if not any(set(c) < set(d) and s == t for d, t in groups.items())}
    yield "three parameters or more that three functions share", ["%s: %d (%s)" % (", ".join(c), len(s), ", ".join(sorted(s))) for c, s in sorted(groups.items(), key=lambda e: (-len(e[1]), e[0]))]


def six():
    out = []
    for f in functions():
        slices = [p.split(":")[0].replace("mut ", "").strip() for p in parameters(f[3]) if re.search(r"&(mut )?\[", p)]
        counts = [p.split(":")[0].replace("mut ", "").strip() for p in parameters(f[3]) if re.search(r": usize$", p)]
        asked = " ".join(clauses(f[3], "requires"))
        for s in slices:
            for n in counts:
                if re.search(r"\b%s ≤ length %s\.(now|old)" % (n, s), asked):
                    out.append("%s:%d: %s (%s, %s)" % (f[0], f[1], f[2], s, n))
    yield "a slice with the number of its words that count beside it", out
    yield "an array with its length beside it", ["crates/weights/src/lib.rt: Weights"] if "pub len: usize" in open("crates/weights/src/lib.rt").read() else []


def seven():
    yield "a match or chain of tests on which step to run", [x for x in lines(r"\b(step|phase|state|stage|mode|kind)\b\s*(==|\{)")]


def eight():
    files = sorted(glob.glob("crates/*/proofs/**/*.antt", recursive=True))
    text = {f: open(f).read() for f in files}
    answers = [f for f in files if f.endswith("/Answers.antt")]
    yield "answers", ["%s: %d" % (f, n) for f in answers for n in [len(re.findall(r"^pub ", text[f], re.M))] for _ in range(n)]
    yield "lines of proofs", [f for f in files for _ in text[f].splitlines()]


def main():
    points = [one, two, three, four, five, six, seven, eight]
    wanted = int(sys.argv[1]) if len(sys.argv) > 1 else 0
    for k, point in enumerate(points, 1):
        if wanted in (0, k):
            for what, places in point():
                print("%d. %s: %d" % (k, what, len(places)))
                if wanted:
                    for p in places:
                        print("     " + p)


main()
