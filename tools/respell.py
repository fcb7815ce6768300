#!/usr/bin/env python3
"""Brings the repository's own definitions and lemmas to snake case, once, after the kit's port.py: `python3 tools/respell.py` at the top.

A name that a .antt file of the repository declares, and that has a dash, a prime or a capital inside, gets the spelling of the others:
`power-sum` becomes `power_sum`. What stays: names that the library has under the same spelling (`mul-zero`), names that Rattle
makes (`invariant-loop`), and names reached through a module of the library. It stops where two names would fall together.
"""
import collections
import glob
import re
import sys

OWN = re.compile(r"Rattle\.(?!std\b)")
TOKEN = re.compile(r"[^\s(){}\[\],;.\"`:|@]+")
MADE = re.compile(r"^(invariant|decreases)-|-spec$")
KEPT = {"mul-zero", "pow-zero", "pow-add", "mul-one", "zero-add", "one-mul", "zero-mul", "add-zero", "mul-add", "add-mul", "add-one"}


def odd(name):
    return bool(re.search(r"\w-\w", name) or re.match(r"[a-z]\w*[A-Z]", name) or "′" in name)


def snake(name):
    name = name.replace("getD", "get_or").replace("isPrime", "is_prime").replace("natAbs", "nat_abs").replace("flatMap", "flat_map")
    return re.sub(r"(?<=\w)-(?=\w)", "_", name.replace("′", "'"))


def code(line):
    comment = re.search(r"(^|\s)--(\s|$)", line)
    return line[: comment.start()] if comment else line


def declared(line):
    at = re.match(r"\s*(?:(?:pub|abbrev|unfoldable|data|record|ruleset|module) )*([^\s(){}:]+)\s*(?:[({].*)?:(?:\s|$)", line)
    rules = re.match(r"\s*(?:pub )?ruleset (\S+) =", line)
    return (rules or at)[1] if rules or at else None


def main():
    files = sorted(glob.glob("crates/*/specs/**/*.antt", recursive=True) + glob.glob("crates/*/proofs/**/*.antt", recursive=True))
    texts = {file: open(file, encoding="utf-8").read() for file in files}
    names, everything = set(), set()
    for text in texts.values():
        for line in text.split("\n"):
            name = declared(code(line))
            if name and not re.match(r"\s*(pub )?use ", line):
                everything.add(name)
                if odd(name) and not MADE.search(name) and name not in KEPT:
                    names.add(name)
    new = {name: snake(name) for name in names}
    back = collections.Counter(new.values())
    clash = sorted(name for name, to in new.items() if back[to] > 1 or to in everything)
    if clash:
        sys.exit("fall together: " + " ".join(clash))

    def turned(text, library, imported):
        def turn(at):
            token, before = at[0], text[: at.start()]
            if token not in new:
                return token
            owner = re.search(r"([^\s(){}\[\],;.\"`]+)\.$", before[-80:])
            if owner and owner[1] in library or token in imported and not owner:
                return token
            return new[token]

        return TOKEN.sub(turn, text)

    for file in files + sorted(glob.glob("crates/*/src/**/*.rt", recursive=True)) + sorted(glob.glob("crates/*/must-fail/*.edit")):
        text = open(file, encoding="utf-8").read()
        library, imported = set(), set()
        for line in text.split("\n"):
            at = re.match(r"\s*(?:ghost )?(?:pub )?use ([^\s{;]+?)(?:\.\{(.*)\})?(?: as (\S+?))?;?$", line)
            if at and not OWN.match(at[1]):
                if at[2]:
                    imported |= {one.split(" as ")[-1].strip() for one in at[2].split(",")}
                else:
                    library.add(at[3] or at[1].split(".")[-1])
        if file.endswith(".rt"):
            done = "\n".join(line if line.lstrip().startswith("//") and not line.startswith("ghost") else turned(line, library, imported) for line in text.split("\n"))
        else:
            done = turned(text, library, imported)
        if done != text:
            open(file, "w", encoding="utf-8").write(done)


main()
