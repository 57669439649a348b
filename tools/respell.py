#!/usr/bin/env python3
"""Spells the repository's own definitions, lemmas, fields and variables as today's Rattle spells names.

usage: python3 tools/respell.py      at the top of the repository, once

Words go into snake case, types and relations into upper camel case. Names that Rattle makes from the code keep their
dashes, as do the library's. Functions of src/, strings, inputs and outputs are left alone. In documents only what
stands in backticks is turned.
"""
import collections
import os
import re
import sys

NAME = r"[A-Za-z][^\s(){}\[\].;,:\"`|@]*"
MADE = re.compile(r"(else|then|if|loop|returns)-|.*-index$|in-([A-Z0-9]|default|ok|err)|quiet-in-|is-[0-9]")
# names with a capital and underscores, which port.py leaves
MIXED = re.compile(r"[A-Z][a-z]+(_[a-z]+)+")
# names that hold an older name of the library's, or capitals
OTHERS = {"getD-padded": "get_or_padded", "all-FF": "all_ff", "sumBy-constant": "sum_by_constant"}


def files(*ends):
    for top in ("crates", "docs", "README.md"):
        if os.path.isfile(top):
            if top.endswith(ends):
                yield top
        for folder, dirs, names in os.walk(top):
            dirs[:] = sorted(d for d in dirs if d not in ("out", "data", "must-fail"))
            for n in sorted(names):
                if n.endswith(ends):
                    yield os.path.join(folder, n)


def read(p):
    with open(p, encoding="utf-8") as f:
        return f.read()


def bare(t):
    return re.sub(r"--(?=[\s-]).*", "", t)


def declared():
    own = collections.defaultdict(set)
    crates = set(os.listdir("crates"))
    foreign = set()

    def uses(pattern, t, p):
        for m in re.finditer(pattern, t):
            parts = m[1].split(".")
            mine = parts[0] == "Rattle" and parts[1] in crates
            for item in m[2].split(","):
                a = [x.strip() for x in item.split(" as ")]
                if not mine or parts[-1] in ("Goals", "Given"):
                    foreign.add(a[0])
                if len(a) == 2:
                    own[a[1]].add(p)

    for p in files(".antt"):
        t = bare(read(p))
        uses(r"\buse (\S+?)\.\{([^}]*)\}", t, p)
        for m in re.finditer(r"\b(?:goal|given)\.(" + NAME + ")", t):
            foreign.add(m[1])
        for m in re.finditer(r"^\s*(?:abbrev |unfoldable |opaque |pub |data |record )*(" + NAME + r")((?:\s+\(.*?\)|\s+\{.*?\})*)\s*:(?!:)", t, re.M):
            if not t[m.end() : m.end() + 60].strip().startswith("goal."):
                own[m[1]].add(p)
        for m in re.finditer(r"\blet (" + NAME + ")|^\\s*module (" + NAME + ")", t, re.M):
            own[m[1] or m[2]].add(p)
        for m in re.finditer(r"λ ((?:" + NAME + r"\s*)+)\.|[({]((?:" + NAME + r"\s+)+):", t):
            for n in (m[1] or m[2]).split():
                own[n].add(p)
        for m in re.finditer(r"^(\s*)(" + NAME + r")((?: [^=\n]*?)?) = |[\[|]\s*([^|\[\n]*?) ↦", t, re.M):
            for n in re.findall(NAME, m[3] or m[4] or ""):
                own[n].add(p)
    for p in files(".rt"):
        t = read(p)
        uses(r"\bghost use (\S+?)\.\{([^}]*)\}", t, p)
        for m in re.finditer(r"(?:requires|ensures)\*? ([\w'-]+) \{", t):
            own[m[1]].add(p)
    return {n for n in own if ("-" in n and not MADE.match(n) or MIXED.fullmatch(n)) and n not in foreign}


def new(n):
    if n in OTHERS:
        return OTHERS[n]
    if n[0].isupper():
        return "".join(w[:1].upper() + w[1:] for w in re.split(r"[-_]", n))
    return n.replace("-", "_")


TOKEN = re.compile(NAME)


def turn(t, names):
    t = TOKEN.sub(lambda m: new(m[0]) if m[0] in names else m[0], t)
    return t


def turn_comment(t, names):
    return re.sub(r"`([^`\n]+)`", lambda m: "`" + turn(m[1], names) + "`", t)


def turn_antt(t, names):
    out = []
    for line in t.split("\n"):
        m = re.search(r"--(?=[\s-])", line)
        i = m.start() if m else len(line)
        out.append(turn(line[:i], names) + turn_comment(line[i:], names))
    return "\n".join(out)


def turn_rt(t, names):
    out = []
    for line in t.split("\n"):
        m = re.match(r'((?:[^"/]|/(?!/)|"(?:[^"\\]|\\.)*")*)(//.*)?$', line)
        if not m:
            out.append(line)
            continue
        code = re.sub(r'"(?:[^"\\]|\\.)*"|[^"]+', lambda k: k[0] if k[0].startswith('"') else turn(k[0], names), m[1])
        out.append(code + turn_comment(m[2] or "", names))
    return "\n".join(out)


def main():
    names = declared()
    together = collections.defaultdict(set)
    for n in names:
        together[new(n)].add(n)
    for k, v in together.items():
        if len(v) > 1:
            sys.exit(f"respell: {sorted(v)} fall together as {k}")
    for p in files(".antt", ".rt", ".md"):
        t = read(p)
        u = turn_antt(t, names) if p.endswith(".antt") else turn_rt(t, names) if p.endswith(".rt") else turn_comment(t, names)
        if u != t:
            with open(p, "w", encoding="utf-8") as f:
                f.write(u)


main()
