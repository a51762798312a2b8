#!/usr/bin/env python3
"""Spells the repository's own names as today's Rattle does: words in snake case. Run once, after port.py, at the top.

A definition, lemma, field or constructor of specs/ and proofs/ in camel case or with dashes gets underscores:
firstFailed -> first_failed, over-start -> over_start. Where two of them would fall together, the one in camel case, a
function, has the plain name, and the other, a lemma, ends in _lem. Names of the kit, names that Rattle makes in proofs,
names of src/, strings and paths stay. Turned are .antt and .rt files, the texts of must-fail edits, and the code spans
of README.md and docs/*.md. tools/turned-by-port.txt lists names that port.py turned before in .antt and .rt files alone;
tools/respelled.tsv has what was turned: old, new, and a crate that declares it.
"""

import collections
import os
import re
import sys

TOKEN = re.compile(r'[^\s(){}.;,@"«»\[\]\\]+')
KIT = re.compile(r"^(Rattle\.(std|core)|Prim|lib|mathlib|native|borrow|denote|mir|contract|seplogic|types|prog|logic)\b")
USE = re.compile(r"^\s*(?:pub )?use ([^\s{]+?)\.\{([^}]*)\}", re.M)
DECLARED = re.compile(
    r"^\s*(?:pub\s+)?(?:unfoldable\s+)?(?:abbrev\s+)?(?:pub\s+)?(?:(?:data|record|abbrev)\s+)?"
    r"([^\s(){}.;,@\"«»:]+)\s*(?:[({].*)?:(?:\s|$)"
)
CAMEL = re.compile(r"^[a-z][a-z0-9_]*[A-Z]")
# Names that a proof by hand takes from the walk that Rattle makes, which are bound locally and not declared.
BOUND = re.compile(r"(?<![\w.'·])[a-z][a-z0-9]*[A-Z]\w*")
MADE = re.compile(r"^(WpFn-mono|#.*|\w+-(def|thm)|put-number-(kinds|lts)|place-fits|tens-reads)$")
LOCAL = re.compile(r"(?:\blet[ \t]+|\bλ[ \t]*|[({][ \t]*|^[ \t]+)([a-z][^\s(){}.;,@\"«»:]*-[^\s(){}.;,@\"«»:]+)(?=[^:=\n]{0,40}?(?:\s:|\s=|\.))", re.M)


def files(root):
    for folder, dirs, names in os.walk(os.path.join(root, "crates")):
        dirs[:] = sorted(d for d in dirs if d != "out")
        for name in sorted(names):
            if name.endswith((".antt", ".rt", ".edit")):
                yield os.path.join(folder, name)


def read(path):
    with open(path, encoding="utf-8") as f:
        return f.read()


def write(path, text):
    with open(path, "w", encoding="utf-8") as f:
        f.write(text)


def of_kit(text):
    """The names that a file takes from the kit."""
    names = set()
    for module, items in USE.findall(text):
        if KIT.match(module):
            for item in items.split(","):
                names.update(word.strip() for word in item.split(" as "))
    return names


def snake(name):
    return re.sub(r"(?<=[a-z0-9])([A-Z])", lambda m: "_" + m[1].lower(), name).replace("-", "_")


def table(root):
    """Old name to new name, and old name to a crate that declares it."""
    declared, local, kit_names = {}, set(), set()
    for path in files(root):
        if not path.endswith(".antt"):
            continue
        text = re.sub(r"--[^\n]*", "", read(path))
        crate = os.path.relpath(path, os.path.join(root, "crates")).split(os.sep)[0]
        kit = of_kit(text)
        kit_names |= kit
        for line in text.split("\n"):
            m = DECLARED.match(line)
            if m and not re.search(r":\s*\(?.*\btie\.", line) and m[1] not in kit:
                declared.setdefault(m[1], crate)
        local.update(LOCAL.findall(text) + BOUND.findall(text))
    for name in local:
        if not MADE.match(name) and name not in kit_names:
            declared.setdefault(name, "")
    turned = {n for n in declared if re.search("[A-Za-z]", n) and ("-" in n[1:] or CAMEL.match(n)) and n[0].islower()}
    plain = collections.defaultdict(list)
    for name in declared:
        plain[snake(name) if name in turned else name].append(name)
    out = {}
    for new, olds in plain.items():
        olds.sort(key=lambda n: (not CAMEL.match(n), "-" in n, n))
        for i, old in enumerate(olds):
            to = new if i == 0 else new + "_lem" if i == 1 else new + "_lem_%d" % i
            if to != old:
                out[old] = to
    return out, declared


def turn_code(text, names, leave):
    def word(m):
        return names[m[0]] if m[0] in names and m[0] not in leave else m[0]

    def part(m):
        t = m[0]
        if t.startswith('"'):
            return t
        if t.startswith(("--", "//")):
            t = re.sub(r"`[^`\n]*`", lambda s: TOKEN.sub(word, s[0].replace("`", " ` ")).replace(" ` ", "`"), t)
            return re.sub(r"[A-Za-z0-9_]+", lambda w: names.get(w[0], w[0]) if CAMEL.match(w[0]) else w[0], t)
        return TOKEN.sub(word, t)

    return re.sub(r'"(?:\\.|[^"\\\n])*"|(?<![^\s(){};,])(?:--|//)[^\n]*|(?:(?!(?<![^\s(){};,])(?:--|//))[^"])+|"', part, text)


def turned_before():
    """The names that port.py itself turned in .antt and .rt files, which edits and pages still have as they were."""
    here = os.path.dirname(os.path.realpath(__file__))
    return {n: snake(n) for n in read(os.path.join(here, "turned-by-port.txt")).split()}


def turn_page(text, names):
    def span(m):
        return re.sub(r"[^\s(){}.;,@\"«»\[\]\\`/=]+", lambda w: names.get(w[0], w[0]), m[0])

    return re.sub(r"`[^`\n]*`", span, text)


def main(root):
    names, declared = table(root)
    all_names = {**turned_before(), **names}
    for path in files(root):
        text = read(path)
        if path.endswith(".edit"):
            turn = lambda m: m[1] + turn_code(m[2], all_names, set())
            new = re.sub(r"^((?:old|new): )(.*)$", turn, text, flags=re.M)
        else:
            new = turn_code(text, names, of_kit(text))
        if new != text:
            write(path, new)
    pages = [os.path.join(root, "README.md")]
    pages += [os.path.join(root, "docs", n) for n in sorted(os.listdir(os.path.join(root, "docs"))) if n.endswith(".md")]
    for path in pages:
        text = read(path)
        new = turn_page(text, all_names)
        if new != text:
            write(path, new)
    write(os.path.join(root, "tools", "respelled.tsv"), "".join(f"{o}\t{n}\t{declared[o]}\n" for o, n in sorted(names.items())))
    print(len(names), "names turned")


if __name__ == "__main__":
    main(sys.argv[1] if len(sys.argv) > 1 else ".")
