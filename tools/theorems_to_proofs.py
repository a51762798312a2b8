#!/usr/bin/env python3
"""Moves files of theorems from specs/ to proofs/, with all that names them. Run at the top; a second run changes nothing.

theorems-to-proofs.tsv beside it has a line a file: crate, path, and a new path where one of the crate's types has the
module's name. A must-fail edit of a definition counts as refused
only if no line of specs/ rests on a theorem that falls with it; in proofs/ such a line is no matter. Each file keeps its
text, but for the paths of modules that moved.
"""

import os
import re
import sys


def read(path):
    with open(path, encoding="utf-8") as f:
        return f.read()


def write(path, text):
    os.makedirs(os.path.dirname(path), exist_ok=True)
    with open(path, "w", encoding="utf-8") as f:
        f.write(text)


def parent(part, names):
    """The file that declares a module: that of the module above it, or Lib."""
    return os.path.join(part, *names[:-1]) + ".antt" if names[:-1] else os.path.join(part, "Lib.antt")


def declare(path, name, text="-- Theorems on the module of this name in specs/, and an index.\n"):
    line = f"pub mod {name}"
    old = read(path) if os.path.exists(path) else ("" if path.endswith("Lib.antt") else text)
    if line in old.split("\n"):
        return
    lines = old.split("\n")
    at = max([i + 1 for i, l in enumerate(lines) if l.startswith(("pub mod ", "mod "))] + [0])
    if at == 0:
        while at < len(lines) and lines[at].startswith("--"):
            at += 1
    lines.insert(at, line)
    write(path, "\n".join(lines).rstrip("\n") + "\n")


def drop(path, name):
    if not os.path.exists(path):
        return
    text = read(path)
    new = re.sub(rf"(?m)^pub mod {name}\n", "", text)
    if new != text:
        write(path, new)


def main(root):
    here = os.path.dirname(os.path.realpath(__file__))
    rows = [l.split("\t") for l in read(os.path.join(here, "theorems-to-proofs.tsv")).split("\n") if l]
    moved = {}
    names_of = lambda path: tuple(path.split("/", 1)[1][: -len(".antt")].split("/"))
    for crate, path, *to in rows:
        moved.setdefault(crate, {})[names_of(path)] = names_of(to[0] if to else path)
    for crate, modules in moved.items():
        specs, proofs = (os.path.join(root, "crates", crate, part) for part in ("specs", "proofs"))
        for names in sorted(modules):
            old = os.path.join(specs, *names) + ".antt"
            if not os.path.exists(old):
                continue
            text = read(old)
            stay = [m for m in re.findall(r"(?m)^pub mod (\w+)$", text) if names + (m,) not in modules]
            for m in stay:
                text = re.sub(rf"(?m)^pub mod {m}\n", "", text)
            there = modules[names]
            to = os.path.join(proofs, *there) + ".antt"
            known = re.findall(r"(?m)^pub mod (\w+)$", read(to)) if os.path.exists(to) else []
            write(to, text)
            for m in known:
                declare(to, m)
            os.remove(old)
            if stay:
                for m in stay:
                    declare(old, m, "-- An index.\n")
            else:
                drop(parent(specs, names), names[-1])
            for i in range(len(there), 0, -1):
                declare(parent(proofs, there[:i]), there[i - 1])
        for folder, dirs, _ in os.walk(specs, topdown=False):
            if not os.listdir(folder):
                os.rmdir(folder)
    pattern = re.compile(r"Rattle\.(\w+)\.specs\.((?:[A-Z]\w*)(?:\.[A-Z]\w*)*)(?=\.[a-z_{◌]|\s|$)")

    def path_of(m):
        to = moved.get(m[1], {}).get(tuple(m[2].split(".")))
        return f"Rattle.{m[1]}.proofs.{'.'.join(to)}" if to else m[0]

    def page_of(m):
        to = moved.get(m[1], {}).get(tuple(m[2].split("/")))
        return f"crates/{m[1]}/proofs/{'/'.join(to)}" if to else m[0]

    pages = [os.path.join(root, "README.md")] + [os.path.join(root, "docs", n) for n in os.listdir(os.path.join(root, "docs")) if n.endswith(".md")]
    for folder, dirs, names in os.walk(os.path.join(root, "crates")):
        dirs[:] = [d for d in dirs if d != "out"]
        for name in names:
            if name.endswith((".antt", ".rt", ".edit")):
                path = os.path.join(folder, name)
                text = read(path)
                new = pattern.sub(path_of, text)
                if new != text:
                    write(path, new)
    for path in pages:
        text = read(path)
        new = re.sub(r"crates/(\w+)/specs/([\w/]+)(?=\.antt)", page_of, text)
        if new != text:
            write(path, new)


if __name__ == "__main__":
    main(sys.argv[1] if len(sys.argv) > 1 else ".")
