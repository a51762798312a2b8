"""Writes the files of cases, and the answers that the program must give.

Usage: all_cases.py D    writes the cases in D/data, a file a name or, where it has chapters, a folder with a file a chapter;
in D/data/files the list of these by which the program goes, each after the letter of its calls; and in D/stdout the answers
of all names one after another, each under a line with the name.

The cases are reckoned in the modules imported here, each of which gives its chapters: name, cases, answers.
"""
import itertools
import pathlib
import sys

import c40_cases
import der_cases
import feature_cases
import front_cases
import listing_cases
import pair_cases
import seal_cases
import shown_cases
import walk_cases
import why_cases
import write_cases

BUFFER = 65536   # the program's for a file of cases and for their answers, neither of which may fill it
LETTERS = {"c40": "c", "numbers": "n", "signatures": "s", "seals": "r", "writing": "w", "listing": "l",
           "why": "y", "walk": "f", "features": "t", "fronts": "h"}
BACK = "b"   # chapters of seals that are read and written back
NAMES = {
    "c40": c40_cases.chapters(),
    "numbers": der_cases.chapters("numbers"),
    "signatures": der_cases.chapters("signatures"),
    "seals": itertools.chain(seal_cases.chapters(), pair_cases.chapters()),
    "writing": write_cases.chapters(),
    "listing": listing_cases.chapters(),
    "why": why_cases.chapters(),
    "walk": itertools.chain(walk_cases.chapters(), shown_cases.chapters()),
    "features": feature_cases.chapters(),
    "fronts": front_cases.chapters(),
}


def text(lines):
    return "\n".join([*lines, ""]).encode("ascii")


def main(directory):
    stdout = b""
    files = []
    for name, chapters in NAMES.items():
        stdout += text([name])
        files.append(f"= {name}")
        for chapter, cases, answers in chapters:
            assert max(len(text(cases)), len(text(answers))) < BUFFER, (name, chapter)
            data = pathlib.Path(directory, "data")
            path = data / name / chapter
            letter = BACK if chapter.startswith("back") else LETTERS[name]
            assert f"{letter} {path.relative_to(data)}" not in files
            files.append(f"{letter} {path.relative_to(data)}")
            path.parent.mkdir(parents=True, exist_ok=True)
            path.write_bytes(text(cases))
            stdout += text(answers)
            print(f"{name:10} {chapter:10} {len(answers):4} cases")
    pathlib.Path(directory, "data", "files").write_bytes(text(files))
    pathlib.Path(directory, "stdout").write_bytes(stdout)


if __name__ == "__main__":
    main(sys.argv[1])
