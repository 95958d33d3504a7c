#!/usr/bin/env python3
"""Respells the names that this repository's specs/ and proofs/ define: types in camel case, all other words in snake case.

Run once, at the top, right after the toolchain's own script has turned an older repository. Names of the library and of the code,
and the names that the check makes for goals and steps, keep theirs. `--list` prints what would change and the names that would
fall together.
"""
import glob
import re
import sys

NAME = r"[^\s(){}\[\];,.:«»⌜⌝]+"
HEAD = re.compile(rf"(?:(?:abbrev|unfoldable|pub|data|record|ruleset|mutual)\s+)*({NAME})(?:\s.*)?\s:\s")
BINDERS = re.compile(r"[({]((?:[^\s(){}\[\];,.:]+\s)+):\s")
MADE = re.compile(  # the names of goals and steps
    r"^(invariant|decreases|loop|returns|overflow|slice-bounds|bounds|nonzero|if|in|then|else|index|element|error)(-|$)"
    r"|-(requires|requires-\d+|init|preserved|smaller|test|end|index|item|is|now)$"
)


def texts():
    paths = glob.glob("crates/*/specs/**/*.antt", recursive=True) + glob.glob("crates/*/proofs/**/*.antt", recursive=True)
    return sorted(paths + glob.glob("crates/*/src/**/*.rt", recursive=True))


def library(files):
    """The names that are imported from the library."""
    found = set()
    for _, text in files:
        for names in re.findall(r"use Rattle\.std[^{;\n]*\{([^}]*)\}", text):
            found.update(n.split(" as ")[0].strip() for n in names.split(","))
    return found


def defined(files):
    """The names with a dash that this repository's own pages define."""
    found = set()
    for path, text in files:
        if path.endswith(".rt"):
            continue
        answers = path.split("/")[-1] in ("Answers.antt", "Invariants.antt", "Choices.antt")
        for line in text.splitlines():
            s = line.strip()
            if s.startswith(("--", "use ")):
                continue
            head = HEAD.match(s)
            names = [head.group(1)] if head and not (answers and MADE.search(head.group(1))) else []
            for group in BINDERS.findall(s):
                names += group.split()
            found.update(n for n in names if "-" in n and re.search("[A-Za-z]", n))
    return found


def respelt(name):
    if name[0].isupper():
        parts = name.split("-")
        return parts[0] + "".join(p[:1].upper() + p[1:] for p in parts[1:])
    return name.replace("-", "_")


def main():
    files = [(p, open(p, encoding="utf-8").read()) for p in texts()]
    std = library(files)
    own = {n for n in defined(files) if n not in std}
    table = {n: respelt(n) for n in own}
    word = re.compile(r"(?<![\w'\-◌·])" + "(?:" + "|".join(sorted(map(re.escape, table), key=len, reverse=True)) + r")(?![\w'\-◌·])")
    if "--list" in sys.argv:
        taken = set()
        for _, text in files:
            taken.update(re.findall(r"[\w'\-]+", text))
        for old, new in sorted(table.items()):
            note = " (taken already)" if new in taken else ""
            print(f"{old} {new}{note}")
        news = list(table.values())
        for n in sorted({n for n in news if news.count(n) > 1}):
            print(f"falls together: {n}")
        return
    for path, text in files:
        lines = []
        for line in text.split("\n"):
            if path.endswith(".rt"):
                if not re.match(r"\s*(ghost |requires|ensures)|.*\{ .*[≡→λ]", line) and "⌜" not in line:
                    lines.append(line)
                    continue
            lines.append(word.sub(lambda m: table[m.group(0)], line))
        new = "\n".join(lines)
        if new != text:
            open(path, "w", encoding="utf-8").write(new)


main()
