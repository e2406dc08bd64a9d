#!/usr/bin/env python3
"""Respells the repository's own definitions and lemmas as Rattle spells its words.

Run once, at the top, right after the toolchain's own script of the port. What a file of specs/ or proofs/ defines under a
name with dashes gets camel case where it begins with a capital (a fact or a type) and underscores elsewhere. A dash stays
where a lemma is named after two functions, as in `length-first`. Comments of .rt files, strings and Rust names stay. The
library's recursive `All` is called by its own name of today, `AllByRecursion`.
"""
import glob
import re
import sys

DEFINED = re.compile(r"^\s*(?:abbrev |unfoldable )?(?:pub )?(?:record |data )?([^\s(){};,.:λ]+)(?: [({].*?)? : ")
ANSWER = re.compile(r" : (?:goal|need|given)\.")
TOKEN = re.compile(r"[^\s(){}\[\];,.:\"`]+")
# The toolchain turned `first-of` into the name of a tactic.
OTHERWISE = {"first_of": "first_passing", "first-of-is": "first_passing_is", "first_of_is": "first_passing_is"}
TWO_FUNCTIONS = {
    "length-extended", "length-first", "length-lengthened", "length-parted", "lengthened-take", "parted-rejoined",
    "rejoined-lengthened", "rejoined-parted", "entries-append", "due-append", "joined-append", "last-append", "take-cons",
    "behind-cons", "behind-nil", "take-shifted",
}


def files(*folders):
    return sorted(f for d in folders for f in glob.glob(f"crates/*/{d}/**/*.antt", recursive=True))


def defined():
    names = {}
    for f in files("specs", "proofs"):
        for line in open(f, encoding="utf-8"):
            found = DEFINED.match(line)
            if found and not ANSWER.search(line) and not line.lstrip().startswith(("let ", "--", "in ")):
                names.setdefault(found.group(1), f)
        for line in open(f, encoding="utf-8"):
            for found in re.finditer(r"\bas ([A-Z][A-Za-z]*-[A-Za-z-]+)", line):
                names.setdefault(found.group(1), f)
    return names


def respelled(name):
    if name in OTHERWISE:
        return OTHERWISE[name]
    if name in TWO_FUNCTIONS:
        return name
    if "-" not in name:
        return name
    parts = name.split("-")
    if name[0].isupper():
        return "".join(p[:1].upper() + p[1:] for p in parts)
    return "_".join(parts)


def main():
    names = defined()
    new = {n: respelled(n) for n in names if respelled(n) != n}
    for n, r in new.items():
        if r in names:
            print(f"falls together: {n} and {r} ({names[n]}, {names[r]})")
    targets = {}
    for n, r in new.items():
        targets.setdefault(r, []).append(n)
    for r, ns in targets.items():
        if len(ns) > 1:
            print(f"falls together: {ns} in {r}")

    def words(text, spelling):
        return TOKEN.sub(lambda m: spelling.get(m.group(0), m.group(0)), text)

    dashed = {n: r for n, r in new.items() if "-" in n}
    changed = 0
    for f in files("specs", "proofs") + sorted(glob.glob("crates/*/src/**/*.rt", recursive=True)):
        old = open(f, encoding="utf-8").read()
        if f.endswith(".rt"):
            parts = re.split(r"(//[^\n]*|\"(?:\\.|[^\"\\])*\")", old)
            text = "".join(p if i % 2 else words(p, dashed) for i, p in enumerate(parts))
        else:
            text = words(old, new)
        if "AllByRecursion as All" in text:
            text = text.replace("AllByRecursion as All", "AllByRecursion")
            text = re.sub(r"(?<![A-Za-z_\-'.{])All(?![A-Za-z_\-'])", "AllByRecursion", text)
        if text != old:
            open(f, "w", encoding="utf-8").write(text)
            changed += 1
    print(f"{len(new)} names respelled in {changed} files")


if __name__ == "__main__":
    sys.exit(main())
