#!/usr/bin/env python3
"""Respells this repository's own definitions and lemmas: words in snake case, types and facts in camel case.

Run once, at the top, after the toolchain's own script: python3 tools/respell.py [--write]
Without --write it lists what it would do. Names that the toolchain makes (goals, steps) and names of its library stay.
"""
import collections
import glob
import os
import re
import sys

TOKEN = re.compile(r"(?<![^\s(){}\[\];,.:\"«»⌜⌝λ@|`'])" + r"[A-Za-z][A-Za-z0-9_'-]*[A-Za-z0-9_']" + r"(?![^\s(){}\[\];,.:\"«»⌜⌝λ@|`'])")
DECLARED = re.compile(r"^\s*(?:(?:(?:pub|abbrev|unfoldable|record|data|let)\s+)*([A-Za-z][A-Za-z0-9_'-]*)\s*:\s|(?:pub\s+)?(?:record|data)\s+([A-Za-z][A-Za-z0-9_'-]*)\s*[({])")
IMPORT = re.compile(r"^\s*(?:ghost\s+)?use\s+([^{;]+?)\.\{([^}]*)\}", re.M)


# Names that would fall together with a function of src/ or another name.
SPECIAL = {
    "Tasks-apart": "TasksAreApart",
    "bit-and": "bit_of_and",
    "bit-xor": "bit_of_xor",
    "Read_from": "ReadFrom",
}
WITH_SUFFIX = """kind-of every-text-has-one-reading every-written-text-reads-back changes-stand-alone checks-see-both
leases-come-back cases-hold one-column-tells value-at set-from left-place right-place permission-place first-broken
is-full permission-number is-permission goes-beyond reaches-barred read-on""".split()
SPECIAL.update({name: name.replace("-", "_") + "_lem" for name in WITH_SUFFIX})


# Names that no line declares with a dash: variables of lemmas, and one that the toolchain's script left half turned.
UNDECLARED = {"Read_from", "as-cut", "as-spot", "as-told", "as-way", "no-lf", "not-comma", "not-cr", "not-lf", "not-quote"}


def camel(name):
    return "".join(part[:1].upper() + part[1:] for part in name.split("-"))


def respelt(name, before=""):
    # behind a dot stands a step of a proof, which is called by the function's own name
    if name in SPECIAL and before != ".":
        return SPECIAL[name]
    if name[0].isupper():
        return camel(name)
    return name.replace("-", "_")


def texts():
    files = glob.glob("crates/*/specs/**/*.antt", recursive=True) + glob.glob("crates/*/proofs/**/*.antt", recursive=True)
    return sorted(files) + sorted(glob.glob("crates/*/src/**/*.rt", recursive=True))


def is_own(path):
    head = path.strip().split(".")
    made = "proofs" in head and head[-1] in ("Goals", "Given")
    return head[0] == "Rattle" and os.path.isdir("crates/" + head[1]) and not made


def is_generated(file):
    return os.path.basename(file) in ("Answers.antt", "Invariants.antt", "Proof.antt")


def main():
    write = "--write" in sys.argv
    own = set(UNDECLARED)
    local = collections.defaultdict(set)
    kept = collections.defaultdict(set)
    for file in texts():
        text = open(file, encoding="utf-8").read()
        for path, names in IMPORT.findall(text):
            if not is_own(path):
                for name in names.split(","):
                    kept[file].add(name.strip().split(" as ")[0].strip())
        if not file.endswith(".antt"):
            continue
        for line in text.splitlines():
            found = DECLARED.match(line)
            name = found and (found.group(1) or found.group(2))
            if not found or "-" not in name:
                continue
            if is_generated(file):
                if re.search(r":\s*goal\.", line) or re.search(r":\s*given\.", line):
                    continue
                local[file].add(name)
            else:
                own.add(name)
    clashes = 0
    for file in texts():
        text = open(file, encoding="utf-8").read()
        todo = (own | local[file]) - kept[file]
        by_new = collections.defaultdict(set)

        def turn(found):
            name = found.group(0)
            before = text[found.start() - 1 : found.start()]
            new = respelt(name, before) if name in todo else name
            if before != ".":
                by_new[new].add(name)
            return new

        turned = TOKEN.sub(turn, text)
        for new, olds in by_new.items():
            if len(olds) > 1:
                clashes += 1
                print("clash:", file, new, sorted(olds))
        if turned != text and write:
            open(file, "w", encoding="utf-8").write(turned)
    # pages and must-fail edits name definitions too
    for file in sorted(glob.glob("docs/*.md") + ["README.md"] + glob.glob("crates/*/must-fail/*.edit")):
        text = open(file, encoding="utf-8").read()
        turned = TOKEN.sub(lambda m: respelt(m.group(0)) if m.group(0) in own and (file.endswith(".edit") or text[m.start() - 1] == "`") else m.group(0), text)
        if turned != text:
            if write:
                open(file, "w", encoding="utf-8").write(turned)
            else:
                print("page:", file, sorted({m.group(0) for m in TOKEN.finditer(text) if m.group(0) in own}))
    if not write:
        for name in sorted(own):
            print("own:", name, "->", respelt(name))
    print(len(own), "names,", clashes, "clashes")


main()
