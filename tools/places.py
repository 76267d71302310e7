#!/usr/bin/env python3
"""Counts the places in src/ at which the older language's forms could stand.

usage: tools/places.py [-l] [COMMIT]    without COMMIT the working tree; -l lists each place
"""
import collections
import itertools
import os
import re
import subprocess
import sys

LINES = {
    "1 an error that is a number": r"Result<.*, *(usize|u8|u32|bool)>",
    "1 a result taken apart by hand": r"let Ok\(.*\) = .*else|is_err\(\)|Err\(\w+\) =>",
    "1 a flag that a loop sets": r"let mut \w+ = (false|true);",
    "1 an enum": r"^(pub(\(crate\))? )?enum ",
    "3 a loop over numbers, or with none": r"^\s*(while (?!let)|loop \{|'\w+: loop)|for .* in .*\.\.",
    "4 equality, conversion or printing by hand": r"fn (equals|is_same|same|is_word|said|told|code|index|digit|put|show\w*|yes_or_no)\b",
    "6 an array or a length in a struct": r"^\s*(pub(\(crate\))? )?(\w+: (&'a mut )?\[[^\]]*\],|(len|limit|count|\w+_count): (usize|u32),)$",
    "7 a choice of what to run": r"match (call|step|self\.rule|request|kind|asked|\(change, spot\)) \{|^pub trait \w+Test\b|\bdyn |\bfn\(",
}


def sources(commit):
    if commit:
        names = subprocess.check_output(["git", "ls-tree", "-r", "--name-only", commit], text=True).split()
    else:
        names = subprocess.check_output(["git", "ls-files", "-co", "--exclude-standard"], text=True).split()
    for name in sorted(n for n in names if re.fullmatch(r"crates/\w+/src/\w+\.rt", n)):
        if commit:
            yield name, subprocess.check_output(["git", "show", f"{commit}:{name}"], text=True)
        elif os.path.exists(name):
            yield name, open(name, encoding="utf8").read()


def repeated(files):
    """Facts in the contracts of three or more functions, and parameters that travel together through as many."""
    facts, together = collections.defaultdict(set), collections.defaultdict(set)
    for name, text in files:
        function = None
        for line in text.splitlines():
            head = re.search(r"\bfn (\w+)", line)
            function = head.group(1) if head else function
            clause = re.match(r"\s*(requires|ensures)\s*\w*\s*\{(.*)\}\s*$", line)
            if clause and function:
                facts[re.sub(r"\.(old|new|now)\b", "", clause.group(2)).strip()].add((name, function))
        for head in re.finditer(r"\bfn (\w+)(?:<[^(]*>)?\(([^)]*)\)", text):
            parameters = re.findall(r"(\w+): ([^,]+)", head.group(2))
            for pair in itertools.combinations([f"{n}: {t.strip()}" for n, t in parameters], 2):
                together[pair].add((name, head.group(1)))
    for fact, where in sorted(facts.items(), key=lambda x: -len(x[1])):
        if len(where) >= 3:
            yield "5 a fact in three contracts or more", f"{len(where)} times: {fact}"
    for pair, where in sorted(together.items(), key=lambda x: -len(x[1])):
        if len(where) >= 3:
            yield "5 parameters that travel together", f"{len(where)} times: {', '.join(pair)}"


def main():
    words = sys.argv[1:]
    listing = "-l" in words
    commit = next((w for w in words if w != "-l"), None)
    files = list(sources(commit))
    found = collections.defaultdict(list)
    for label, pattern in LINES.items():
        for name, text in files:
            for number, line in enumerate(text.splitlines(), 1):
                if re.search(pattern, line):
                    found[label].append(f"{name}:{number}: {line.strip()}")
    for label, words in repeated(files):
        found[label].append(words)
    for label in sorted(found):
        print(f"{len(found[label]):4} {label}")
        if listing:
            print("".join(f"       {place}\n" for place in found[label]), end="")


main()
