#!/usr/bin/env python3
"""Brings the names of this repository's definitions and lemmas to snake case, after port.py has run.

usage: tools/snake_names.py [--check] [ROOT]

A name that a file of specs/ or a lemma file of proofs/ declares, and that begins with a small letter, loses its dashes and
its inner capitals: `under-here` becomes `under_here`, `mergeE` becomes `merge_e`. Types, modules, functions of src/, exported
names, strings, inputs and outputs keep theirs. A library's name of the same spelling stays in the files that import it.
Names that would fall together with another keep their spelling and are printed.
"""

import collections
import os
import re
import sys

WORD = r"[^\s(){}.;,@\"«»:]+"
TOKEN = re.compile(r"(?<![^\s(){}.;,@\"«»:\[\]`|'/*])[^\s(){}.;,@\"«»:\[\]`|/*]+")
TOP = re.compile(rf"^((?:unfoldable |abbrev |pub |ghost |opaque )*)({WORD}(?: {WORD})*?)((?: \{{[^{{}}\n]*\}})*) :(?= |$)")
MEMBER = re.compile(rf"^  +(?:pub |unfoldable |abbrev )*({WORD}(?: {WORD})*)(?: \{{[^{{}}\n]*\}})* :(?= |$)")
# A definition inside a block with parameters: its name stands on a line with its type, and again before its equation.
INNER = re.compile(rf"^  +(?:pub |unfoldable |abbrev )*({WORD})(?: \{{[^{{}}\n]*\}})* :(?= |$)")
OPENS = re.compile(r"^(?:\w+ )*(record|data|mutual) ?")
USE = re.compile(r"^[ \t]*(?:pub |ghost |unfoldable )*use ([^\s;{]+?)(?:\.\{([^{}]*)\}|(?: as (\S+?))?);?$", re.M)
GENERATED = ("Proof.antt", "Answers.antt", "Invariants.antt", "Statement.antt")
SPECIAL = {"getD": "get_or", "sameKey": "same_keys"}
# Names that meet another only where neither hides the other.
APART = {"noRoom", "after-of", "goingOn"}
# Lemmas that would have their function's name.
LEMMAS = """sum-from in_order alts-length on_store held-stops on-verdict on-set joined-flags too_much subsets-length figures-line
fresh-store end_line and-then config-of fresh_set same-words row-with made-over parent-at number-line entry-state lent-lengths
in-pool parent-of refusal-line context-line entry-parent put-node state-at""".split()
RUST = re.compile(r"//[^\n]*|\bfn \w+|\b\w+(?=(?:::<[^()\n]*>)?\()|^ *(?:pub )?use [^;]*;", re.M)
PATHS = re.compile(r"^.*\buse .*$|--[^\n]*|[^\s(){};,]*\.[^\s(){};,]*", re.M)


def files(root):
    for above, folders, names in os.walk(os.path.join(root, "crates")):
        folders[:] = sorted(it for it in folders if it != "out")
        for name in sorted(names):
            if name.endswith((".antt", ".rt")):
                yield os.path.join(above, name)


def read(path):
    with open(path, encoding="utf-8") as it:
        return it.read()


def snake(name):
    for old, new in SPECIAL.items():
        name = re.sub(rf"(?<![A-Za-z0-9]){old}(?![a-z0-9])", new, name)
    name = re.sub(r"(?<=[a-z0-9])[A-Z]", lambda m: "_" + m[0].lower(), name)
    return name.replace("-", "_").replace("′", "'")


def declared(text):
    """The names that a file declares: definitions, lemmas, constructors, fields."""
    tops, members, mode = set(), set(), False
    for line in text.split("\n"):
        if line.strip() and not line.startswith(" "):
            mode = bool(OPENS.match(line)) and " : " in line or bool(re.match(r"^(?:\w+ )*(record|data)\b", line))
            found = TOP.match(line)
            if found and not line.startswith(("--", "use ", "pub use ")):
                tops.add(found.group(2).split()[-1])
            continue
        found = mode and MEMBER.match(line)
        if found and not line.strip().startswith("--"):
            members.update(found.group(1).split())
        found = INNER.match(line)
        if found and re.search(rf"^ +{re.escape(found.group(1))}(?: [^=\n]*)? =", text, re.M):
            tops.add(found.group(1))
            members.add(found.group(1))
    return tops, members


def is_own(path, crates):
    steps = path.split(".")
    return steps[0] == "package" or steps[0] == "Rattle" and len(steps) > 1 and steps[1] in crates


def main(argv):
    check = "--check" in argv
    rest = [it for it in argv if it != "--check"]
    root = rest[0] if rest else "."
    crates = set(os.listdir(os.path.join(root, "crates")))
    texts = {path: read(path) for path in files(root)}
    names, members = set(), set()
    for path, text in texts.items():
        if path.endswith(".antt") and not ("/proofs/" in path and os.path.basename(path) in GENERATED):
            tops, inner = declared(text)
            names |= tops | inner
            members |= inner
    table = {it: snake(it) for it in names if re.match(r"[a-zα-ω]", it) and snake(it) != it}
    table.update({it: snake(it) + "_lem" for it in LEMMAS})
    tokens = {}
    for path, text in texts.items():
        bare = (RUST if path.endswith(".rt") else PATHS).sub(" ", text)
        listed = [it.strip() for _, items, _ in USE.findall(text) for it in items.split(",")]
        tokens[path] = set(TOKEN.findall(bare)) | set(listed)
    foreign, own_heads = {}, {}
    for path, text in texts.items():
        foreign[path], own_heads[path] = set(), set()
        for where, items, alias in USE.findall(text):
            listed = [it.strip() for it in items.split(",") if it.strip()]
            if is_own(where, crates):
                continue
            for it in listed:
                foreign[path].add(it.split(" as ")[-1].strip("«» "))
            own_heads[path].add(alias or where.split(".")[-1])
    # names that would fall together
    stays = {}
    by_new = collections.defaultdict(set)
    for old, new in table.items():
        by_new[new].add(old)
    for new, olds in by_new.items():
        if len(olds) > 1 or new in names - set(table):
            for old in olds - APART:
                stays[old] = f"falls together with {sorted((olds | ({new} & names)) - {old})}"
    for path, seen in tokens.items():
        for old in seen & set(table):
            if old not in foreign[path] and table[old] in seen and not (table[old] in table and table[old] not in foreign[path]):
                stays.setdefault(old, f"{table[old]} is in {os.path.relpath(path, root)}")
    for old in stays:
        print(f"stays: {old}: {stays[old]}")
        del table[old]

    def turn(path, text):
        def one(found):
            word = found[0]
            if word not in table or word in LEMMAS and "/specs/" not in path:
                return word
            at = found.start()
            if text[at - 1 : at] == ".":
                head = re.search(r"([^\s(){};,@\"«»:\[\]]*)\.$", text[max(0, at - 200) : at])
                steps = head[1].split(".") if head else [""]
                if steps[0] in own_heads[path] or steps[0] == "Rattle" and steps[1:2] and steps[1] not in crates:
                    return word
                if not steps[-1][:1].isupper() and word not in members and steps[0] != "Rattle":
                    return word
                return table[word]
            return word if word in foreign[path] else table[word]

        return TOKEN.sub(one, text)

    count = 0
    for path, text in texts.items():
        new = turn(path, text)
        if new != text:
            count += 1
            if not check:
                with open(path, "w", encoding="utf-8") as it:
                    it.write(new)
    print(f"{len(table)} names, {count} files")
    return 0


if __name__ == "__main__":
    sys.exit(main(sys.argv[1:]))
