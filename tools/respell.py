#!/usr/bin/env python3
"""Brings the names of this repository's own definitions and laws to one spelling: words in snake case.

usage: tools/respell.py [--dry]     at the top of the repository, once, after the kit's own script

A name that stands before ` : ` in a file of specs/ or proofs/ is one of these. Of `sizeOf` it makes `size_of`, of `put-whole` `put_whole`, of `row7A`
`row_7A`; a law that would get the name of a definition gets `_lem` behind it. Names that come from a source file keep their spelling.
It writes .antt, .rt and .edit files of crates/, the scripts that make some of these, and names in backticks in the pages of docs/ and in README.md.
"""
import collections
import os
import re
import sys

BY_HAND = {
    "rowEBlow": "row_EB_low",
    "byNumber": "by_its_number",
    # laws that the kit's script gave the name that a definition has now
    "all_share": "all_share_lem",
    "by_names": "by_names_lem",
    "every_first": "every_first_lem",
    "last_step": "last_step_lem",
    "one_byte": "one_byte_lem",
    "own_key": "own_key_lem",
    "plain_at": "plain_at_lem",
    "two_bytes": "two_bytes_lem",
}
TOGETHER = {"byRow", "inOrder", "oneMore", "tooFew"}  # no file has both
TOKEN = r"[^\s(){}\[\].;,\"'`@→λ∷:=]+"
DEFINED = re.compile(r"^\s*(?:(?:pub|abbrev|unfoldable|private)\s+)*(" + TOKEN + r")\s+:(?=\s|$)", re.M)
WORD = re.compile(r"[0-9]+[A-Z]*(?![a-z])|[A-Z]{2,}[0-9]*[A-Z]*(?![a-z])|[A-Z][0-9]+[A-Z]?(?![a-z])|[A-Z](?![a-z])|[A-Z][a-z0-9]*|[a-z]+|[^A-Za-z0-9]+")


def is_camel(name):
    return re.match(r"[a-z]", name) and re.search(r"[A-Z]", name) is not None


def snake(name):
    if name in BY_HAND:
        return BY_HAND[name]
    parts = []
    for part in re.split(r"[-_]", name):
        words = WORD.findall(part) if is_camel(part) else [part]
        assert "".join(words) == part, name
        parts += [w.lower() if re.match(r"[A-Z][a-z]", w) else w for w in words]
    return "_".join(parts)


def files(*ends):
    for folder, dirs, names in os.walk("crates"):
        dirs[:] = sorted(d for d in dirs if d != "out")
        for n in sorted(names):
            if n.endswith(ends):
                yield os.path.join(folder, n)


def read(path):
    with open(path, encoding="utf-8") as f:
        return f.read()


def library_names():
    """What is imported from a library, and not from a crate of this repository."""
    own = set(os.listdir("crates"))
    out = collections.defaultdict(set)
    for path in files(".antt", ".rt"):
        for module, names in re.findall(r"^(?:ghost )?(?:pub )?use ([^\s{]+)\.\{([^}]*)\}", read(path), re.M):
            parts = module.split(".")
            if not (parts[0] == "Rattle" and parts[1] in own):
                for n in names.split(","):
                    out[n.strip().split(" ")[0]].add(path)
    return out


def main():
    dry = "--dry" in sys.argv[1:]
    library = library_names()
    defined = collections.defaultdict(set)
    for path in files(".antt"):
        for n in DEFINED.findall(read(path)):
            defined[n].add(path)
    # what a proof by hand calls as the check calls its goal
    goals = {n for path in files("Proof.antt") for n in re.findall(r"Need-([^\s(){}]+)", read(path))}
    turned = {}
    for n in defined:
        if n in goals:
            continue
        if n in BY_HAND or ("-" in n or is_camel(n)) and n not in library:
            turned[n] = snake(n)
    taken = set(defined) - set(turned)
    groups = collections.defaultdict(list)
    for old, new in turned.items():
        groups[new].append(old)
    for new, olds in sorted(groups.items()):
        olds = [o for o in olds if o not in TOGETHER]
        olds.sort(key=lambda o: (not is_camel(o), "-" in o))
        if new in taken or new in library or len(olds) > 1:
            first = 0 if new in taken or new in library else 1
            for k, o in enumerate(olds[first:]):
                turned[o] = new + "_lem"
                print(f"falls together: {o} -> {turned[o]} ({new} stands in {sorted(defined.get(new, []))[:2] or olds[0]})")
    left = [n for n in defined if ("-" in n or is_camel(n)) and n in library]
    print("left, a library has the name:", " ".join(sorted(left)))
    again = collections.Counter(turned.values())
    for n, k in again.items():
        if k > 1 or n in taken and not TOGETHER & {o for o in turned if turned[o] == n}:
            print("STILL TWICE:", n, [o for o in turned if turned[o] == n])
    names = re.compile("(?<![^\\s(){}\\[\\].;,\"'`@→λ∷:=])(" + "|".join(re.escape(n) for n in sorted(turned, key=len, reverse=True)) + ")(?![^\\s(){}\\[\\].;,\"'`@→λ∷:=])")
    for path in files(".antt", ".rt", ".edit"):
        text = read(path)
        there = set(re.findall(TOKEN, text))
        for old in sorted(there & set(turned)):
            if turned[old] in there and not path.endswith(".edit"):
                print(f"beside: {path}: {old} -> {turned[old]}")
        new = names.sub(lambda m: turned[m.group(1)], text)
        if new != text and not dry:
            with open(path, "w", encoding="utf-8") as f:
                f.write(new)
    for path in sorted(os.path.join("scripts", p) for p in ("manual-list", "tables/made.py", "tables/make-choice-proof", "tables/make-lengths", "tables/make-name-sets", "tables/make-names")):
        text = read(path)
        new = names.sub(lambda m: m.group(1) if m.group(1) in BY_HAND else turned[m.group(1)], text)
        if new != text and not dry:
            with open(path, "w", encoding="utf-8") as f:
                f.write(new)
    pages = ["README.md", "CHANGELOG.md"] + [os.path.join(d, n) for d, _, ns in os.walk("docs") for n in ns if n.endswith(".md")]
    for path in pages:
        text = read(path)
        new = re.sub(r"`[^`\n]+`", lambda m: names.sub(lambda k: turned[k.group(1)], m.group(0)), text)
        if new != text and not dry:
            with open(path, "w", encoding="utf-8") as f:
                f.write(new)
    print(len(turned), "names turned")


if __name__ == "__main__":
    main()
