#!/usr/bin/env python3
"""Respells the repository's own definitions and lemmas as today's Rattle spells them (docs/PORT.md): words in snake case.

usage: python3 tools/respell.py [--check]     at the top of the repository, once, after /opt/rattle/port/port.py

    blockCount, bitsOfL, upTo2·3, fTaps     ->  block_count, bits_of_L, up_to_2_3, f_taps
    blocks-all, undoSteps-add               ->  blocks_all, undo_steps-add

A capital that stands alone is a letter of the documents (L, P, X, Y, U, D, S) and stays. A name's first dash stays where what stands before it
is the name of a definition of specs/ or of a word of std's, or such a letter, as in length-snoc: there it joins two names; every other one
joins words and becomes '_'. OTHERWISE has the names that would fall together. Types, modules, functions of src/ and exported C names keep
their names, since none is spelled so, and so do the names that Rattle makes. It reads .antt and .rt files, and what stands between backticks
on the pages. It prints names that fall together, and with --check writes nothing.
"""

import os
import re
import sys

ENDS = " \t\n(){}[].;,@\"«»`"
WORD = re.compile(r"[^\s(){}\[\].;,@\"«»`]+")
SIGNATURE = re.compile(
    r"^\s*(?:(?:unfoldable|abbrev|pub|data|record|ruleset) )*([^\s(){}.;,:=|]+) (?:\([^()]*(?:\([^()]*\)[^()]*)*\) |\{[^{}]*\} )*:(?: |$)"
)
# a name that falls together with another one gets a word more, or another word
OTHERWISE = {
    # a lemma of its function's name
    "all-zero": "all_zero_lem",
    "blank-key": "blank_key_lem",
    "permute-number": "permute_number_lem",
    "two-words": "two_words_lem",
    "undo-P": "undo_P_lem",
    "undo-step": "undo_step_lem",
    "undo-steps": "undo_steps_lem",
    "with-sponge": "with_sponge_lem",
    # a field or a parameter of its definition's name
    "is-instance": "has_instance",
    "is-width": "has_width",
    "y-low": "low_y",
    "x-low": "low_x",
    "x-mid": "mid_x",
    "x-high": "high_x",
    "y-high": "high_y",
    # of std's get_or, which was getD
    "getD-bitsOf": "get_or-bits_of",
    "getD-bytesOf": "get_or-bytes_of",
    "getD-sum": "get_or-sum",
    "getD-wordBits": "get_or-word_bits",
}
# names that std has: they are not ours
STAYS = set()


def files():
    for top, folders, names in os.walk("crates"):
        folders[:] = sorted(f for f in folders if f != "out")
        yield from (os.path.join(top, n) for n in sorted(names) if n.endswith((".antt", ".rt")))


def pages():
    yield "README.md"
    for top, _, names in os.walk("docs"):
        yield from (os.path.join(top, n) for n in sorted(names) if n.endswith(".md"))


def read(path):
    with open(path, encoding="utf-8") as f:
        return f.read()


def is_shared(path):
    """A file of definitions or of lemmas, and not one of a function's proof."""
    parts = path.split(os.sep)
    return path.endswith(".antt") and (parts[2] == "specs" or (parts[2] == "proofs" and len(parts) == 4))


def declared():
    names = {}
    for path in files():
        if not is_shared(path):
            continue
        for line in read(path).split("\n"):
            found = SIGNATURE.match(line)
            if found and not line.lstrip().startswith("--"):
                names.setdefault(found[1], set()).add(path)
    return names


def words(name):
    name = re.sub(r"(?<=[a-z0-9])(?=[A-Z])", "_", name)
    name = re.sub(r"(?<=_[A-Z])(?=[A-Z][a-z])", "_", name)
    name = re.sub(r"_([A-Z])(?=[a-z])", lambda m: "_" + m[1].lower(), name)
    name = re.sub(r"(?<=[a-z])(?=[0-9]·)|·", "_", name)
    return name.replace("__", "_")


def new_name(name, known):
    if name in OTHERWISE:
        return OTHERWISE[name]
    if not re.match(r"[a-z0-9A-Z]", name) or (name[0].isupper() and "-" not in name):
        return name
    out, rest = "", name
    parts = name.split("-")
    for k in range(len(parts) - 1):
        head = "-".join(parts[: k + 1])
        joins = k == 0 and (head in known or len(head) == 1 and head.isupper())
        out += words(parts[k]) + ("-" if joins or not re.match(r"\w", parts[k + 1]) else "_")
    return out + words(parts[-1])


def main():
    writes = "--check" not in sys.argv[1:]
    names = declared()
    # a definition is what a lemma's name may begin with
    known = {n for n, where in names.items() if any("/specs/" in p for p in where)} | {
        "length", "take", "drop", "get_or", "getD", "set", "replicate", "All", "suc", "cons", "snoc", "mul", "add", "mod", "div", "min"}
    change = {n: new_name(n, known) for n in names}
    change = {a: b for a, b in change.items() if a != b and a not in STAYS}
    texts = {p: read(p) for p in files()}
    tokens = {p: set(WORD.findall(t)) for p, t in texts.items()}
    back = {}
    for a, b in change.items():
        back.setdefault(b, []).append(a)
    for b, each in sorted(back.items()):
        if len(each) > 1:
            print("fall together:", b, "from", *each)
    for a, b in sorted(change.items()):
        at = [p for p in texts if a in tokens[p] and b in tokens[p]]
        if at:
            print("is there already:", a, "->", b, "in", *at[:3])
        elif b in names:
            print("declared elsewhere:", a, "->", b, "in", *sorted(names[b])[:2])

    def turned(path, text):
        dashed = path.endswith(".antt") or path.endswith(".md")

        def one(m):
            word = m[0]
            bare = word[:-1] if word.endswith(":") else word
            if bare not in change:
                return word
            if "-" in bare:
                before = text[max(0, m.start() - 60) : m.start()]
                # a goal, a step or a clause that Rattle names
                if not dashed or re.search(r"(?:\btie|\bgoal|\bc|\bl|\bw|\ba|\blts|\.before|\.args)\.$", before):
                    return word
            return change[bare] + word[len(bare) :]

        return WORD.sub(one, text)

    n = 0
    for path in pages():
        texts[path] = read(path)
    for path, text in texts.items():
        # in a page only what stands between backticks
        out = re.sub(r"`[^`\n]+`", lambda m: turned(path, m[0]), text) if path.endswith(".md") else turned(path, text)
        if out != text:
            n += 1
            if writes:
                with open(path, "w", encoding="utf-8") as f:
                    f.write(out)
    print(f"{len(change)} names, {n} files")


main()
