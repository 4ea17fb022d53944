#!/usr/bin/env python3
"""Spells the repository's own definitions and lemmas as today's Rattle spells names.

usage: tools/respell.py        at the top, once, after the kit's port.py

A definition in camel case becomes snake case. In a lemma's name a dash joins the names of two definitions; every other word is added with an
underscore. A lemma that would have the name of a definition ends in _lem. What Rattle makes of the source (the names in a Proof.antt behind
c., tie. and the like) stays, and so do all names of src/. It prints each name that it turned, old and new.
"""

import glob
import os
import re
import sys

NAME = r'[^\s(){}.;,@"«»:\[\]|]+'
DECLARED = re.compile(
    r"(?m)^( *)(?:(?:abbrev|unfoldable|pub|data|record|private) +)*(" + NAME + r")(?: \{[^{}\n]*\}| \([^()\n]*\))* :(?= |$)"
)
# Words of std that a lemma's name joins, beside the Prelude's.
STD = set(
    "length take drop append map fold replicate sets set get get_or reverse sum min max add sub mul div mod pow suc zero nil cons cond eqb leb "
    "and or not some none".split()
)


def ours(*patterns):
    found = []
    for p in patterns:
        found += glob.glob(p, recursive=True)
    return sorted(p for p in found if "/out/" not in p)


def snake(name):
    return re.sub(r"(?<=[a-z0-9])[A-Z]", lambda m: "_" + m[0].lower(), name)


def words_of(names, parts):
    """Cuts a lemma's parts into names of definitions, the longest first, and plain words."""
    i, cut = 0, []
    while i < len(parts):
        for j in range(len(parts), i, -1):
            word = "_".join(parts[i:j])
            if word in names:
                cut.append((word, True))
                i = j
                break
        else:
            cut.append((parts[i], False))
            i += 1
    return cut


def lemma_name(names, name):
    parts = [snake(p) for p in name.split("-")]
    cut = words_of(names, parts)
    said = cut[0][0]
    for (_, before), (word, known) in zip(cut, cut[1:]):
        said += ("-" if before and known else "_") + word
    return said


def table():
    definitions, lemmas, everywhere = set(), set(), set()
    for p in ours("crates/*/specs/**/*.antt"):
        for _, n in DECLARED.findall(open(p, encoding="utf-8").read()):
            (lemmas if "-" in n else definitions).add(n)
    for p in ours("crates/*/proofs/**/*.antt"):
        text = open(p, encoding="utf-8").read()
        everywhere.update(re.findall(NAME, text))
        if os.path.basename(p) != "Proof.antt":
            for _, n in DECLARED.findall(text):
                lemmas.add(n)
    for p in ours("crates/*/specs/**/*.antt"):
        everywhere.update(re.findall(NAME, open(p, encoding="utf-8").read()))
    lemmas -= definitions
    turned = {}
    for n in sorted(definitions):
        if re.match("[a-z]", n):
            new = snake(n).replace("-", "_")
            if new != n:
                turned[n] = new
    names = {turned.get(n, n) for n in definitions} | STD
    taken = (everywhere - set(turned)) | set(turned.values())
    for n in sorted(lemmas):
        if not re.match("[a-z]", n) or not ("-" in n or re.search("[a-z0-9][A-Z]", n)):
            continue
        new = lemma_name(names, n)
        if new == n:
            continue
        if new in taken:
            new += "_lem"
        assert new not in taken, (n, new)
        taken.add(new)
        turned[n] = new
    fell = {}
    for old, new in turned.items():
        fell.setdefault(new, []).append(old)
    for new, olds in fell.items():
        if len(olds) > 1:
            raise SystemExit(f"respell: {olds} would all be {new}")
    for old, new in turned.items():
        if old in definitions and new in everywhere and new not in turned:
            print(f"look: {old} becomes {new}, which stands in the proofs or the definitions already")
    return turned, definitions


def strings_kept(text):
    """The text's pieces, each with whether it is a string of the program."""
    at = 0
    for m in re.finditer(r'"(?:[^"\\\n]|\\.)*"', text):
        yield text[at : m.start()], False
        yield m[0], True
        at = m.end()
    yield text[at:], False


# A lemma of one file that would meet a definition there.
LOCAL = {
    "crates/rice/proofs/Reaching.antt": {"bits_in": "bits_in_lem"},
    "crates/value/proofs/Placing.antt": {"by_bytes": "by_bytes_lem"},
}

TOKEN = re.compile(r"(?<![^\s(){}.;,@\"«»:\[\]|`])" + NAME)


def turn(text, turned, made):
    """The text with its names turned. With `made`, a dashed name behind a dot stays, but behind a module of the repository."""
    aliases = set(re.findall(r"(?m)^ *(?:ghost )?use Rattle\.\S+ as ([^\s;]+)", text)) - {"tie", "goal"}
    aliases |= {m for m in re.findall(r"(?m)^use Rattle\.\S*\.([A-Z]\w*)$", text)}

    def one(m):
        old = m[0]
        new = turned.get(old)
        if new is None:
            return old
        before = text[: m.start()]
        if made and "-" in old and before.endswith("."):
            head = re.search(r"([^\s(){};,@\"«»:\[\]|`]+)\.$", before)
            path = head[1] if head else ""
            if not (path.startswith("Rattle.") or path.split(".")[0] in aliases):
                return old
        return new

    return TOKEN.sub(one, text)


def main():
    turned, definitions = table()
    camel = {o: n for o, n in turned.items() if "-" not in o}
    for p in ours("crates/*/specs/**/*.antt", "crates/*/proofs/**/*.antt"):
        text = open(p, encoding="utf-8").read()
        new = turn(turn(text, LOCAL.get(p, {}), True), turned, "/proofs/" in p)
        if new != text:
            open(p, "w", encoding="utf-8").write(new)
    for p in ours("crates/*/src/**/*.rt"):
        text = open(p, encoding="utf-8").read()
        new = "".join(s if kept else turn(s, camel, False) for s, kept in strings_kept(text))
        if new != text:
            open(p, "w", encoding="utf-8").write(new)
    for p in ours("crates/*/must-fail/*.edit", "must-fail-more/*/*.edit"):
        text = open(p, encoding="utf-8").read()
        lines = []
        antt = re.search(r"(?m)^file: .*\.antt$", text)
        for line in text.split("\n"):
            if line.startswith("file:"):
                lines.append(line)
            elif antt:
                lines.append(turn(line, turned, "proofs/" in antt[0]))
            else:
                lines.append("".join(s if kept else turn(s, camel, False) for s, kept in strings_kept(line)))
        new = "\n".join(lines)
        if new != text:
            open(p, "w", encoding="utf-8").write(new)
    for p in ours("docs/*.md", "README.md", "CONTRIBUTING.md"):
        text = open(p, encoding="utf-8").read()
        new = re.sub(r"`[^`\n]+`", lambda m: turn(m[0], turned, False), text)
        if new != text:
            open(p, "w", encoding="utf-8").write(new)
    for old, new in sorted(turned.items()):
        print(f"{old} {new}")


if __name__ == "__main__":
    main()
