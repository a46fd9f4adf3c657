#!/usr/bin/env python3
"""Brings the repository's own definitions and lemmas to snake case: wordAt and word-past become word_at and word_past.

usage: python3 tools/spelling.py, at the top, once, right after port.py of the kit

It reads which names the files of specs/ and proofs/ declare, and renames them there, in the clauses of src/, in the edits and, between backticks, in the pages.
Functions, strings, comments, and names that the toolchain makes stay. It stops, and writes nothing, where two names would fall together.
"""
import glob
import re
import sys

WORD = r"[^\s(){}.;,@\"«»\[\]\\`]+"
DECLARED = re.compile(r"^\s*(?:unfoldable |abbrev )?(?:pub )?(?:data |record )?(" + WORD + r") :(?: +(\S+)|$)")
# Lemmas that port.py spelled as a definition of ours is spelled now.
LEMMAS = ("end_step", "laid_out", "one_more")
# A constructor that would have the name of a definition.
APART = {"analysed-as": "analysed_case"}


def spelled(name):
    if name in APART:
        return APART[name]
    if name in LEMMAS:
        return name + "_lem"
    name = name.replace("getD", "get-or")
    name = re.sub(r"(?<=[a-z0-9])[A-Z]", lambda m: "_" + m.group().lower(), name)
    return name.replace("-", "_")


def declared(path, text):
    for line in text.split("\n"):
        m = DECLARED.match(line)
        if m and not (m.group(2) or "").startswith("tie."):
            yield m.group(1)


def parts(path, text):
    """The text in pieces: (whether names may stand there, piece)."""
    if path.endswith(".antt"):
        cut = r"(--[^\n]*|\"(?:[^\"\\]|\\.)*\")"
    elif path.endswith(".rt"):
        cut = r"(//[^\n]*|b?\"(?:[^\"\\]|\\.)*\"|b?'(?:[^'\\\n]|\\.)')"
    elif path.endswith(".md"):
        return [(i % 2 == 1, p) for i, p in enumerate(re.split(r"(`[^`\n]*`)", text))]
    else:
        return [(True, text)]
    out = []
    for i, p in enumerate(re.split(cut, text)):
        if i % 2 and p.startswith(("--", "//")):
            out += [(j % 2 == 1, q) for j, q in enumerate(re.split(r"(`[^`\n]*`)", p))]
        else:
            out.append((i % 2 == 0, p))
    return out


def word(turned, m, code):
    """The new spelling of a word; a function, and a part of a module's path, that is spelled as a lemma stays."""
    w, text = m.group(), m.string
    if w in LEMMAS and (code or text[m.start() - 1 : m.start()] == "." or text[m.end() : m.end() + 1] == "."):
        return w
    return turned.get(w, w)


def main():
    antt = sorted(glob.glob("crates/*/specs/**/*.antt", recursive=True) + glob.glob("crates/*/proofs/**/*.antt", recursive=True))
    texts = {p: open(p, encoding="utf-8").read() for p in antt}
    own = set()
    for p in antt:
        own |= set(declared(p, texts[p]))
    turned = {n: spelled(n) for n in own if n[0].islower() and spelled(n) != n and "◌" not in n}
    # A lemma that would have the name of a definition gets _lem.
    words = {m for n, m in turned.items() if "-" not in n} | {n for n in own if n not in turned}
    turned.update({n: m + "_lem" for n, m in turned.items() if "-" in n and m in words})
    bad = 0
    back = {}
    for n, m in sorted(turned.items()):
        if m in own and m not in turned:
            print("falls together:", n, "and", m)
            bad = 1
        if m in back:
            print("falls together:", n, "and", back[m], "as", m)
            bad = 1
        back[m] = n
    others = sorted(
        p
        for pattern in ("crates/*/src/**/*.rt", "crates/*/must-fail/*.edit", "wrong/*/*", "README.md", "docs/**/*.md")
        for p in glob.glob(pattern, recursive=True)
    )
    for p in others:
        texts[p] = open(p, encoding="utf-8").read()
    token = re.compile(WORD)
    out = {}
    for p, t in texts.items():
        if p.endswith(".antt"):
            plain = re.sub(r"(?m)^use \S+?(?=\.\{| as |$)", "", t)
            seen = {w for ok, piece in parts(p, plain) if ok for w in re.findall(r"(?<![.\w])" + WORD, piece)}
            for m in seen & set(back):
                if back[m] in seen and m not in turned:
                    print("beside", p, ":", back[m], "and", m)
                    bad = 1
        new = "".join(token.sub(lambda m: word(turned, m, p.endswith(".rt")), piece) if ok else piece for ok, piece in parts(p, t))
        if new != t:
            out[p] = new
    if bad:
        sys.exit(1)
    for p, t in out.items():
        open(p, "w", encoding="utf-8").write(t)
    print(f"{len(turned)} names, {len(out)} files")


main()
