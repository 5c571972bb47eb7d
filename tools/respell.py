#!/usr/bin/env python3
"""Brings the names of this repository's own definitions and lemmas to the spelling of today's Rattle.

usage: python3 tools/respell.py FOLDER      after the kit's port.py, once, at the top of the repository FOLDER

Words are in snake case: `left-size` becomes `left_size`, `headAt` becomes `head_at`. Types, modules and what begins with
them keep their capitals and dashes. A name that a file takes from the library keeps the library's spelling, and so does
every name of src/'s own code. In comments and documents only what stands between backquotes is turned, in must-fail edits the
text of each line. It goes by text and proves nothing.

The laws of `model` and `two_edits` move from specs/Laws to proofs/Laws, since an edit of a definition counts only where what it
breaks stands in proofs/.
"""
import os
import re
import sys

TOKEN = re.compile(r"[^\s(){}\[\],;.\"`:]+")
USE = re.compile(r"(\s*(?:ghost )?(?:pub )?use )([\w'+-]+(?:\.[\w'+-]+)*)\.\{(.*)\}(.*)$", re.S)
# `type_of`, once `typeOf`, would fall together with `type-of`
FIRST = {"type_of": "type_in"}


# the crates whose laws are theorems about definitions that must-fail edits turn
MOVED = ("model", "two_edits")


def move_laws(root):
    for c in MOVED:
        at = os.path.join(root, "crates", c)
        os.makedirs(os.path.join(at, "proofs"), exist_ok=True)
        for n in ("Laws", "Laws.antt"):
            os.rename(os.path.join(at, "specs", n), os.path.join(at, "proofs", n))
        lib = os.path.join(at, "specs", "Lib.antt")
        text = open(lib, encoding="utf-8").read().replace("pub mod Laws\n", "")
        open(lib, "w", encoding="utf-8").write(text)
        open(os.path.join(at, "proofs", "Lib.antt"), "w", encoding="utf-8").write("-- What is proved of the definitions.\npub mod Laws\n")
        for p in files(root, ".antt", ".rt", ".edit", ".md"):
            text = open(p, encoding="utf-8").read()
            new = text.replace(f"Rattle.{c}.specs.Laws", f"Rattle.{c}.proofs.Laws").replace(f"crates/{c}/specs/Laws", f"crates/{c}/proofs/Laws")
            if new != text:
                open(p, "w", encoding="utf-8").write(new)


def files(root, *ends):
    for folder, dirs, names in os.walk(root):
        dirs[:] = sorted(d for d in dirs if d not in ("out", ".git", "target", "data"))
        for n in sorted(names):
            if n.endswith(ends):
                yield os.path.join(folder, n)


def code_and_comment(line, rt):
    m = re.search(r"//" if rt else r"(?:^|(?<=\s))--(?=\s|$)", line)
    return (line[: m.start()], line[m.start():]) if m else (line, "")


def snake(word):
    if not re.match(r"[a-zμκ]", word):
        return word
    if "-" not in word and not re.match(r"[a-z]{2,}\w*[A-Z][a-z]|[a-z]{3,}[A-Z]", word):
        return word
    out = re.sub(r"(?<=[a-z0-9])(?=[A-Z])", "_", word)
    if re.search(r"_[A-Z][A-Z]", out):
        return word.replace("-", "_")
    return out.lower().replace("-", "_") if re.fullmatch(r"[\w'-]+", word) else word.replace("-", "_")


def main(root):
    own = set(os.listdir(os.path.join(root, "crates")))
    paths = list(files(os.path.join(root, "crates"), ".antt", ".rt"))
    words = set()
    taken = {}
    for p in paths:
        taken[p] = set()
        text = open(p, encoding="utf-8").read()
        for m in re.finditer(r"use ([\w'+-]+(?:\.[\w'+-]+)*)\.\{([^}]*)\}", text):
            c = m.group(1).split(".")
            if c[0] == "Rattle" and len(c) > 1 and c[1] in own:
                continue
            for n in m.group(2).split(","):
                taken[p].add(n.strip().split(" as ")[0])
        for line in text.split("\n"):
            code = code_and_comment(line, p.endswith(".rt"))[0]
            for t in TOKEN.findall(code):
                if snake(t) != t:
                    words.add(t)
    library = set().union(*taken.values())

    def turn(text, keep):
        def one(m):
            t = m.group(0)
            t = FIRST.get(t, t)
            return t if t in keep else snake(t)
        return TOKEN.sub(one, text)

    def quoted(text, keep):
        def one(m):
            t = m.group(0)
            return FIRST[t] if t in FIRST else t if t in keep or t not in words else snake(t)
        return re.sub(r"`([^`\n]*)`", lambda m: "`" + TOKEN.sub(one, m.group(1)) + "`", text)

    for p in paths:
        rt = p.endswith(".rt")
        out = []
        for line in open(p, encoding="utf-8").read().split("\n"):
            code, comment = code_and_comment(line, rt)
            if rt:
                # only a ghost use and a clause hold names of specs/
                if re.match(r"\s*(ghost use|requires|ensures|ghost)\b", code):
                    code = turn(code, taken[p])
            else:
                m = USE.match(code)
                if m:
                    c = m.group(2).split(".")
                    ours = c[0] == "Rattle" and len(c) > 1 and c[1] in own
                    code = m.group(1) + m.group(2) + ".{" + (turn(m.group(3), taken[p]) if ours else m.group(3)) + "}" + m.group(4)
                elif re.match(r"\s*(pub )?use ", code):
                    head, mid, name = code.partition(" as ")
                    code = head + mid + turn(name, taken[p])
                else:
                    code = turn(code, taken[p])
            out.append(code + quoted(comment, taken[p]))
        open(p, "w", encoding="utf-8").write("\n".join(out))
    for p in files(os.path.join(root, "crates"), ".edit"):
        out = []
        for line in open(p, encoding="utf-8").read().split("\n"):
            if line.startswith(("old: ", "new: ")):
                line = line[:5] + turn(line[5:], library)
            out.append(line)
        open(p, "w", encoding="utf-8").write("\n".join(out))
    for p in list(files(root, ".md")):
        text = open(p, encoding="utf-8").read()
        new = quoted(text, library)
        if new != text:
            open(p, "w", encoding="utf-8").write(new)


if __name__ == "__main__":
    main(sys.argv[1])
    move_laws(sys.argv[1])
