#!/usr/bin/env python3
"""Spells this repository's own definitions and lemmas as today's Rattle spells them.

usage: python3 tools/spell_names.py [--check] [TOP]     (TOP: the repository, default this one)

Run once, right behind the kit's port.py: words with dashes or inner capitals become snake case (`normal-of` to `normal_of`, `eqP` to `eq_p`),
types camel case (`In-box` to `InBox`). It turns
  .antt   the code, and code spans of comments
  .rt     the code outside strings (only clauses have such names), and code spans of comments
  .md     code spans of docs/ and README.md
A name that the file imports from the kit stays, and so do the names that Rattle makes: in a function's Answers and Invariants what is
declared at the left margin, and what stands behind `c.`, `l.` and `goal.`. Names that fall together are printed, and nothing is written.
"""

import collections
import os
import re
import sys

QUIET = re.compile(r'"(?:[^"\\\n]|\\.)*"|(?<![^\s(){}.;,@"«»])--[^\n]*|\{-.*?-\}', re.S)
RUST_QUIET = re.compile(r'//[^\n]*|b?"(?:[^"\\]|\\.)*"|b?\'(?:[^\'\\\n]|\\.)\'')
SPAN = re.compile(r"`[^`\n]+`")
NAME = re.compile(r"(?<![\w'⟨-])[A-Za-z][\w']*(?:-[\w']+)*(?![\w'-])")
MADE = re.compile(r"/proofs/(.*/)?(Answers|Invariants)\.antt$")
USE = re.compile(r"\buse ([\w.']+)\.\{([^}]*)\}")
KEPT = {"cases_Bool", "signed_Decides"}
# Where the plain rule would make two names of a crate one.
OTHERWISE = {
    "closing": {"is-zero": "is_zero_lem"},
    "pattern": {"A-side": "KindSide", "A-part": "KindPart", "A-point": "KindPoint", "A-face": "KindFace"},
}


def files(top, ending):
    for folder, folders, names in os.walk(os.path.join(top, "crates")):
        folders[:] = sorted(f for f in folders if f != "out")
        for name in sorted(names):
            if name.endswith(ending):
                yield os.path.join(folder, name)


def read(path):
    with open(path, encoding="utf-8") as f:
        return f.read()


def is_old(name):
    if name[0].isupper():
        # port.py leaves an underscore in a type that is spelled like a word of the kit's
        return "-" in name or re.fullmatch(r"[A-Z][a-z]+_[a-z]+", name) is not None
    return "-" in name or re.search(r"[a-z0-9][A-Z]", name) is not None and "_" not in name


def spelled(name):
    if name[0].isupper():
        return "".join(part[:1].upper() + part[1:] for part in re.split("[-_]", name))
    return re.sub(r"(?<=[a-z0-9])[A-Z]", lambda m: "_" + m[0].lower(), name).replace("-", "_")


def imported(code, own):
    """The names that this text takes from the kit."""
    found = set()
    for m in USE.finditer(code):
        steps = m[1].split(".")
        if not (steps[0] == "Rattle" and len(steps) > 1 and steps[1] in own):
            for item in m[2].split(","):
                found.update(item.split())
    return found


def own_names(top, own):
    """The old names of the lemma files and of specs/, each with its new spelling."""
    kit, table, declared = set(), {}, set()
    texts = []
    for path in files(top, ".antt"):
        code = QUIET.sub(" ", read(path))
        kit |= imported(code, own)
        if not MADE.search(path):
            texts.append(code)
    for code in texts:
        for m in re.finditer(r"(?m)^ *(?:pub |abbrev |unfoldable |data |record )*([A-Za-z][\w'-]*)(?: \{[^{}\n]*\})* :", code):
            declared.add(m[1])
        for m in NAME.finditer(code):
            name = m[0]
            if is_old(name) and name not in KEPT and (name not in kit or name in declared) and code[m.start() - 1 : m.start()] != ".":
                table[name] = spelled(name)
    for name in declared:
        if is_old(name) and name not in KEPT:
            table[name] = spelled(name)
    return table


def turn(code, table, stay, made):
    def one(m):
        name, before = m[0], code[: m.start()]
        if name not in table or name in stay:
            return name
        if made and (before.endswith(("\n", "\npub ", "\nabbrev pub ")) or re.search(r"(?<![\w.'-])(c|l|goal)\.$", before)):
            return name
        return table[name]

    return NAME.sub(one, code)


def parts(text, quiet):
    """The text as (piece, whether it is code)."""
    at = 0
    for m in quiet.finditer(text):
        yield text[at : m.start()], True
        yield m[0], False
        at = m.end()
    yield text[at:], True


def table_of(path, top, table):
    """The table, as the file's crate has it."""
    return table | OTHERWISE.get(os.path.relpath(path, top).split(os.sep)[1], {})


def turned(path, table, own):
    text = read(path)
    quiet = QUIET if path.endswith(".antt") else RUST_QUIET
    stay = imported(quiet.sub(" ", text), own)
    made = MADE.search(path) is not None
    spans = lambda piece: SPAN.sub(lambda s: NAME.sub(lambda m: m[0] if m[0] in stay else table.get(m[0], m[0]), s[0]), piece)
    out, before = [], ""
    for piece, is_code in parts(text, quiet):
        if is_code:
            # what stands before the piece tells whether a name is at the left margin
            whole = "\n" + piece if not before or before.endswith("\n") else before[-1] + piece
            out.append(turn(whole, table, stay, made)[1:])
        elif piece.startswith(("--", "{-", "//")):
            out.append(spans(piece))
        else:
            out.append(piece)
        before = piece or before
    return text, "".join(out)


def meetings(path, old, table):
    """Names of this file that fall together."""
    quiet = QUIET if path.endswith(".antt") else RUST_QUIET
    names = {m[0] for m in NAME.finditer(quiet.sub(" ", old))}
    after = collections.defaultdict(set)
    for name in names:
        after[table.get(name, name)].add(name)
    return {n: s for n, s in after.items() if len(s) > 1}


def main(argv):
    check = "--check" in argv
    rest = [a for a in argv if a != "--check"]
    top = os.path.abspath(rest[0] if rest else os.path.join(os.path.dirname(os.path.abspath(__file__)), ".."))
    own = set(os.listdir(os.path.join(top, "crates")))
    table = own_names(top, own)
    changed, met = [], 0
    for ending in (".antt", ".rt"):
        for path in files(top, ending):
            here = table_of(path, top, table)
            old, new = turned(path, here, own)
            for name, both in sorted(meetings(path, old, here).items()):
                # a function of src/ and the definition that its contract cites may share a name, and a path names the function
                shared = path.endswith(".rt") or MADE.search(path)
                print(f"{'shared' if shared else 'fall together'}: {os.path.relpath(path, top)}: {' and '.join(sorted(both))} as {name}")
                met += not shared
            if new != old:
                changed.append((path, new))
    pages = [os.path.join(top, "README.md")]
    docs = os.path.join(top, "docs")
    pages += [os.path.join(docs, f) for f in sorted(os.listdir(docs)) if f.endswith(".md") and not f.startswith("PORT")]
    for path in pages:
        old = read(path)
        new = SPAN.sub(lambda s: NAME.sub(lambda m: table.get(m[0], m[0]), s[0]) if "/" not in s[0] else s[0], old)
        if new != old:
            changed.append((path, new))
    print(f"{len(table)} names, {len(changed)} files, {met} that fall together")
    if check or met:
        return 1 if met else 0
    for path, new in changed:
        with open(path, "w", encoding="utf-8") as f:
            f.write(new)
    return 0


if __name__ == "__main__":
    raise SystemExit(main(sys.argv[1:]))
