#!/usr/bin/env python3
"""Brings this repository's own definitions, lemmas and fields to the spelling of today's Rattle: words in snake case.

usage: python3 tools/respell.py [--list]     at the top of the repository, once, after the kit's port.py

A name with a dash or an inner capital that a file of specs/ or proofs/ declares becomes snake case, wherever it stands as a
whole word: in specs, proofs, clauses, must-fail edits and docs. Names that would fall together with another get the name that
TOGETHER gives. Names that the check makes (typed `tie.` or `goal.`) stay as they are. Functions of src/ keep their names.
"""

import os
import re
import sys

# Names whose plain respelling is taken, by another definition, a library, a parameter or a field.
TOGETHER = {
    "bit-and": "bit_of_and",
    "bit-or": "bit_of_or",
    "both-worded": "both_as_starts",
    "broken-at": "lowest_broken",
    "cell-in-form": "cell_in_form_fits",
    "content-kept": "content_kept_right",
    "contents-from": "contents_fault_from",
    "entries-bytes": "entries_read_back",
    "entry-bytes": "entry_read_back",
    "is-cell": "is_cell_of_words",
    "kept-words": "kept_of_words",
    "letter-byte": "letter_of_byte",
    "line-length": "line_length_bound",
    "most-printed": "printed_at_most",
    "op-number": "number_of_op",
    "read-failed": "read_failed_holds",
    "tick-pair": "ticked_pair",
    "word-from": "word_of_letters",
    # in snake case already, beside a definition that becomes the same
    "entry_kept": "entry_kept_right",
    "ones_below": "ones_are_below",
    "size_fits": "size_fits_words",
    "starts_fit": "starts_fit_room",
}

DECLARED = re.compile(r"^\s*(?:(?:pub|unfoldable|abbrev) )*([^\s(){},;.:«»]+)(?: \{ℓ[^}]*\})*(?: *[({].*)? :(?: (.*))?$")
WORD = re.compile(r"(\.?)([^\s(){}\[\],;.@⌜⌝«»\"`:]+)")
KEYWORDS = {"let", "in", "elim", "use", "module", "where", "pub", "record", "data", "--"}


def texts(*endings):
    for folder, dirs, files in os.walk("crates"):
        dirs[:] = sorted(d for d in dirs if d not in ("out", "target"))
        for f in sorted(files):
            if f.endswith(endings):
                yield os.path.join(folder, f)


def read(path):
    with open(path, encoding="utf-8") as f:
        return f.read()


def snake(name):
    name = name.replace("-", "_")
    name = re.sub(r"(?<=[a-z0-9])([A-Z])", lambda m: "_" + m[1].lower(), name)
    return name[0].lower() + name[1:] if "_" in name else name


def is_old(name):
    return "-" in name.strip("-") or re.match(r"[a-z].*[A-Z]", name)


def declared():
    """The names that files of specs/ and proofs/ declare, and the fields of their records."""
    names, fields = set(), set()
    for path in texts(".antt"):
        inside = None
        for line in read(path).splitlines():
            indent = len(line) - len(line.lstrip())
            if re.match(r"\s*(pub )?(record|data) ", line):
                inside = indent
                continue
            if inside is not None and line.strip() and indent <= inside:
                inside = None
            found = DECLARED.match(line)
            if not found or found[1] in KEYWORDS or not (is_old(found[1]) or found[1] in TOGETHER):
                continue
            if re.match(r"(tie|goal)\.", found[2] or ""):
                continue
            (names if inside is None else fields).add(found[1])
    return names, fields - {n for n in fields if "-" not in n and n in TOGETHER}


def table():
    names, fields = declared()
    turned = {n: TOGETHER.get(n, snake(n)) for n in names | fields}
    return names, fields, turned


def clashes(turned):
    """Where a new name is already a word, or two old ones become one."""
    words = set()
    for path in texts(".antt"):
        code = re.sub(r"(?m)--.*$", "", read(path))
        words.update(w for dot, w in WORD.findall(code) if not dot)
    idents = set()
    for path in texts(".rt"):
        idents.update(re.findall(r"(?<!let )(?<!let mut )\b([a-z_]+)(?=: )", read(path)))
    seen = {}
    for old, new in sorted(turned.items()):
        if new in words and new not in turned:
            yield f"{old} -> {new}: a word"
        if new in idents:
            yield f"{old} -> {new}: an identifier"
        if new in seen:
            yield f"{old} -> {new}: also {seen[new]}"
        seen[new] = old


def turn(text, names, fields, turned):
    def word(m):
        dot, name = m[1], m[2]
        if name not in turned or (dot and name not in fields):
            return m[0]
        return dot + turned[name]

    return WORD.sub(word, text)


def turn_rt(text, names, fields, turned):
    """Only ghost text: `ghost use` lines and lines of clauses, which have no dashes or inner capitals of Rust's own."""
    out, depth = [], 0
    for line in text.splitlines(keepends=True):
        ghost = depth > 0 or re.match(r"\s*(ghost use|ghost|requires|ensures)\b", line)
        if ghost:
            line = turn(line, names, fields, turned)
            depth += line.count("{") - line.count("}")
        out.append(line)
    return "".join(out)


def main(argv):
    names, fields, turned = table()
    bad = list(clashes(turned))
    if argv:
        print("\n".join(f"{a} {b}" for a, b in sorted(turned.items())))
        print("\n".join(bad))
        return 0
    if bad:
        print("\n".join(bad))
        return 1
    for path in texts(".antt", ".rt", ".edit"):
        text = read(path)
        if path.endswith(".rt"):
            new = turn_rt(text, names, fields, turned)
        elif path.endswith(".edit"):
            new = turn_edit(text, names, fields, turned)
        else:
            new = turn(text, names, fields, turned)
        if new != text:
            with open(path, "w", encoding="utf-8") as f:
                f.write(new)
    for folder, _, files in os.walk("docs"):
        for f in files:
            if f.endswith(".md"):
                path = os.path.join(folder, f)
                new = re.sub(r"`([^`\n]+)`", lambda m: "`" + turn(m[1], names, fields, old_only(turned)) + "`", read(path))
                with open(path, "w", encoding="utf-8") as g:
                    g.write(new)
    return 0


def turn_edit(text, names, fields, turned):
    """Edits of specs and proofs whole; in an edit of src/ only names with a dash or an inner capital can be meant."""
    if re.search(r"(?m)^file: src/", text):
        turned = old_only(turned)
    return "".join(turn(l, names, fields, turned) if l.startswith(("old:", "new:")) else l for l in text.splitlines(keepends=True))


def old_only(turned):
    return {n: t for n, t in turned.items() if is_old(n)}


if __name__ == "__main__":
    raise SystemExit(main(sys.argv[1:]))
