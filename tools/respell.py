#!/usr/bin/env python3
"""Spells the repository's own definitions, fields and lemmas in snake case, once, after the toolchain's port.py.

usage: respell.py [FOLDER]      FOLDER has crates/; the default is the current one

A name in camel case that begins with a small letter gets underscores, in antt, in clauses and in comments. A lemma's dashes become underscores; where a
definition has that name already, the lemma ends in '_lem'. A name that a library exports stays in the files that import it, and so do the goals that a proof
answers and the labels behind a dot in a proof by hand. Files of src/ change in clauses, `ghost use` items and comments alone, where such names stand.
"""

import collections
import glob
import os
import re
import sys

WORD = re.compile(r'[^\s(){}.;,@"«»]+')
CAMEL = re.compile(r"(?<=[a-z0-9])[A-Z]")
DECLARED = re.compile(r"(?m)^[ ]*(?:abbrev |unfoldable |pub |ruleset |let )*([^\s(){}.;,@\"«»:]+)(?: \{[^{}\n]*\})* : (tie\.|goal\.)?")
USE = re.compile(r"(?m)^(?:ghost |pub )?use ([^\s;{]+)(?:\{([^}]*)\})?")
OWN = re.compile(r"Rattle\.(\w+)\.")
# Names that are a parameter, a field or a constant of src/ too, where a clause has both.
FUNCTIONS = {
    "unitType": "unit_type_of",
    "layerId": "layer_id_of",
    "temporalIdPlus1": "temporal_id_plus1_of",
    "bitDepth": "bit_depth_of",
    "numSublayers": "num_sublayers_of",
    "numBytesConstraintInfo": "num_bytes_constraint_info_of",
    "zeroByte": "zero_byte_of",
}
# Of these the field of a record keeps the plain name.
FIELDS = ("unitType",)


def is_camel(word):
    return bool(re.match(r"[a-z]", word) and CAMEL.search(word))


def snake(word):
    return CAMEL.sub(lambda m: "_" + m[0].lower(), word).replace("-", "_")


def files(top, ending):
    found = glob.glob(os.path.join(top, "crates", "*", "**", "*" + ending), recursive=True)
    return sorted(p for p in found if "/out/" not in p)


def code_of(text):
    return re.sub(r"(?m)(^|\s)--.*$", r"\1", text)


def declared(top):
    """Each name that an antt file declares, with the files; goals of proofs left out."""
    names, goals = collections.defaultdict(set), collections.defaultdict(set)
    for p in files(top, ".antt"):
        with open(p, encoding="utf-8") as f:
            text = code_of(f.read())
        for m in DECLARED.finditer(text):
            (goals if m[2] else names)[p if m[2] else m[1]].add(m[1] if m[2] else p)
    return names, goals


def lemma_names(names):
    """The new name of each dashed lemma, and of each plain one that meets a definition."""
    taken = {snake(n) for n in names if "-" not in n and (is_camel(n) or not any("/specs/" not in p for p in names[n]))}
    taken |= {n for n in names if "-" not in n and not is_camel(n)}
    table = {}
    for n in names:
        if n[:1].isupper() or is_camel(n):
            continue
        if "-" in n:
            new = snake(n)
            table[n] = new + "_lem" if new in taken else new
        elif "_" in n and all("/proofs/" in p for p in names[n]) and any(is_camel(o) and snake(o) == n for o in names):
            table[n] = n + "_lem"
    return table


def imported(text):
    """The names that a file takes from a library that is not the repository's."""
    found = set()
    for m in USE.finditer(text):
        own = OWN.match(m[1])
        if own and own[1] not in ("std", "core"):
            continue
        found.update(w.strip().split(" as ")[-1].strip() for w in (m[2] or "").split(","))
    return found


def turned(word, before, after, table, stay, hand):
    if word in stay:
        return word
    behind_dot = before.endswith(".")
    if is_camel(word):
        if word in FUNCTIONS:
            field = word in FIELDS and (behind_dot or re.match(r"»? =", after) or re.search(r"(^|\n) +pub «?$", before))
            return snake(word) if field else FUNCTIONS[word]
        return snake(word)
    if word in table and not (hand and behind_dot):
        return table[word]
    return word


def turn_code(text, table, stay, hand):
    out, at = [], 0
    for m in WORD.finditer(text):
        out.append(text[at:m.start()])
        out.append(turned(m[0], text[max(0, m.start() - 40):m.start()], text[m.end():m.end() + 4], table, stay, hand))
        at = m.end()
    return "".join(out) + text[at:]


def turn_comment(text, table, stay):
    text = re.sub(r"(?<![\w.'-])[a-z][a-z0-9]*(?:[A-Z][a-z0-9]*)+\b", lambda m: turned(m[0], "", "", {}, stay, False), text)
    return re.sub(r"`([^`\s]+)`", lambda m: "`" + table.get(m[1], m[1]) + "`", text)


def turn_antt(text, table, stay, hand):
    out = []
    for line in text.split("\n"):
        m = re.search(r"(^|\s)--(\s|$)", line)
        code, comment = (line[: m.start()], line[m.start():]) if m else (line, "")
        out.append((code, comment))
    lines = turn_code("\n".join(c for c, _ in out), table, stay, hand).split("\n")
    return "\n".join(c + turn_comment(k, table, stay) for c, (_, k) in zip(lines, out))


def turn_rust(text, stay):
    return re.sub(r"(?<![\w-])[a-z][a-z0-9]*(?:[A-Z][a-z0-9]*)+\b", lambda m: turned(m[0], text[max(0, m.start() - 40):m.start()], text[m.end():m.end() + 4], {}, stay, False), text)


def write(path, new, old):
    if new != old:
        with open(path, "w", encoding="utf-8") as f:
            f.write(new)


def main(top):
    names, goals = declared(top)
    table = lemma_names(names)
    for p in files(top, ".antt"):
        with open(p, encoding="utf-8") as f:
            text = f.read()
        stay = imported(code_of(text)) | goals.get(p, set())
        write(p, turn_antt(text, table, stay, p.endswith("/Proof.antt")), text)
    for p in files(top, ".rt"):
        with open(p, encoding="utf-8") as f:
            text = f.read()
        write(p, turn_rust(text, imported(text)), text)
    for p in files(top, ".edit"):
        with open(p, encoding="utf-8") as f:
            text = f.read()
        write(p, turn_code(text, {k: v for k, v in table.items() if "-" in k}, set(), False), text)
    return 0


if __name__ == "__main__":
    raise SystemExit(main(sys.argv[1] if len(sys.argv) > 1 else "."))
