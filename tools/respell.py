#!/usr/bin/env python3
"""Brings the names of this repository's own definitions, lemmas and crates to today's spelling: usage: respell.py, at the top.

It runs once, on what port.py made. Crates get the name of their layer in front (ROOMS); a crate that is named as a library of the
kit gets another. Definitions, fields, constructors and lemmas are written in snake case. A lemma that would fall together with
another name gets _lem behind it. Names that Rattle makes for proofs, functions of src/, exported C names, strings, inputs and
outputs keep theirs. A name that both this repository and the kit's library declare is left where the file takes it from the library.
"""

import collections
import os
import re
import sys

ROOMS = dict(
    line.split()
    for line in """\
json json_grammar
figures document_figures
scan json_scan
numeral json_number
eights c_numbers
putting write_bytes
walk json_walk
moving json_move
cases vectors_cases
characters json_decode
numbers document_numbers
spelling json_laws
alone json_alone
meaning document_meaning
strings json_lay
timed bench_walk
naming json_same
quoting write_strings
texts read_text
printing write_numbers
kinds table_kinds
fields read_fields
names read_names
handing table_strings
telling c_answers
words table_words
records read_records
opening read_type
dosages read_dosages
details write_details
doses check_doses
area c_area
visits read_details
checking check_table
plain write_posology
held c_area_back
heads read_head
building read_table
rewriting rewriter
lines checker_lines
shelf_vectors vectors_shelf
""".splitlines()
)

# Names whose digits are words of their own.
BY_HAND = {"is8ToB": "is_8_to_b", "isTo7": "is_to_7", "no-E": "no_upper_e", "no-e": "no_lower_e"}

# Names that port.py wrote with _, and that a definition's name becomes: by the module that declares them.
MAKE_WAY = {
    ("document.proofs.Taken", "one_more"): "one_more_lem",
    ("json_laws.proofs.Digits", "one_more"): "one_more_lem",
    ("document.specs.Same", "no_member"): "no_members",
    ("document_meaning.proofs.PlainThen", "plain_then"): "plain_then_lem",
    ("shelf.proofs.Serving", "two_bytes"): "two_bytes_lem",
}

TOKEN = re.compile(r"""b?"(?:[^"\\]|\\.)*"|b'(?:[^'\\]|\\.)'|--[^\n]*|//[^\n]*|[^\s(){}.;,@"«»\[\]\\:]+""")
NAME = re.compile(r"[a-z][\w]*(?:-[\w]+)*'*")
DECLARES = re.compile(r"(?m)^ *(?:(?:pub|abbrev|unfoldable|pattern|mutual) )*(" + r"[^\s(){}.;,@\"«»\[\]\\:]+" + r")(?:\{[^}]*\})? : (.*)")
OF_A_GOAL = re.compile(r"(tie\.|(\(t : ℕ\) → )?[\w+-]+\.Need-)")
IMPORTS = re.compile(r"(?m)^ *(?:pub |ghost )*use ([\w.+·-]+?)\.\{([^}]*)\}")
ALIAS = re.compile(r"(?m)^ *(?:pub |ghost )*use [\w.+·-]+ as ([\w-]+)")


def texts(root, endings):
    for folder, folders, files in os.walk(os.path.join(root, "crates")):
        folders[:] = sorted(it for it in folders if it != "out")
        for it in sorted(files):
            if it.endswith(endings):
                yield os.path.join(folder, it)


def read(path):
    with open(path, encoding="utf-8") as it:
        return it.read()


def write(path, text):
    with open(path, "w", encoding="utf-8") as it:
        it.write(text)


def snake(name):
    if name in BY_HAND:
        return BY_HAND[name]
    name = re.sub(r"(?<=[a-z0-9])(?=[A-Z])|(?<=[A-Z])(?=[A-Z])", "_", name)
    return name.replace("-", "_").lower()


def rooms(root):
    for old, new in ROOMS.items():
        if os.path.isdir(os.path.join(root, "crates", old)):
            os.rename(os.path.join(root, "crates", old), os.path.join(root, "crates", new))
    words = "|".join(ROOMS)
    lines = read(os.path.join(root, "crates.txt")).splitlines(keepends=True)
    lines = [it if it.startswith("#") else re.sub(rf"\b({words})\b", lambda m: ROOMS[m[1]], it) for it in lines]
    write(os.path.join(root, "crates.txt"), "".join(lines))
    for path in texts(root, (".rt", ".antt", ".edit")):
        text = read(path)
        new = re.sub(rf"\bRattle\.({words})\.", lambda m: f"Rattle.{ROOMS[m[1]]}.", text)
        if not path.endswith(".antt"):
            # of a crate in code: behind a space, a bracket or an operator, and before ::
            new = re.sub(rf"(?m)(?<![\w:.\"'-])({words})::", lambda m: f"{ROOMS[m[1]]}::", new)
            new = re.sub(rf"(?m)^use ({words});", lambda m: f"use {ROOMS[m[1]]};", new)
        if new != text:
            write(path, new)


def make_way(root):
    for (module, old), new in MAKE_WAY.items():
        own = os.path.join(root, "crates", *module.split(".")) + ".antt"
        for path in texts(root, (".antt",)):
            text = read(path)
            for m in re.finditer(r"(?m)^use Rattle\." + re.escape(module) + r"(?:\.\w+)? as (\w+)", text):
                text = re.sub(rf"(?<![\w.'-]){m[1]}\.{old}(?![\w'-])", f"{m[1]}.{new}", text)
                write(path, text)
            brought = [m for m in IMPORTS.finditer(text) if m[1] == "Rattle." + module and re.search(rf"\b{old}\b", m[2])]
            if path == own or brought:
                write(path, re.sub(rf"(?<![\w.'-]){old}(?![\w'-])", new, text))


def declared(root):
    """By name, where it is declared: 'specs' or 'proofs'. Goals' names are Rattle's."""
    found = collections.defaultdict(set)
    for path in texts(root, (".antt",)):
        kind = "specs" if "/specs/" in path else "proofs"
        text = read(path)
        for m in DECLARES.finditer(text):
            if not OF_A_GOAL.match(m[2]) and NAME.fullmatch(m[1]):
                found[m[1]].add(kind)
        for m in re.finditer(r"(?m)^ +(?:pub )?((?:[a-z][^\s(){}:]*)(?: [a-z][^\s(){}:]*)*) : ", text):
            for name in m[1].split():
                if re.search(r"[A-Z-]", name) and NAME.fullmatch(name):
                    found[name].add(kind)
    return found


def new_names(root):
    found = declared(root)
    taken = collections.defaultdict(set)
    for name in found:
        taken[snake(name)].add(name)
    new = {}
    for short, names in taken.items():
        for name in sorted(names):
            if name == short or not re.search(r"[A-Z-]", name):
                continue
            lemma = "-" in name
            new[name] = short + "_lem" if lemma and len(names) > 1 else short
    both = [it for it, n in collections.Counter(new.values()).items() if n > 1]
    for name in both:
        print(f"look: {sorted(k for k, v in new.items() if v == name)} fall together as {name}")
    return new


def in_strings(root):
    """The words of strings: JSON's names, which comments cite too."""
    words = set()
    for path in texts(root, (".rt", ".antt")):
        for it in re.findall(r'"(?:[^"\\\n]|\\.)*"', read(path)):
            words |= set(re.findall(r"[A-Za-z]\w*", it))
    return words


def together(path, text, new):
    """Says where a file has a word already that another of its words becomes."""
    words = {it for it in TOKEN.findall(text) if not it.startswith(("--", "//", '"', 'b"', "b'"))}
    for word in sorted(words & set(new)):
        if new[word] in words:
            print(f"look: {path}: {word} becomes {new[word]}, which it has")


def respell(text, new, quoted):
    """Respells code; in a comment, a camel-case word that no string has, and what stands between backticks."""
    library = set()
    for m in IMPORTS.finditer(text):
        if not re.match(r"Rattle\.(?!std\b|core\b)", m[1]):
            library |= {it.split(" as ")[0].strip() for it in m[2].split(",")}
    goals = {m[1] for m in DECLARES.finditer(text) if OF_A_GOAL.match(m[2])}
    aliases = set(ALIAS.findall(text))

    def name_of(word, before):
        if word in library or word in goals:
            return word
        if word not in new:
            return snake(word) if re.fullmatch(r"[a-z]\w*[A-Z]\w*'*", word) else word
        if "-" in word and before.endswith("."):
            owner = re.search(r"([^\s(){}.;,@\"\[\]\\:]+)\.$", before)
            if owner and owner[1][0].islower() and owner[1] not in aliases:
                return word
        return new[word]

    out, at = [], 0
    for m in TOKEN.finditer(text):
        out.append(text[at : m.start()])
        at, word = m.end(), m[0]
        if word.startswith(("--", "//")):
            word = re.sub(r"`[^`\n]*`", lambda q: re.sub(r"[a-z][\w-]*'*", lambda w: new.get(w[0], w[0]), q[0]), word)
            word = re.sub(
                r"(?<![\w\"'.-])[a-z][a-z0-9]*[A-Z]\w*(?![\w\"-])", lambda w: w[0] if w[0] in quoted else new.get(w[0], w[0]), word
            )
        elif word[0] not in "\"b" or not re.match(r"b?[\"']", word):
            word = name_of(word, text[max(0, m.start() - 80) : m.start()])
        out.append(word)
    return "".join(out) + text[at:]


def edits(text, new, quoted):
    return "".join(
        re.sub(r"^(old|new): (.*)", lambda m: f"{m[1]}: {respell(m[2], new, quoted)}", line)
        if line.startswith(("old:", "new:"))
        else line
        for line in text.splitlines(keepends=True)
    )


def main(root):
    rooms(root)
    make_way(root)
    new = new_names(root)
    quoted = in_strings(root)
    for path in texts(root, (".rt", ".antt", ".edit")):
        text = read(path)
        together(path, text, new)
        now = edits(text, new, quoted) if path.endswith(".edit") else respell(text, new, quoted)
        if now != text:
            write(path, now)
    print(f"{len(new)} names")
    return new


if __name__ == "__main__":
    main(sys.argv[1] if len(sys.argv) > 1 else ".")
