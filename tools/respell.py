#!/usr/bin/env python3
"""Spells the repository's own definitions and lemmas as the kit spells its own: words in snake case, types and modules in
camel case, a dash only where it joins two names (`length-bytes_of`), an underscore before a plain word (`filled_none`).

tools/respell.py          rewrites crates/*/{src,specs,proofs} and crates/*/must-fail in place, once, after the kit's port.py
tools/respell.py --table  prints what would be renamed, old and new, and writes nothing
tools/respell.py --pages FILE...  rewrites code spans of these pages by the table that stands in tools/respell.tsv

It goes by the names that the .antt files declare. Names of the kit, of Rust functions, fields and exports, strings, inputs
and outputs stay, and so do the names of goals in proofs/*/Proof.antt, which are the kit's. A new name that stands in a file
already, or that two old names would share, stops it before anything is written."""

import collections
import os
import re
import sys

ROOT = os.path.dirname(os.path.dirname(os.path.abspath(__file__)))
TABLE = os.path.join(ROOT, "tools", "respell.tsv")
WORD = r"[^\s(){}.;,@\"«»\[\]]+"
TOKEN = re.compile(r"--[^\n]*|\"(?:[^\"\\\n]|\\.)*\"|" + WORD)
SPAN = re.compile(r"`[^`\n]+`")
DECLARED = re.compile(
    r"^[ \t]*(?:(?:abbrev|unfoldable|pub|private|opaque|data|record|mutual)[ \t]+)*"
    r"((?:[^\s(){}.;,:@\"]+[ \t]+)*?[^\s(){}.;,:@\"]+)(?:[ \t]+[({][^\n]*?[)}])*[ \t]+:(?=\s)", re.M)
USE = re.compile(r"^\s*(?:pub |ghost )*use ([^\s{;]+?)(?:\.\{([^}]*)\})?;?$", re.M | re.S)
BOUND = re.compile(r"[({]([^(){}:\n]+?) :(?=\s)")
# words that name an operation or a fact of the kit, before which a dash stands
NAMES = set("add sub mul div mod eq ne le lt min max zero one suc pred length append take drop set map replicate filter "
            "round cond not and or true false nil cons fold sqrt neg pow lit bits fin inf nan".split())
# a name that is taken by another: what it is called instead
INSTEAD = {name: name.replace("-", "_") + "_lem" for name in (
    "build-sorting", "built-sorting", "forked-sorting", "partition-sorting", "subtree-sorting", "tree-sorting")}
INSTEAD["laid-getD"] = "laid-get_or"
# lemmas that have the new name of their definition, and the files that state or cite them
LEMMAS = {
    "block_room": ("list_to_block/proofs/AnswerBytes", "list_to_block/proofs/convert/Proof"),
    "node_in": ("tree_laws/specs/Laws/NodeLaws",),
    "row_fits": ("light_rows/proofs/NodePlaces", "light_rows/proofs/nodes/write_node/Proof"),
    "row_written": ("lamps/proofs/BlockLoop",),
    "record_of": ("packed_bvh/proofs/PackLaws",),
}


def read(path):
    with open(path, encoding="utf-8", newline="") as file:
        return file.read()


def write(path, text):
    with open(path, "w", encoding="utf-8", newline="") as file:
        file.write(text)


def texts(*endings):
    for folder, folders, files in os.walk(os.path.join(ROOT, "crates")):
        folders[:] = sorted(f for f in folders if f != "out")
        for file in sorted(files):
            if file.endswith(endings):
                yield os.path.join(folder, file)


def bare(text):
    return re.sub(r"--[^\n]*", "", text)


def own(module, crates):
    return module.startswith("Rattle.") and module.split(".")[1] in crates


def declared():
    """The names that the .antt files declare or bind, and the names that they take from the kit."""
    crates = set(os.listdir(os.path.join(ROOT, "crates")))
    names, kit = set(), set()
    for path in texts(".antt"):
        text = bare(read(path))
        goals = path.endswith("Proof.antt")
        found = set()
        for match in DECLARED.finditer(text):
            found |= set(match[1].split())
        for match in BOUND.finditer(text):
            found |= {word for word in match[1].split() if re.search(r"[a-z0-9][A-Z]", word)}
        for match in re.finditer(r"λ ([^().λ]+)\.", text):
            found |= {word for word in match[1].split() if re.search(r"[a-z0-9][A-Z]", word)}
        for match in re.finditer(r"let ([^\s=:]+) (?:=|:)", text):
            found |= {word for word in [match[1]] if re.search(r"[a-z0-9][A-Z]", word)}
        for match in re.finditer(r"\bas ([a-z]\w*[A-Z]\w*)", text):
            found.add(match[1])
        # a goal's name is the kit's, and so are names with a dash beside it
        names |= {name for name in found if not (goals and "-" in name)}
        for match in USE.finditer(text):
            if match[2] and not own(match[1], crates):
                kit |= {name.split(" as ")[0].strip() for name in match[2].split(",")}
    for path in texts(".rt"):
        for match in re.finditer(r"\bas ([a-z]\w*[A-Z]\w*)", read(path)):
            names.add(match[1])
    return names, kit


def snake(word):
    word = re.sub(r"(?<=[a-z0-9])([A-Z]+)(?=[A-Z][a-z])", lambda m: "_" + m[1].lower(), word)
    return re.sub(r"(?<=[a-z0-9])([A-Z])", lambda m: "_" + m[1].lower(), word)


def spelled(name, names, kit):
    if not re.match(r"[^\W\d_]", name) or name[0].isupper() and "-" not in name:
        return name
    if "◌" in name:
        return name
    parts = name.replace("′", "'").split("-")
    out = parts[0] if parts[0][:1].isupper() else snake(parts[0])
    for part in parts[1:]:
        joins = part[:1].isupper() or part in NAMES or part in names or part in kit or snake(part) in names
        new = part if part[:1].isupper() else snake(part)
        out += ("-" if joins else "_") + new
    return INSTEAD.get(name, out)


def table():
    names, kit = declared()
    rows = {}
    for name in sorted(names - kit):
        new = spelled(name, names, kit)
        if new != name:
            rows[name] = new
    return rows, names, kit


def turned(text, rows, rust=False):
    def one(match):
        word = match[0]
        if word.startswith("--") or word.startswith('"'):
            return word if word.startswith('"') else SPAN.sub(lambda m: turned(m[0], rows), word)
        if word.startswith("`") or word.endswith("`"):
            return re.sub(r"[^`]+", lambda m: rows.get(m[0], m[0]), word)
        # a prefix or a suffix that is no part of a name
        inner = re.fullmatch(r"(←?)(.*?)(:?)", word)
        return inner[1] + rows.get(inner[2], inner[2]) + inner[3]

    if not rust:
        return TOKEN.sub(one, text)
    pieces = re.split(r"(//[^\n]*|\"(?:[^\"\\\n]|\\.)*\")", text)
    for k, piece in enumerate(pieces):
        if piece.startswith("//"):
            pieces[k] = SPAN.sub(lambda m: TOKEN.sub(one, m[0]), piece)
        elif not piece.startswith('"'):
            pieces[k] = TOKEN.sub(one, piece)
    return "".join(pieces)


def tokens(text):
    """The words of a text but for the parts of a path."""
    text = bare(text)
    return {match[0] for match in TOKEN.finditer(text)
            if text[match.start() - 1:match.start()] != "." and text[match.end():match.end() + 1] != "."}


def lemmas(path, text):
    for name, files in LEMMAS.items():
        if path.endswith(".antt") and any(path.endswith(f"/crates/{file}.antt") for file in files):
            text = re.sub(rf"(?<![\w.'-]){name}(?![\w.'-])", name + "_lem", text)
    return text


def clashes(rows, names, kit):
    found = []
    shared = collections.defaultdict(list)
    for old, new in rows.items():
        shared[new].append(old)
    for new, olds in shared.items():
        if len(olds) > 1:
            found.append(f"{' and '.join(olds)} would both be {new}")
        if new in kit:
            found.append(f"{' '.join(olds)}: {new} is taken from the kit")
    for path in texts(".antt", ".rt"):
        have = tokens(lemmas(path, read(path)))
        for word in have & set(rows):
            if rows[word] in have and path.endswith(".antt"):
                found.append(f"{os.path.relpath(path, ROOT)}: {word} -> {rows[word]}, which stands there")
    return found


def rust_clashes(rows):
    """In a clause a parameter hides a definition of its name."""
    found = []
    for path in texts(".rt"):
        text = read(path)
        for match in re.finditer(r"\bfn (\w+)(?:<[^>]*>)?\(([^)]*)\)", text):
            clauses = text[match.end():text.find("\n{", match.end())] if text.find("\n{", match.end()) > 0 else ""
            parameters = set(re.findall(r"(\w+):", match[2]))
            for word in tokens(clauses) & set(rows):
                if rows[word] in parameters:
                    found.append(f"{os.path.relpath(path, ROOT)}: {match[1]}: {word} -> {rows[word]}, a parameter")
    return found


def main(words):
    if words[:1] == ["--pages"]:
        rows = dict(line.split("\t") for line in read(TABLE).splitlines())
        for page in words[1:]:
            text = read(page)
            new = SPAN.sub(lambda m: turned(m[0], rows), text)
            if new != text:
                write(page, new)
        return 0
    rows, names, kit = table()
    if words == ["--table"]:
        for old, new in rows.items():
            print(f"{old}\t{new}")
        for line in clashes(rows, names, kit) + rust_clashes(rows):
            print("clash: " + line, file=sys.stderr)
        return 0
    found = clashes(rows, names, kit) + rust_clashes(rows)
    if found:
        print("\n".join(found), file=sys.stderr)
        return 1
    for path in list(texts(".antt", ".rt", ".edit")):
        text = read(path)
        if path.endswith(".edit"):
            new = "\n".join(line[:5] + turned(line[5:], rows, True) if line[:5] in ("old: ", "new: ") else line
                            for line in text.split("\n"))
        else:
            new = turned(lemmas(path, text), rows, path.endswith(".rt"))
        if new != text:
            write(path, new)
    write(TABLE, "".join(f"{old}\t{new}\n" for old, new in rows.items()))
    return 0


if __name__ == "__main__":
    sys.exit(main(sys.argv[1:]))
