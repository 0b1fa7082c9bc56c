#!/usr/bin/env python3
"""Brings this repository's own definitions and lemmas to snake case, and the crate `log` to the name `logs`.

usage: tools/spell_names.py FOLDER      the repository as port.py left it; files are rewritten in place

Run once, behind port.py. A declared name (a definition, a lemma, a field or a constructor) that begins with a small letter and has a dash or
a capital gets plain underscores: `reportNeed` is `report_need`, `heard-count` is `heard_count`; a lemma that would then have a definition's name
ends in `_lem`. Types, modules, names of a library, the labels that the check makes for a function's goals and Rust's functions stay. The kit
has a library `log`, so the crate of that name is called `logs`.
"""
import os
import re
import sys

WORD = re.compile(r'[^\s(){}.;,@"«»`]+')
DECLARED = re.compile(r"(?m)^ *(?:(?:pub|abbrev|unfoldable|pattern) )*([^\s(){}.;,@\"«»]+)(?: \{[^{}\n]*\})* :(?= |$)")
USE = re.compile(r"(?m)\buse ([^\s;{]+)(\{[^;}]*\})?")
# Fields that may have a definition's name.
FIELDS = ("link-count", "behind-head")
# Fields that are called otherwise, since their definition's name is used beside them.
RENAMED = {"is-from": "kind_from", "is-to": "kind_to"}
# Two lemmas whose plain spelling is that of the definition `toWord`, by the files that name them.
INSTEAD = {"to_word": "to_word_below", "from-word": "from_word_below"}
NAMED_IN = ("crates/log/proofs/Laws.antt", "crates/log/proofs/Walk.antt")


def snake(name):
    return re.sub(r"(?<=[a-z0-9])[A-Z]", lambda m: "_" + m[0].lower(), name).replace("-", "_")


def texts(root, *ends):
    for folder, dirs, files in os.walk(root):
        dirs[:] = sorted(d for d in dirs if d not in ("out", ".git", "target", "build"))
        for f in sorted(files):
            if f.endswith(ends):
                yield os.path.join(folder, f)


def read(path):
    with open(path, encoding="utf-8") as f:
        return f.read()


def write(path, text):
    with open(path, "w", encoding="utf-8") as f:
        f.write(text)


def code(text):
    return re.sub(r"(?m)(?<![^\s(){}.;,@])--.*$", "", text)


def own(path):
    return path.startswith("Rattle.") and path.split(".")[1] in CRATES


def imported(text):
    """The names that the text takes from a library, and those that it takes from this repository."""
    library, ours = set(), set()
    for path, items in USE.findall(text):
        names = set(WORD.findall(re.sub(r"\S+ as ", "", items)))
        (ours if own(path) else library).update(names)
    return library, ours


def declared(root):
    """The table of names to turn."""
    found = set()
    for path in texts(os.path.join(root, "crates"), ".antt"):
        of_a_function = re.search(r"/(Proof|Answers|Invariants)\.antt$", path)
        text = code(read(path))
        for m in DECLARED.finditer(text):
            rest = text[m.end() : m.end() + 60].lstrip()
            if of_a_function and re.match(r"(tie|goal)\.|\{M : Type 1\}", rest):
                continue
            found.add(m[1])
    turned = {name: snake(name) for name in sorted(found) if re.match("[a-z]", name) and snake(name) != name and not name.startswith("the-")}
    definitions = {new for old, new in turned.items() if "-" not in old}
    turned = {old: new + "_lem" if "-" in old and new in definitions and old not in FIELDS else new for old, new in turned.items()}
    turned.update({old: new for old, new in RENAMED.items() if old in turned})
    met = {}
    for old, new in turned.items():
        if new in found and new not in INSTEAD:
            print(f"meets: {old} -> {new}, which is declared too")
        if new in met:
            print(f"meets: {old} and {met[new]} -> {new}")
        met[new] = old
    return turned


def turn(text, table, skip, made=r"(?!)"):
    """Turns the words of the table, but for those in skip, and those right behind what `made` fits, which the check makes."""
    out, at = [], 0
    for m in WORD.finditer(text):
        word = m[0]
        if word in table and word not in skip:
            before = text[max(0, m.start() - 8) : m.start()]
            if not re.search(made, before):
                out += [text[at : m.start()], table[word]]
                at = m.end()
    return "".join(out) + text[at:]


def clauses(text, table, skip):
    """Turns a Rust text: the `ghost use` lines and the clauses."""
    spans = []
    for m in re.finditer(r"(?m)^ *ghost use [^;]*;", text):
        spans.append((m.start(), m.end()))
    for m in re.finditer(r"\b(?:requires|ensures|ghost)\b[^{};\n]*\{", text):
        depth, i = 1, m.end()
        while depth:
            depth += {"{": 1, "}": -1}.get(text[i], 0)
            i += 1
        spans.append((m.end(), i))
    out, at = [], 0
    for a, b in sorted(spans):
        if a < at:
            continue
        out += [text[at:a], turn(text[a:b], table, skip)]
        at = b
    return "".join(out) + text[at:]


def crate_log(root):
    """The crate `log` is `logs` from here on."""
    os.rename(os.path.join(root, "crates/log"), os.path.join(root, "crates/logs"))
    path = os.path.join(root, "crates.txt")
    write(path, re.sub(r"(?m)(?<=[ ])log(?=[ :\n])|^log(?=:)", "logs", read(path)))
    for path in texts(os.path.join(root, "crates"), ".antt", ".rt", ".edit"):
        text = read(path)
        new = re.sub(r"\bRattle([.·])log(?=[.·])", r"Rattle\1logs", text)
        if path.endswith((".rt", ".edit")):
            new = re.sub(r"(?<![\w:])log(?=::)", "logs", new)
        if path.endswith(".antt"):
            new = re.sub(r"`log(?=::)", "`logs", new)
        if new != text:
            write(path, new)


def main(root):
    global CRATES
    CRATES = set(os.listdir(os.path.join(root, "crates")))
    table = declared(root)
    for path in texts(os.path.join(root, "crates"), ".antt", ".rt"):
        text = read(path)
        library, ours = imported(text if path.endswith(".rt") else code(text))
        here = set(WORD.findall(code(text)))
        skip = library & set(table)
        for name in sorted(skip):
            print(f"stays: {path}: {name} is a library's here")
        for name in sorted(here & set(table)):
            if table[name] in here and name not in skip and path.endswith(".antt"):
                print(f"look: {path}: {name} becomes {table[name]}, which stands here already")
        here = {**table, **INSTEAD} if path.endswith(NAMED_IN) else table
        made = r"(?:^|[^\w-])(?:tie|goal|c)\.$|\.before\.$" if path.endswith("/Proof.antt") else r"(?!)"
        new = turn(text, here, skip, made) if path.endswith(".antt") else clauses(text, table, skip)
        if new != text:
            write(path, new)
    crate_log(root)
    print(f"{len(table)} names turned")


if __name__ == "__main__":
    main(sys.argv[1])
